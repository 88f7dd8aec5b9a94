//! What the program `manifest_canon` does, through the library: the same words, the same output, the same lines.

use cargo_manifest::calls::{canonical, completed, resolved_completed, Listings, Part, Refusal};
use std::env;
use std::ffi::OsString;
use std::fs;
use std::io::{self, Read, Write};
use std::path::Path;
use std::process::ExitCode;

const USAGE: &str = "usage: manifest_canon canon FILE | canon - | complete FILE [--workspace ROOT]";

/// A name, between quotes where it is no bare key of TOML.
fn key(name: &str) -> String {
    let is_bare = |byte: u8| byte.is_ascii_alphanumeric() || byte == b'_' || byte == b'-';
    if !name.is_empty() && name.bytes().all(is_bare) {
        return name.into();
    }
    let mut quoted = String::from("\"");
    for c in name.chars() {
        match c {
            '"' | '\\' => quoted.extend(['\\', c]),
            c if c.is_ascii_control() => quoted.push_str(&format!("\\u{:04X}", u32::from(c))),
            c => quoted.push(c),
        }
    }
    quoted.push('"');
    quoted
}

/// The line of a refusal.
fn line(error: &Refusal) -> String {
    let said = match error {
        Refusal::Toml { .. } => "toml".into(),
        Refusal::Schema { cause, path, .. } => format!("schema: {cause} at {path}"),
        Refusal::Utf8(Part::Manifest | Part::Root) => "utf8".into(),
        Refusal::Io(_) => "io".into(),
        Refusal::Other(text) | Refusal::Date(text) => format!("other: {text}"),
        Refusal::NotInWorkspace(name) => format!("not in workspace: {}", key(name)),
        Refusal::InheritedInWorkspace(name) => format!("inherited in workspace: {}", key(name)),
        other => other.to_string(),
    };
    format!("error: {said}")
}

/// The bytes of a file; what cannot be read is reported by `error: io`.
fn file(path: &str) -> Result<Vec<u8>, String> {
    fs::read(path).map_err(|_| "error: io".into())
}

/// The listings of the folder that a file stands in.
fn beside(path: &str) -> Listings {
    match Path::new(path).parent() {
        Some(folder) if folder != Path::new("") => Listings::of_folder(folder),
        _ => Listings::of_folder(Path::new(".")),
    }
}

/// The text that the words ask for, or the line and the status of a refusal.
fn text(words: &[&str]) -> Result<String, (String, u8)> {
    match words {
        [] | ["canon", _] => {}
        ["complete", path] if *path != "-" => {}
        ["complete", path, "--workspace", root] if *path != "-" && *root != "-" => {}
        _ => return Err((USAGE.into(), 2)),
    }
    printed(words).map_err(|line| (line, 1))
}

/// The same for words that ask for something.
fn printed(words: &[&str]) -> Result<String, String> {
    let answer = match words {
        [] | ["canon", "-"] => {
            let mut bytes = Vec::new();
            io::stdin().read_to_end(&mut bytes).map_err(|_| "error: io".to_string())?;
            canonical(&bytes)
        }
        ["canon", path] => canonical(&file(path)?),
        ["complete", path] => completed(&file(path)?, &beside(path)),
        [_, path, _, root] => resolved_completed(&file(path)?, &file(root)?, &beside(path)),
        _ => return Err(USAGE.into()),
    };
    answer.map_err(|error| line(&error))
}

fn main() -> ExitCode {
    let words: Result<Vec<String>, _> = env::args_os().skip(1).map(OsString::into_string).collect();
    let answer = match &words {
        Ok(words) => text(&words.iter().map(String::as_str).collect::<Vec<_>>()),
        Err(_) => Err((USAGE.into(), 2)),
    };
    let (line, status) = match answer {
        Ok(text) if io::stdout().write_all(text.as_bytes()).is_ok() => return ExitCode::SUCCESS,
        Ok(_) => ("error: io".into(), 1),
        Err(refused) => refused,
    };
    eprintln!("{line}");
    ExitCode::from(status)
}
