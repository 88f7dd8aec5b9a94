//! The inputs of `tests/rust-answers` of the repository.

use std::fs;
use std::path::Path;
use std::str::Chars;

/// A string of JSON, of which the first quote was read.
fn string(chars: &mut Chars<'_>) -> Option<String> {
    let mut units: Vec<u16> = Vec::new();
    loop {
        let c = match chars.next()? {
            '"' => return String::from_utf16(&units).ok(),
            '\\' => match chars.next()? {
                'n' => '\n',
                'r' => '\r',
                't' => '\t',
                'b' => '\u{8}',
                'f' => '\u{c}',
                'u' => {
                    let (digits, rest) = chars.as_str().split_at_checked(4)?;
                    *chars = rest.chars();
                    units.push(u16::from_str_radix(digits, 16).ok()?);
                    continue;
                }
                other => other,
            },
            other => other,
        };
        units.extend_from_slice(c.encode_utf16(&mut [0; 2]));
    }
}

/// The string, or the strings, that a line has at a key.
pub fn strings(line: &str, key: &str) -> Vec<String> {
    let head = format!("\"{key}\": ");
    let Some((_, value)) = line.split_once(&head) else { return Vec::new() };
    let mut chars = value.chars();
    match chars.next() {
        Some('"') => string(&mut chars).into_iter().collect(),
        _ => {
            let mut found = Vec::new();
            while let Some('"') = chars.next() {
                found.extend(string(&mut chars));
                if !chars.as_str().starts_with(", ") {
                    break;
                }
                chars = chars.as_str()[2..].chars();
            }
            found
        }
    }
}

/// The lines of a file. There are none where the crate stands without the repository.
pub fn lines(file: &str) -> Vec<String> {
    let path = Path::new(env!("CARGO_MANIFEST_DIR")).join("../../tests/rust-answers").join(file);
    let text = fs::read_to_string(path).unwrap_or_default();
    if text.is_empty() {
        println!("nothing is tried: {file} is not there");
    }
    text.lines().map(str::to_owned).collect()
}
