//! Prints the canonical text of a manifest, completed by a list of files in place of a folder, as that of an archive. The
//! word is the path of the manifest, and standard input has the files next to it, a path on each line, as `src/lib.rs`.

use cargo_manifest::calls::{completed, Listings};
use std::collections::{BTreeMap, BTreeSet};
use std::io::{self, ErrorKind};
use std::process::ExitCode;
use std::{env, fs};

/// The folders that the files stand in, each with the names in it.
type Folders = BTreeMap<String, BTreeSet<String>>;

/// Puts a file into its folder, that folder into its own, and so on up to `.`.
fn put(folders: &mut Folders, file: &str) {
    let (folder, name) = file.rsplit_once('/').unwrap_or((".", file));
    folders.entry(folder.into()).or_default().insert(name.into());
    if folder != "." {
        put(folders, folder);
    }
}

/// The listings of these folders.
fn listings(folders: &Folders) -> Listings {
    Listings::gather(|path| match folders.get(path) {
        Some(names) => Ok(names.iter().cloned().collect()),
        None => Err(ErrorKind::NotFound.into()),
    })
}

fn main() -> io::Result<ExitCode> {
    let Some(path) = env::args_os().nth(1) else {
        eprintln!("usage: listed FILE < FILES");
        return Ok(ExitCode::from(2));
    };
    let mut folders = Folders::from([(".".into(), BTreeSet::new())]);
    for file in io::stdin().lines() {
        put(&mut folders, &file?);
    }
    match completed(&fs::read(path)?, &listings(&folders)) {
        Ok(text) => {
            print!("{text}");
            Ok(ExitCode::SUCCESS)
        }
        Err(error) => {
            eprintln!("error: {error}");
            Ok(ExitCode::FAILURE)
        }
    }
}
