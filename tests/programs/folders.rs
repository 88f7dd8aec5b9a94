//! The folders that the programs of this folder complete a manifest over.

use cargo_manifest::AbstractFilesystem;
use std::collections::{BTreeMap, BTreeSet};
use std::io::{self, ErrorKind};
use std::path::Path;

/// Files as a folder has them: each folder on the way to one lists it, and no other folder is there.
pub struct Folders(BTreeMap<String, BTreeSet<Box<str>>>);

impl Folders {
    pub fn of(files: &[String]) -> Folders {
        let mut folders = BTreeMap::from([(String::new(), BTreeSet::new())]);
        for file in files {
            let mut path = file.as_str();
            while !path.is_empty() {
                let (folder, name) = path.rsplit_once('/').unwrap_or(("", path));
                folders.entry(folder.to_string()).or_default().insert(Box::from(name));
                path = folder;
            }
        }
        Folders(folders)
    }
}

impl AbstractFilesystem for Folders {
    fn file_names_in<T: AsRef<Path>>(&self, rel_path: T) -> io::Result<BTreeSet<Box<str>>> {
        let path = rel_path.as_ref().to_str().expect("UTF-8");
        let path = if path == "." { "" } else { path };
        self.0.get(path).cloned().ok_or_else(|| ErrorKind::NotFound.into())
    }
}
