//! What is read and completed, by each of the calls.

use cargo_manifest::{AbstractFilesystem, Error, Filesystem, Manifest, Value};
use std::collections::BTreeSet;
use std::fs;
use std::io;
use std::path::Path;

/// A filesystem that knows another one.
struct Noted<'a>(Filesystem<'a>);

impl AbstractFilesystem for Noted<'_> {
    fn file_names_in<T: AsRef<Path>>(&self, rel_path: T) -> io::Result<BTreeSet<Box<str>>> {
        self.0.file_names_in(rel_path)
    }
}

fn completed<FS: AbstractFilesystem>(mut manifest: Manifest, fs: &FS) -> Result<Manifest, Error> {
    manifest.complete_from_abstract_filesystem(fs)?;
    Ok(manifest)
}

const TEXT: &str = "[package]\nname = 'a-b'\nedition = '2021'\n[package.metadata]\nk = 1\n";

pub fn lines(folder: &Path) -> Vec<String> {
    fs::create_dir_all(folder.join("src/bin")).expect("a folder");
    fs::write(folder.join("src/lib.rs"), "").expect("a file");
    fs::write(folder.join("src/bin/c.rs"), "").expect("a file");
    let path = folder.join("Cargo.toml");
    fs::write(&path, TEXT).expect("a file");
    let read: Manifest = TEXT.parse().expect("a manifest");
    let mut by_path = read.clone();
    by_path.complete_from_path(&path).expect("a folder");
    let all = [
        Manifest::from_path(&path).expect("a manifest"),
        Manifest::from_path(path.to_str().expect("UTF-8")).expect("a manifest"),
        Manifest::from_path(path.clone()).expect("a manifest"),
        Manifest::<Value>::from_path_with_metadata(&path).expect("a manifest"),
        completed(Manifest::from_slice(TEXT.as_bytes()).expect("a manifest"), &Noted(Filesystem::new(folder)))
            .expect("a folder"),
        completed(
            Manifest::<Value>::from_slice_with_metadata(TEXT.as_bytes()).expect("a manifest"),
            &Filesystem::new(folder),
        )
        .expect("a folder"),
    ];
    let names = Filesystem::new(folder).file_names_in(Path::new("src")).expect("a folder");
    let missing = Manifest::from_path(folder.join("no/Cargo.toml"));
    let kind = missing.map_err(|error| matches!(error, Error::Io(fault) if fault.kind() == io::ErrorKind::NotFound));
    vec![format!("{by_path:?}"), format!("{} {names:?} {kind:?}", all.iter().all(|one| *one == by_path))]
}
