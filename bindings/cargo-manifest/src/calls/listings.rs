//! Listings of folders, gathered before the call.

use super::paths::folders_named;
use super::refusal::ListingError;
use std::collections::btree_map::Entry;
use std::collections::{BTreeMap, BTreeSet};
use std::fs;
use std::io;
use std::path::Path;

/// What was found in a folder.
type Listed = Result<BTreeSet<Box<str>>, ListingError>;

/// What was found in a folder, by what lists it.
fn listed_by(list: &mut impl FnMut(&str) -> io::Result<Vec<String>>, path: &str) -> Listed {
    match list(path) {
        Ok(names) => Ok(names.into_iter().map(String::into_boxed_str).collect()),
        Err(fault) => Err(fault.kind().into()),
    }
}

/// The names in a folder on the disk.
fn names_in(folder: &Path) -> io::Result<Vec<String>> {
    let entries = fs::read_dir(folder)?;
    Ok(entries.flatten().filter_map(|entry| entry.file_name().into_string().ok()).collect())
}

/// What the folders of a manifest hold, each by its path from the folder of the manifest, with `/` between its parts, as
/// `src/bin`; that folder itself is `.`. A path that is not among them is not there.
///
/// ```
/// use cargo_manifest::calls::{completed, Listings};
///
/// let mut listings = Listings::new();
/// listings.put("src", ["lib.rs"]);
/// listings.put(".", ["Cargo.toml", "src"]);
/// let text = completed(b"[package]\nname = 'a-b'\nedition = '2021'", &listings)?;
/// assert!(text.contains("name = \"a_b\"\npath = \"src/lib.rs\""));
/// # Ok::<(), cargo_manifest::calls::Refusal>(())
/// ```
#[derive(Clone, Debug, Default, PartialEq, Eq)]
pub struct Listings {
    by_path: BTreeMap<String, Listed>,
}

impl Listings {
    /// Listings where nothing is there.
    pub fn new() -> Listings {
        Listings::default()
    }

    /// Puts the names of a folder, in the place of what was put at its path before.
    pub fn put<N: Into<String>>(&mut self, path: impl Into<String>, names: impl IntoIterator<Item = N>) {
        let names = names.into_iter().map(|name| name.into().into_boxed_str());
        self.put_names(path.into(), names.collect());
    }

    /// The same, of the names as they are kept.
    pub(crate) fn put_names(&mut self, path: String, names: BTreeSet<Box<str>>) {
        self.by_path.insert(path, Ok(names));
    }

    /// Puts the error of a folder, in the place of what was put at its path before.
    pub fn put_error(&mut self, path: impl Into<String>, error: ListingError) {
        self.by_path.insert(path.into(), Err(error));
    }

    /// All that a completion may ask for, from what lists a folder.
    pub fn gather(mut list: impl FnMut(&str) -> io::Result<Vec<String>>) -> Listings {
        let mut all = Listings::new();
        let mut ask = |path: &str| {
            let listed = listed_by(&mut list, path);
            let names: Vec<Box<str>> = listed.iter().flatten().cloned().collect();
            all.by_path.insert(path.into(), listed);
            names
        };
        ask("src");
        for folder in ["src/bin", "examples", "tests", "benches"] {
            for name in ask(folder) {
                ask(&format!("{folder}/{name}"));
            }
        }
        ask(".");
        all
    }

    /// The same, from the folders below one on the disk. Names that are not UTF-8, and entries that cannot be read, are left
    /// out.
    pub fn of_folder(folder: &Path) -> Listings {
        Listings::gather(|path| names_in(&folder.join(path)))
    }

    /// All that the rules of a [`Check`](crate::check::Check) may ask for, from what lists a folder: what a completion asks for, and
    /// each folder, and each file as if it were one, to which a path of the manifest with these bytes leads.
    ///
    /// ```
    /// use cargo_manifest::calls::Listings;
    /// use std::io::ErrorKind;
    ///
    /// let mut asked = Vec::new();
    /// Listings::gather_for(b"[lib]\npath = './lib/all.rs'\n", |path| {
    ///     asked.push(path.to_owned());
    ///     Err(ErrorKind::NotFound.into())
    /// });
    /// assert_eq!(asked, ["src", "src/bin", "examples", "tests", "benches", ".", "lib", "lib/all.rs"]);
    /// ```
    pub fn gather_for(manifest: &[u8], mut list: impl FnMut(&str) -> io::Result<Vec<String>>) -> Listings {
        let mut all = Listings::gather(&mut list);
        for path in folders_named(manifest) {
            if let Entry::Vacant(place) = all.by_path.entry(path) {
                let listed = listed_by(&mut list, place.key());
                place.insert(listed);
            }
        }
        all
    }

    /// The same, from the folders below one on the disk, which is that of the manifest.
    pub fn of_package(folder: &Path, manifest: &[u8]) -> Listings {
        Listings::gather_for(manifest, |path| names_in(&folder.join(path)))
    }

    /// How many names there are.
    pub(crate) fn len(&self) -> usize {
        self.by_path.values().flatten().map(BTreeSet::len).sum()
    }

    /// Each path with what was found there.
    pub(crate) fn entries(&self) -> impl Iterator<Item = (&String, &Listed)> {
        self.by_path.iter()
    }
}
