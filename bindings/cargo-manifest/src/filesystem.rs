//! Where completion looks.

use std::collections::BTreeSet;
use std::fs;
use std::io;
use std::path::Path;

/// What lists the names in a folder, for
/// [`complete_from_abstract_filesystem`](crate::Manifest::complete_from_abstract_filesystem). It need not be a disk: an
/// archive and a commit of a repository have folders too.
pub trait AbstractFilesystem {
    /// The names of the files and folders in a folder, which is given by its path from the folder of the manifest: that
    /// folder itself is `.`.
    ///
    /// A folder that is not there is an error of the kind [`NotFound`](io::ErrorKind::NotFound).
    fn file_names_in<T: AsRef<Path>>(&self, rel_path: T) -> io::Result<BTreeSet<Box<str>>>;
}

/// The folders below one of the disk. Entries whose names are not UTF-8, or that cannot be read, are left out.
pub struct Filesystem<'a> {
    path: &'a Path,
}

impl<'a> Filesystem<'a> {
    /// The folders below this one.
    pub fn new(path: &'a Path) -> Self {
        Filesystem { path }
    }
}

impl AbstractFilesystem for Filesystem<'_> {
    fn file_names_in<T: AsRef<Path>>(&self, rel_path: T) -> io::Result<BTreeSet<Box<str>>> {
        let entries = fs::read_dir(self.path.join(rel_path))?;
        let names = entries.flatten().filter_map(|entry| entry.file_name().into_string().ok());
        Ok(names.map(String::into_boxed_str).collect())
    }
}
