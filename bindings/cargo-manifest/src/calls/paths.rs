//! Which folders the paths of a manifest lead to.

use super::tables::document;
use crate::value::{decoded, Value};

/// The keys of a package that hold the path of a file.
const OF_PACKAGE: [&str; 3] = ["build", "license-file", "readme"];

/// A path without `.` and without what a `..` takes back, where it stays in the folder from which it leads.
fn plain(path: &str) -> Option<String> {
    if path.starts_with('/') {
        return None;
    }
    let mut parts = Vec::new();
    for part in path.split('/') {
        match part {
            "" | "." => {}
            ".." => drop(parts.pop()?),
            _ => parts.push(part),
        }
    }
    Some(parts.join("/"))
}

/// The paths of files that a document names.
fn paths_in(document: &Value) -> Vec<&str> {
    let packages = ["package", "project"].into_iter().filter_map(|key| document.get(key));
    let of_package = packages.flat_map(|package| OF_PACKAGE.into_iter().filter_map(|key| package.get(key)));
    let lists = ["bin", "example", "test", "bench"].into_iter().filter_map(|key| document.get(key)?.as_array());
    let targets = document.get("lib").into_iter().chain(lists.flatten());
    of_package.chain(targets.filter_map(|target| target.get("path"))).filter_map(Value::as_str).collect()
}

/// The folders to which the paths of a manifest with these bytes lead: of each that in which the file is, and the file as if it were
/// a folder.
pub(super) fn folders_named(manifest: &[u8]) -> Vec<String> {
    let Some(document) = document(manifest).ok().and_then(|bytes| decoded(&bytes)) else { return Vec::new() };
    let mut folders = Vec::new();
    for path in paths_in(&document).into_iter().filter_map(plain).filter(|path| !path.is_empty()) {
        folders.push(path.rsplit_once('/').map_or(".", |(folder, _)| folder).to_owned());
        folders.push(path);
    }
    folders
}
