//! What is said of a value that does not fit: the words that serde and Cargo use.

use crate::calls::Cause;
use crate::codec::{steps, Expected, Form, Step};
use crate::{Manifest, Package, Value};

/// What is wrong with the value at a key path, in one line, as "invalid type for `package.name`: expected a string".
pub(crate) fn message(cause: Cause, path: &str, expected: Option<&Expected>) -> String {
    let place = place(path);
    let what = expected.map(|expected| format!(": expected {}", expected.what)).unwrap_or_default();
    match (cause, expected) {
        (Cause::Missing, _) => format!("missing field {place}"),
        (Cause::TwoSpellings, _) => two_spellings(path, &place),
        (Cause::NotAChoice, Some(expected)) => none_of(path, expected.choices),
        (Cause::WrongKind, _) => format!("invalid type for {place}{what}"),
        (Cause::HoldsFloat, _) => format!("invalid type for {place}: expected a value without a float"),
        (Cause::NotAChoice | Cause::OutOfRange | Cause::NotTrue, _) => format!("invalid value for {place}{what}"),
        (Cause::Metadata, _) => format!("invalid metadata in {place}"),
    }
}

/// What is said of a text that is none of these.
pub(crate) fn none_of<T: AsRef<str>>(path: &str, choices: &[T]) -> String {
    format!("{} is none of {}", place(path), listed(choices))
}

/// Texts in one line, between backquotes.
pub(crate) fn listed<T: AsRef<str>>(texts: &[T]) -> String {
    texts.iter().map(|text| format!("`{}`", text.as_ref())).collect::<Vec<_>>().join(", ")
}

/// What is expected at a key path of a manifest. Under an old header the path is one of a package.
pub(crate) fn expected_at(steps: &[Step]) -> Option<Expected> {
    let package = match steps {
        [Step::Key(key), below @ ..] if key == "project" => below,
        whole => whole,
    };
    let of_manifest = Manifest::<Value, Value>::expected_at(steps);
    of_manifest.or_else(|| Package::<Value>::expected_at(package))
}

/// A key path, or what stands for that of the whole table.
fn place(path: &str) -> String {
    if path.is_empty() || path == "(top)" {
        return "the manifest".into();
    }
    format!("`{path}`")
}

/// What is said of a key that stands by both of its spellings; the path has the first one.
fn two_spellings(path: &str, place: &str) -> String {
    match steps(path).last() {
        Some(Step::Key(key)) => format!("{place} is given twice, as `{key}` and as `{}`", key.replace('-', "_")),
        _ => format!("{place} is given twice"),
    }
}
