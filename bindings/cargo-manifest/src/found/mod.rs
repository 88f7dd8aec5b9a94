//! What is found in a document: its faults, what is ignored, and the keys that nothing reads.

mod path;
mod place;
#[cfg(test)]
mod tests;
mod tree;
mod unresolved;
mod unused;

use crate::calls::{self, is_broken, Cause};
use crate::codec::Step;
use crate::error::{line_column, refused};
use crate::message::{expected_at, message, none_of};
use crate::Error;
pub use path::KeyPath;
pub(crate) use place::range;
pub use place::Place;
use std::fmt;
use std::ops::Range;
use std::sync::Arc;
pub(crate) use tree::step;
pub(crate) use unresolved::{refusals_of, unfound_of};
pub use unresolved::{UnfoundTarget, Unresolved, UnresolvedCause};
pub use unused::{CargoKey, CargoSupport, UnusedKey};

/// A value, or its absence, that does not fit: where, and why.
///
/// ```
/// let fault = &cargo_manifest::faults(b"[package]\nname = 'a'\nedition = '2020'")?[0];
/// assert_eq!(fault.to_string(), "`package.edition` is none of `2015`, `2018`, `2021`, `2024`");
/// assert_eq!(fault.choices.join(", "), "2015, 2018, 2021, 2024");
/// # Ok::<(), cargo_manifest::Error>(())
/// ```
#[derive(Clone, Debug, PartialEq, Eq, Hash)]
pub struct Fault {
    /// Where. What is missing has the path that it would have.
    pub path: KeyPath,
    /// Why.
    pub cause: Cause,
    /// The texts that are allowed there, where the cause is [`Cause::NotAChoice`]; none else. Faults share them.
    pub choices: Arc<[String]>,
    /// Where in the text.
    pub place: Place,
}

impl Fault {
    /// Where in the bytes that stands which does not fit: the value, or where it has no place its key, or else its header. Of
    /// a key that is missing it is the table in which it belongs; none where that is the whole text.
    ///
    /// ```
    /// let text = "[package]\nname = 'a'\nedition = '2020'";
    /// let fault = &cargo_manifest::faults(text.as_bytes())?[0];
    /// assert_eq!(fault.span().map(|span| &text[span]), Some("'2020'"));
    /// assert_eq!(fault.line_column(text.as_bytes()), Some((3, 11)));
    /// # Ok::<(), cargo_manifest::Error>(())
    /// ```
    pub fn span(&self) -> Option<Range<usize>> {
        self.place.span()
    }

    /// The line and the column, both from 1 on, at which [`span`](Fault::span) begins in these bytes, which are those that were
    /// read. A column is a character.
    pub fn line_column(&self, bytes: &[u8]) -> Option<(usize, usize)> {
        self.span().map(|span| line_column(bytes, span.start))
    }
}

impl fmt::Display for Fault {
    fn fmt(&self, f: &mut fmt::Formatter<'_>) -> fmt::Result {
        let path = self.path.to_string();
        if self.cause == Cause::NotAChoice {
            return f.write_str(&none_of(&path, &self.choices));
        }
        let steps: Vec<Step> = self.path.steps().into_iter().cloned().collect();
        f.write_str(&message(self.cause, &path, expected_at(&steps).as_ref()))
    }
}

/// One thing that is found in a document.
#[derive(Clone, Debug, PartialEq, Eq, Hash)]
#[non_exhaustive]
pub enum Finding {
    /// A fault: the manifest is refused.
    Fault(Fault),
    /// What does not fit, and refuses nothing: a badge, which counts as absent.
    Ignored(Fault),
    /// A key that nothing reads, as a misspelled one. Nothing below it is looked at.
    Unused(UnusedKey),
}

impl Finding {
    /// Where in the text.
    pub fn place(&self) -> &Place {
        match self {
            Finding::Fault(fault) | Finding::Ignored(fault) => &fault.place,
            Finding::Unused(key) => &key.place,
        }
    }

    fn place_mut(&mut self) -> &mut Place {
        match self {
            Finding::Fault(fault) | Finding::Ignored(fault) => &mut fault.place,
            Finding::Unused(key) => &mut key.place,
        }
    }
}

impl fmt::Display for Finding {
    fn fmt(&self, f: &mut fmt::Formatter<'_>) -> fmt::Result {
        match self {
            Finding::Fault(fault) => fault.fmt(f),
            Finding::Ignored(fault) => write!(f, "ignored: {fault}"),
            Finding::Unused(key) => key.fmt(f),
        }
    }
}

/// The findings of the tagged bytes by which the library reports them.
pub(crate) fn findings_of(bytes: Vec<u8>) -> Vec<Finding> {
    tree::decoded(&bytes).unwrap_or_else(|| is_broken())
}

/// Of what is found in the bytes of a `Cargo.toml`, what is picked, in its order.
fn picked<T>(bytes: &[u8], pick: impl Fn(Finding) -> Option<T>) -> Result<Vec<T>, Error> {
    let found = calls::findings(bytes).map_err(|refusal| refused(refusal, bytes))?;
    Ok(found.into_iter().filter_map(pick).collect())
}

/// Every fault of the bytes of a `Cargo.toml`, in the order in which `docs/KEYS.md` of the repository has the keys. There is
/// none exactly where [`Manifest::from_slice`](crate::Manifest::from_slice) reads the bytes (tested), and else the first one
/// is that with which it refuses them (tested).
///
/// An error is what is no TOML, or nests too deep. Metadata is not looked at: this crate keeps a float in it.
///
/// ```
/// let text = b"[package]\nname = 1\nedition = '2020'\nauthors = ['a', true]\n";
/// let faults: Vec<_> = cargo_manifest::faults(text)?.iter().map(ToString::to_string).collect();
/// assert_eq!(faults, [
///     "invalid type for `package.name`: expected a string",
///     "`package.edition` is none of `2015`, `2018`, `2021`, `2024`",
///     "invalid type for `package.authors[1]`: expected a string",
/// ]);
/// # Ok::<(), cargo_manifest::Error>(())
/// ```
pub fn faults(cargo_toml_content: &[u8]) -> Result<Vec<Fault>, Error> {
    picked(cargo_toml_content, |finding| match finding {
        Finding::Fault(fault) => Some(fault),
        _ => None,
    })
}

/// What does not fit in the bytes of a `Cargo.toml` and refuses nothing: badges, which count as absent. In the same order,
/// and with the same errors as of [`faults`].
///
/// ```
/// let ignored = cargo_manifest::ignored(b"package.name = 'a'\nbadges.gitlab = 1")?;
/// assert_eq!(ignored[0].to_string(), "invalid type for `badges.gitlab`: expected a table");
/// # Ok::<(), cargo_manifest::Error>(())
/// ```
pub fn ignored(cargo_toml_content: &[u8]) -> Result<Vec<Fault>, Error> {
    picked(cargo_toml_content, |finding| match finding {
        Finding::Ignored(fault) => Some(fault),
        _ => None,
    })
}

/// The keys in the bytes of a `Cargo.toml` that nothing reads, as misspelled ones and those that only Cargo knows: a manifest
/// does not hold them, and they are not written. In the same order, those of a table after what stands in its other keys; none
/// is below another. The errors are those of [`faults`].
///
/// ```
/// let keys = cargo_manifest::unused_keys(b"[package]\nname = 'a'\nedtion = '2021'\n[dependecies]\nb = '1'")?;
/// let paths: Vec<_> = keys.iter().map(|key| key.path.to_string()).collect();
/// assert_eq!(paths, ["package.edtion", "dependecies"]);
/// # Ok::<(), cargo_manifest::Error>(())
/// ```
pub fn unused_keys(cargo_toml_content: &[u8]) -> Result<Vec<UnusedKey>, Error> {
    picked(cargo_toml_content, |finding| match finding {
        Finding::Unused(key) => Some(key),
        _ => None,
    })
}
