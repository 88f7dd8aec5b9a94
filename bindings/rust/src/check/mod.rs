//! Everything that is wrong with a manifest, as the program `manifest_check` of the repository reports it: what Cargo refuses, what
//! it warns of, and a few things that Cargo does not look at. `docs/CHECKS.md` there has a section for each code.
//!
//! ```
//! use cargo_manifest::check::check;
//!
//! let text = b"[package]\nname = 'a'\nversion = '0.1.0'\nedition = '2021'\n\n[features]\ndefault = ['ful']\nfull = []\n";
//! let diagnostics = check(text)?;
//! let line = "error[unknown-feature]: feature `default` includes `ful` which is neither a dependency nor another feature";
//! assert_eq!(diagnostics[0].to_string(), line);
//! assert_eq!(diagnostics[0].line_column(text), Some((7, 12)));
//! assert_eq!(diagnostics[0].path.to_string(), "features.default[0]");
//! let suggestion = &diagnostics[0].suggestions[0];
//! assert_eq!((suggestion.text.as_str(), suggestion.replacements[0].text.as_str()), ("write `full`", "\"full\""));
//! # Ok::<(), cargo_manifest::calls::Refusal>(())
//! ```
//!
//! What stands around the manifest is passed in by a [`Check`]; what is not passed in is not known, and the rules that need it say
//! nothing.

mod diagnostic;
mod read;
#[cfg(test)]
mod tests;

use crate::calls::{self, Listings, Refusal};
pub use diagnostic::{fixed, Diagnostic, File, Label, Level, Suggestion};
pub(crate) use read::diagnostics_of;

/// What is known of the root of a workspace.
#[derive(Clone, Copy, Debug)]
pub(crate) enum Root<'a> {
    /// Nobody looked for it.
    Unknown,
    /// These are the bytes of its manifest.
    Is(&'a [u8]),
    /// There is none.
    Missing,
}

/// A member of the workspace whose root is checked.
#[derive(Clone, Copy, Debug, PartialEq, Eq, Hash)]
pub struct Member<'a> {
    /// The path of its folder from that of the root, as `crates/a`.
    pub path: &'a str,
    /// The bytes of its `Cargo.toml`; none where its folder has no such file.
    pub manifest: Option<&'a [u8]>,
    /// The indexes in `workspace.members` of all patterns that lead to it, from the first one on: of `members = ["m", "./m"]` both;
    /// empty where a `path` dependency leads to it.
    pub patterns: &'a [usize],
}

/// A package to which the `path` of a dependency leads.
#[derive(Clone, Copy, Debug, PartialEq, Eq, Hash)]
pub struct PathPackage<'a> {
    /// The path as it is written in the manifest.
    pub path: &'a str,
    /// The name of the package in the `Cargo.toml` there; none where there is no such file, or no such name in it.
    pub name: Option<&'a str>,
}

/// A manifest that is to be checked, with what is known of the files around it.
///
/// ```
/// use cargo_manifest::calls::Listings;
/// use cargo_manifest::check::Check;
///
/// let member = b"[package]\nname = 'a'\nversion = '0.1.0'\nedition.workspace = true\nreadme = 'READ.md'\n";
/// let mut listings = Listings::new();
/// listings.put(".", ["Cargo.toml", "README.md", "src"]);
/// listings.put("src", ["lib.rs"]);
/// let check = Check::of(member).root(b"[workspace]\nmembers = ['a']\n").is_listed(true).folders(&listings);
/// let codes: Vec<_> = check.publishing(true).diagnostics()?.into_iter().map(|found| found.code).collect();
/// assert!(codes.iter().any(|code| code == "not-in-workspace"));
/// assert!(codes.iter().any(|code| code == "missing-package-file"));
/// # Ok::<(), cargo_manifest::calls::Refusal>(())
/// ```
#[derive(Clone, Copy, Debug)]
#[must_use]
pub struct Check<'a> {
    pub(crate) bytes: &'a [u8],
    pub(crate) root: Root<'a>,
    pub(crate) is_listed: Option<bool>,
    pub(crate) config: Option<&'a [u8]>,
    pub(crate) folders: Option<&'a Listings>,
    pub(crate) members: Option<&'a [Member<'a>]>,
    pub(crate) packages: Option<&'a [PathPackage<'a>]>,
    pub(crate) publishes: bool,
    pub(crate) most: usize,
}

impl<'a> Check<'a> {
    /// The manifest with these bytes, of whose surroundings nothing is known.
    pub fn of(bytes: &'a [u8]) -> Check<'a> {
        Check {
            bytes,
            root: Root::Unknown,
            is_listed: None,
            config: None,
            folders: None,
            members: None,
            packages: None,
            publishes: false,
            most: calls::ANY,
        }
    }

    /// The manifest of the root of its workspace. It is not looked at where the manifest has a `workspace` itself: it is not refused
    /// then, and a label in the root has no range.
    pub fn root(self, root: &'a [u8]) -> Check<'a> {
        Check { root: Root::Is(root), ..self }
    }

    /// There is no root where Cargo looks for one: in the folders above, or where `package.workspace` leads to.
    pub fn without_root(self) -> Check<'a> {
        Check { root: Root::Missing, ..self }
    }

    /// Whether the root lists the package, by a pattern of `workspace.members` or a `path` dependency, or does not.
    pub fn is_listed(self, is_listed: bool) -> Check<'a> {
        Check { is_listed: Some(is_listed), ..self }
    }

    /// The configuration of Cargo, the text of `.cargo/config.toml`: that of the folder, with what those of the folders above have in
    /// addition.
    pub fn config(self, config: &'a [u8]) -> Check<'a> {
        Check { config: Some(config), ..self }
    }

    /// The folders of the package, as [`Listings::of_package`] and [`Listings::gather_for`] gather them. What is not among them is
    /// not there. Of a folder with another error than [`ListingError::NotFound`](calls::ListingError::NotFound) nothing is known, and
    /// nothing is said of the files in it.
    pub fn folders(self, folders: &'a Listings) -> Check<'a> {
        Check { folders: Some(folders), ..self }
    }

    /// All members, where the manifest is the root of a workspace.
    pub fn members(self, members: &'a [Member<'a>]) -> Check<'a> {
        Check { members: Some(members), ..self }
    }

    /// The packages to which the `path`s of its dependencies lead.
    pub fn packages(self, packages: &'a [PathPackage<'a>]) -> Check<'a> {
        Check { packages: Some(packages), ..self }
    }

    /// Whether to say also what a registry wants of a package that is published.
    pub fn publishing(self, publishes: bool) -> Check<'a> {
        Check { publishes, ..self }
    }

    /// Refuses diagnostics of more tagged bytes than these as [`Refusal::TooLong`].
    pub fn at_most(self, most: usize) -> Check<'a> {
        Check { most, ..self }
    }

    /// Everything that is wrong: first what the schema finds, in the order of [`calls::findings`], and then what the rules say. Bytes
    /// that are not UTF-8, no TOML or nest too deep have one diagnostic, which says so.
    ///
    /// An error is a root that is no document, [`Refusal::Configuration`] and [`Refusal::TooLong`].
    pub fn diagnostics(&self) -> Result<Vec<Diagnostic>, Refusal> {
        calls::diagnostics(self).map(diagnostics_of)
    }
}

/// Everything that is wrong with the manifest that the bytes are, as far as its text shows: see [`Check`].
pub fn check(bytes: &[u8]) -> Result<Vec<Diagnostic>, Refusal> {
    Check::of(bytes).diagnostics()
}
