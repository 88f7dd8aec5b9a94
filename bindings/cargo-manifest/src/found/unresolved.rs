//! Why a member cannot inherit from its workspace, and declared targets without a file.

use super::{tree, KeyPath, Place};
use crate::calls::{is_broken, Refusal};
use crate::error::{line_column, sentence};
use std::fmt;
use std::ops::Range;

/// What a member cannot inherit from the workspace of a root: where, and why.
///
/// ```
/// let (member, root) = ("[package]\nname = 'a'\nversion.workspace = true\n", "[workspace]\nmembers = ['a']\n");
/// let refusal = &cargo_manifest::refusals(member.as_bytes(), root.as_bytes())?[0];
/// assert_eq!(refusal.to_string(), "`package.version`: `version` is inherited from the workspace, which does not define it");
/// assert_eq!(refusal.span().map(|span| &member[span]), Some("version"));
/// assert_eq!(refusal.root_span().map(|span| &root[span]), Some("[workspace]"));
/// # Ok::<(), cargo_manifest::calls::Refusal>(())
/// ```
#[derive(Clone, Debug, PartialEq, Eq, Hash)]
pub struct Unresolved {
    /// The path in the member of what inherits: `package.version`, or `lints`.
    pub path: KeyPath,
    /// Why.
    pub cause: UnresolvedCause,
    /// Where in the text of the member.
    pub place: Place,
    /// Where in the text of the root that is which the member asks for: `workspace.package.version`,
    /// `workspace.dependencies.serde`, `workspace.lints`. What is missing has the place of the table in which it belongs.
    pub root_place: Place,
}

/// Why a member cannot inherit something: as the variants of [`Refusal`](crate::calls::Refusal) with which it is not resolved.
#[derive(Clone, Debug, PartialEq, Eq, Hash)]
pub enum UnresolvedCause {
    /// The workspace does not have what is inherited: a field of this key, or a dependency of this name, or `lints`.
    NotInWorkspace(String),
    /// The workspace inherits its own dependency of this name.
    InheritedInWorkspace(String),
    /// Lints are inherited, and the member has lints of a tool as well.
    MixedLints,
    /// Lints are inherited, and those of the workspace have a tool `workspace`.
    ToolNamedWorkspace,
}

impl UnresolvedCause {
    /// The cause of the refusal with this status and this text.
    pub(super) fn of_status(status: u8, text: &str) -> Option<UnresolvedCause> {
        match Refusal::of_inheriting(status, text.to_owned())? {
            Refusal::NotInWorkspace(key) => Some(UnresolvedCause::NotInWorkspace(key)),
            Refusal::InheritedInWorkspace(name) => Some(UnresolvedCause::InheritedInWorkspace(name)),
            Refusal::MixedLints if text.is_empty() => Some(UnresolvedCause::MixedLints),
            Refusal::ToolNamedWorkspace if text.is_empty() => Some(UnresolvedCause::ToolNamedWorkspace),
            _ => None,
        }
    }
}

impl From<UnresolvedCause> for Refusal {
    fn from(cause: UnresolvedCause) -> Refusal {
        match cause {
            UnresolvedCause::NotInWorkspace(key) => Refusal::NotInWorkspace(key),
            UnresolvedCause::InheritedInWorkspace(name) => Refusal::InheritedInWorkspace(name),
            UnresolvedCause::MixedLints => Refusal::MixedLints,
            UnresolvedCause::ToolNamedWorkspace => Refusal::ToolNamedWorkspace,
        }
    }
}

impl fmt::Display for UnresolvedCause {
    fn fmt(&self, f: &mut fmt::Formatter<'_>) -> fmt::Result {
        f.write_str(&sentence(&self.clone().into()))
    }
}

impl Unresolved {
    /// Where in the bytes of the member that stands which inherits: the value, or where it has no place its key, or else its
    /// header; none where that is the whole text.
    pub fn span(&self) -> Option<Range<usize>> {
        self.place.span()
    }

    /// The line and the column, both from 1 on, at which [`span`](Unresolved::span) begins in these bytes, which are those of the
    /// member. A column is a character.
    pub fn line_column(&self, bytes: &[u8]) -> Option<(usize, usize)> {
        self.span().map(|span| line_column(bytes, span.start))
    }

    /// The same for what is asked for in the bytes of the root.
    pub fn root_span(&self) -> Option<Range<usize>> {
        self.root_place.span()
    }

    /// The line and the column at which [`root_span`](Unresolved::root_span) begins in the bytes of the root.
    pub fn root_line_column(&self, bytes: &[u8]) -> Option<(usize, usize)> {
        self.root_span().map(|span| line_column(bytes, span.start))
    }
}

impl fmt::Display for Unresolved {
    fn fmt(&self, f: &mut fmt::Formatter<'_>) -> fmt::Result {
        write!(f, "`{}`: {}", self.path, self.cause)
    }
}

/// A declared target for which the folders of a manifest have no file.
///
/// ```
/// use cargo_manifest::calls::Listings;
///
/// let text = "[package]\nname = 'a'\n[[bin]]\nname = 'b'\n";
/// let target = &cargo_manifest::unfound_targets(text.as_bytes(), &Listings::new())?[0];
/// assert_eq!(target.to_string(), "no file is found for `bin[0]`");
/// assert_eq!(target.line_column(text.as_bytes()), Some((3, 1)));
/// # Ok::<(), cargo_manifest::calls::Refusal>(())
/// ```
#[derive(Clone, Debug, PartialEq, Eq, Hash)]
pub struct UnfoundTarget {
    /// Where: `lib`, or as `bin[1]`.
    pub path: KeyPath,
    /// Where in the text.
    pub place: Place,
}

impl UnfoundTarget {
    /// Where in the bytes the target stands: its value, or where it has no place its key, or else its header.
    pub fn span(&self) -> Option<Range<usize>> {
        self.place.span()
    }

    /// The line and the column, both from 1 on, at which [`span`](UnfoundTarget::span) begins in these bytes, which are those that
    /// were read. A column is a character.
    pub fn line_column(&self, bytes: &[u8]) -> Option<(usize, usize)> {
        self.span().map(|span| line_column(bytes, span.start))
    }
}

impl fmt::Display for UnfoundTarget {
    fn fmt(&self, f: &mut fmt::Formatter<'_>) -> fmt::Result {
        write!(f, "no file is found for `{}`", self.path)
    }
}

/// The refusals of the tagged bytes by which the library reports them.
pub(crate) fn refusals_of(bytes: Vec<u8>) -> Vec<Unresolved> {
    tree::decoded_refusals(&bytes).unwrap_or_else(|| is_broken())
}

/// The unfound targets of the tagged bytes by which the library reports them.
pub(crate) fn unfound_of(bytes: Vec<u8>) -> Vec<UnfoundTarget> {
    tree::decoded_targets(&bytes).unwrap_or_else(|| is_broken())
}
