//! Why a call refuses.

use std::fmt;
use std::io;
use std::ops::Range;

/// Why a value, or its absence, does not fit.
#[derive(Clone, Copy, Debug, PartialEq, Eq, Hash)]
#[non_exhaustive]
pub enum Cause {
    // (made by scripts/keys --write)
    /// The value is of another kind, as a number for a text.
    WrongKind,
    /// A required key is absent; the path ends with it.
    Missing,
    /// A table has a key by both spellings, as `default-features` and `default_features`.
    TwoSpellings,
    /// The text is none of those that may stand there, as `edition = "2020"`.
    NotAChoice,
    /// The whole number is too large or too small.
    OutOfRange,
    /// A boolean that has to be true is false.
    NotTrue,
    /// A value that is kept as it is, as metadata, holds a float.
    HoldsFloat,
    /// The type of the metadata refuses it; no call of the library has such a type.
    Metadata,
}

impl Cause {
    /// The cause of a number, as the library returns it.
    pub(crate) fn of_number(number: u8) -> Option<Cause> {
        Some(match number {
            // (made by scripts/keys --write)
            1 => Cause::WrongKind,
            2 => Cause::Missing,
            3 => Cause::TwoSpellings,
            4 => Cause::NotAChoice,
            5 => Cause::OutOfRange,
            6 => Cause::NotTrue,
            7 => Cause::HoldsFloat,
            8 => Cause::Metadata,
            _ => return None,
        })
    }
}

impl fmt::Display for Cause {
    fn fmt(&self, f: &mut fmt::Formatter<'_>) -> fmt::Result {
        f.write_str(match self {
            // (made by scripts/keys --write)
            Cause::WrongKind => "wrong kind",
            Cause::Missing => "missing",
            Cause::TwoSpellings => "two spellings",
            Cause::NotAChoice => "not a choice",
            Cause::OutOfRange => "out of range",
            Cause::NotTrue => "not true",
            Cause::HoldsFloat => "holds a float",
            Cause::Metadata => "metadata",
        })
    }
}

/// Which of the manifests of a call is refused.
#[derive(Clone, Copy, Debug, PartialEq, Eq, Hash)]
pub enum Part {
    /// The manifest that the call is about.
    Manifest,
    /// The manifest of the workspace's root.
    Root,
}

impl fmt::Display for Part {
    fn fmt(&self, f: &mut fmt::Formatter<'_>) -> fmt::Result {
        match self {
            Part::Manifest => Ok(()),
            Part::Root => f.write_str("root: "),
        }
    }
}

/// Why a folder cannot be listed.
#[derive(Clone, Copy, Debug, PartialEq, Eq, Hash)]
pub enum ListingError {
    /// The folder is not there.
    NotFound,
    /// No memory was left for its names.
    OutOfMemory,
    /// Anything else.
    Other,
}

impl From<io::ErrorKind> for ListingError {
    fn from(kind: io::ErrorKind) -> ListingError {
        match kind {
            io::ErrorKind::NotFound => ListingError::NotFound,
            io::ErrorKind::OutOfMemory => ListingError::OutOfMemory,
            _ => ListingError::Other,
        }
    }
}

impl fmt::Display for ListingError {
    fn fmt(&self, f: &mut fmt::Formatter<'_>) -> fmt::Result {
        f.write_str(match self {
            ListingError::NotFound => "not found",
            ListingError::OutOfMemory => "out of memory",
            ListingError::Other => "it cannot be listed",
        })
    }
}

/// How deep arrays and tables may stand in one another, the whole table not counted: `a = [{}]` is 2 deep. What is deeper is
/// refused as [`Refusal::TooDeep`]. The reader of texts takes at most 80 arrays and inline tables in one another, and keys of 80
/// parts.
pub const DEPTH_LIMIT: usize = 128;

/// What a call refuses with.
#[derive(Clone, Debug, PartialEq, Eq)]
#[non_exhaustive]
pub enum Refusal {
    /// The text is no TOML, for this reason, at this range of its bytes.
    Toml {
        /// Which manifest it is.
        part: Part,
        /// Why, in words for people.
        message: String,
        /// Where in its bytes.
        range: Range<usize>,
    },
    /// The text is TOML and no manifest: why, and the key path at which that stands, as `package.authors[0]`.
    Schema {
        /// Which manifest it is.
        part: Part,
        /// Why.
        cause: Cause,
        /// The key path.
        path: String,
    },
    /// The bytes are not UTF-8.
    Utf8(Part),
    /// A listing has a fault that refuses the completion.
    Io(ListingError),
    /// Anything else that refuses the completion, by its text: a declared library has no file.
    Other(String),
    /// No memory was left.
    Memory,
    /// The manifest keeps a date-time that no text can have. No call of this module returns it: what is read of a text
    /// keeps none.
    Date(String),
    /// The root has no workspace.
    NoWorkspace,
    /// The manifest inherits this, and the workspace has none.
    NotInWorkspace(String),
    /// The workspace inherits its own dependency of this name.
    InheritedInWorkspace(String),
    /// The manifest inherits its lints, and has lints of a tool as well.
    MixedLints,
    /// The manifest inherits its lints, and the workspace has lints of a tool named `workspace`.
    ToolNamedWorkspace,
    /// The bytes are not the tagged bytes of a table.
    Untagged(Part),
    /// Arrays and tables stand in one another deeper than [`DEPTH_LIMIT`].
    TooDeep(Part),
    /// What is asked for could take more bytes than [`AtMost`](super::AtMost) allows.
    TooLong,
    /// What an edit puts in is not one value of TOML and nothing else.
    NotAValue,
    /// Nothing that an edit can change is written at its path.
    NoPlace,
    /// Two edits touch one place, or one lies within what another one replaces.
    Overlap,
    /// The new text would not be the document with these changes, as where a new key is there already.
    NotEdited,
    /// The offsets do not ascend, or one is over the end of the text.
    Offsets,
    /// The configuration of Cargo is not UTF-8, no TOML, or nests too deep.
    Configuration,
}

impl fmt::Display for Refusal {
    fn fmt(&self, f: &mut fmt::Formatter<'_>) -> fmt::Result {
        match self {
            Refusal::Toml { part, message, range } => write!(f, "{part}toml: {message} at byte {}", range.start),
            Refusal::Schema { part, cause, path } => write!(f, "{part}schema: {cause} at {path}"),
            Refusal::Utf8(part) => write!(f, "{part}utf8"),
            Refusal::Io(fault) => write!(f, "io: {fault}"),
            Refusal::Other(text) | Refusal::Date(text) => f.write_str(text),
            Refusal::Memory => f.write_str("memory"),
            Refusal::NoWorkspace => f.write_str("no workspace"),
            Refusal::NotInWorkspace(key) => write!(f, "not in workspace: {key}"),
            Refusal::InheritedInWorkspace(name) => write!(f, "inherited in workspace: {name}"),
            Refusal::MixedLints => f.write_str("mixed lints"),
            Refusal::ToolNamedWorkspace => f.write_str("tool named workspace"),
            Refusal::Untagged(part) => write!(f, "{part}untagged"),
            Refusal::TooDeep(part) => write!(f, "{part}too deep"),
            Refusal::TooLong => f.write_str("too long"),
            Refusal::NotAValue => f.write_str("not a value"),
            Refusal::NoPlace => f.write_str("no place"),
            Refusal::Overlap => f.write_str("overlap"),
            Refusal::NotEdited => f.write_str("not edited"),
            Refusal::Offsets => f.write_str("offsets"),
            Refusal::Configuration => f.write_str("configuration"),
        }
    }
}

impl std::error::Error for Refusal {}
