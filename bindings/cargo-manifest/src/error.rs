//! Why a manifest is refused.

use crate::calls::{is_broken, Cause, ListingError, Refusal, DEPTH_LIMIT};
use crate::codec::{steps, Expected, Misfit};
use crate::message::{expected_at, message};
use std::error;
use std::fmt;
use std::io;
use std::ops::Range;
use std::str::Utf8Error;

/// Why a manifest is not read, completed, resolved or written.
#[derive(Debug)]
pub enum Error {
    /// The text is no TOML, or it is TOML and no manifest, or it nests too deep.
    Parse(ParseError),
    /// A file or a folder cannot be read, or no memory is left.
    ///
    /// What refuses a completion is the error that the filesystem returned itself.
    Io(io::Error),
    /// The bytes are not UTF-8.
    Utf8(Utf8Error),
    /// Anything else, in one sentence.
    Other(String),
}

/// The copy of [`Error::Io`] has its kind and its text.
impl Clone for Error {
    fn clone(&self) -> Error {
        match self {
            Error::Parse(error) => Error::Parse(error.clone()),
            Error::Io(error) => Error::Io(io::Error::new(error.kind(), error.to_string())),
            Error::Utf8(error) => Error::Utf8(*error),
            Error::Other(text) => Error::Other(text.clone()),
        }
    }
}

impl fmt::Display for Error {
    fn fmt(&self, f: &mut fmt::Formatter<'_>) -> fmt::Result {
        match self {
            Error::Parse(error) => error.fmt(f),
            Error::Io(error) => error.fmt(f),
            Error::Utf8(error) => error.fmt(f),
            Error::Other(text) => f.write_str(text),
        }
    }
}

/// The text of an error is that of the error inside, so its source is the source of that one.
impl error::Error for Error {
    fn source(&self) -> Option<&(dyn error::Error + 'static)> {
        match self {
            Error::Parse(error) => error.source(),
            Error::Io(error) => error.source(),
            Error::Utf8(error) => error.source(),
            Error::Other(_) => None,
        }
    }
}

impl From<ParseError> for Error {
    fn from(error: ParseError) -> Error {
        Error::Parse(error)
    }
}

impl From<io::Error> for Error {
    fn from(error: io::Error) -> Error {
        Error::Io(error)
    }
}

impl From<Utf8Error> for Error {
    fn from(error: Utf8Error) -> Error {
        Error::Utf8(error)
    }
}

/// What is wrong with a text that is no TOML, or no manifest, or that nests deeper than
/// [`DEPTH_LIMIT`](crate::calls::DEPTH_LIMIT).
///
/// ```
/// use cargo_manifest::{Cause, Error, Manifest};
///
/// let text = b"[package]\nname = 'a'\nauthors = [true]\n";
/// let Err(Error::Parse(error)) = Manifest::from_slice(text) else { panic!() };
/// assert_eq!(error.to_string(), "invalid type for `package.authors[0]`: expected a string");
/// assert_eq!((error.cause(), error.key_path()), (Some(Cause::WrongKind), Some("package.authors[0]")));
///
/// let text = b"[package]\nname = \n";
/// let Err(Error::Parse(error)) = Manifest::from_slice(text) else { panic!() };
/// assert_eq!((error.span(), error.line_column(text)), (Some(17..17), Some((2, 8))));
/// ```
#[derive(Clone, Debug, PartialEq, Eq)]
pub struct ParseError {
    message: String,
    at: At,
}

#[derive(Clone, Debug, PartialEq, Eq)]
enum At {
    Bytes(Range<usize>),
    /// A line and a column, both from 1 on.
    #[cfg(any(feature = "toml", feature = "toml_1"))]
    Line(usize, usize),
    Key(Cause, String),
    /// The text as a whole.
    Whole,
}

impl ParseError {
    /// What is wrong, where, and what is expected, in one line.
    pub fn message(&self) -> &str {
        &self.message
    }

    /// Where in the bytes the text is no TOML. What is TOML and no manifest has a key path instead, and what nests too deep
    /// has neither.
    pub fn span(&self) -> Option<Range<usize>> {
        match &self.at {
            At::Bytes(range) => Some(range.clone()),
            _ => None,
        }
    }

    /// The line and the column, both from 1 on, at which these bytes are no TOML: the bytes are those that were read. A
    /// column is a character.
    pub fn line_column(&self, bytes: &[u8]) -> Option<(usize, usize)> {
        match &self.at {
            #[cfg(any(feature = "toml", feature = "toml_1"))]
            At::Line(line, column) => Some((*line, *column)),
            _ => self.span().map(|span| line_column(bytes, span.start)),
        }
    }

    /// The key path of what is wrong in a text that is TOML, as `package.authors[0]`.
    pub fn key_path(&self) -> Option<&str> {
        match &self.at {
            At::Key(_, path) => Some(path),
            _ => None,
        }
    }

    /// Why the value at the key path does not fit.
    pub fn cause(&self) -> Option<Cause> {
        match &self.at {
            At::Key(cause, _) => Some(*cause),
            _ => None,
        }
    }

    fn of_key(cause: Cause, path: String, expected: Option<&Expected>) -> ParseError {
        ParseError { message: message(cause, &path, expected), at: At::Key(cause, path) }
    }

    /// What is wrong with the text as a whole.
    pub(crate) fn of_whole(message: String) -> ParseError {
        ParseError { message, at: At::Whole }
    }

    /// An error of the crate `toml`, of the versions that have a range of bytes, or a line and a column from 0 on.
    #[cfg(any(feature = "toml", feature = "toml_1"))]
    pub(crate) fn of_toml(message: String, span: Option<Range<usize>>, place: Option<(usize, usize)>) -> ParseError {
        let at = match (span, place) {
            (Some(span), _) => At::Bytes(span),
            (None, Some((line, column))) => At::Line(line + 1, column + 1),
            (None, None) => At::Whole,
        };
        ParseError { message: message.trim_end().to_owned(), at }
    }

    /// Metadata that its own type refuses.
    #[cfg(feature = "serde")]
    pub(crate) fn of_metadata(path: &str, why: &str) -> ParseError {
        let message = format!("{}: {why}", message(Cause::Metadata, path, None));
        ParseError { message, at: At::Key(Cause::Metadata, path.to_owned()) }
    }
}

impl fmt::Display for ParseError {
    fn fmt(&self, f: &mut fmt::Formatter<'_>) -> fmt::Result {
        f.write_str(&self.message)
    }
}

impl error::Error for ParseError {}

impl From<Misfit> for ParseError {
    fn from(misfit: Misfit) -> ParseError {
        let (cause, expected) = (misfit.cause, misfit.expected.clone());
        ParseError::of_key(cause, misfit.path(), Some(&expected))
    }
}

/// The line and the column of a place, both from 1 on.
pub(crate) fn line_column(bytes: &[u8], place: usize) -> (usize, usize) {
    let before = bytes.get(..place).unwrap_or(bytes);
    let line = before.iter().filter(|byte| **byte == b'\n').count() + 1;
    let start = before.iter().rposition(|byte| *byte == b'\n').map_or(0, |end| end + 1);
    let column = String::from_utf8_lossy(&before[start..]).chars().count() + 1;
    (line, column)
}

/// What is said of what nests too deep.
pub(crate) fn too_deep() -> String {
    format!("nested too deep: the limit is {DEPTH_LIMIT} arrays and tables within one another")
}

/// The error of a refusal of these bytes, and of those of the workspace's root.
pub(crate) fn refused(refusal: Refusal, bytes: &[u8]) -> Error {
    match refusal {
        Refusal::Toml { message, range, .. } => {
            let (line, column) = line_column(bytes, range.start);
            let message = format!("{message} at line {line} column {column}");
            Error::Parse(ParseError { message, at: At::Bytes(range) })
        }
        Refusal::Schema { cause, path, .. } => {
            let expected = expected_at(&steps(&path));
            Error::Parse(ParseError::of_key(cause, path, expected.as_ref()))
        }
        Refusal::TooDeep(_) => Error::Parse(ParseError::of_whole(too_deep())),
        Refusal::Utf8(_) => match std::str::from_utf8(bytes) {
            Err(error) => Error::Utf8(error),
            Ok(_) => is_broken(),
        },
        Refusal::Io(ListingError::NotFound) => Error::Io(io::ErrorKind::NotFound.into()),
        Refusal::Io(ListingError::Other) => Error::Io(io::ErrorKind::Other.into()),
        Refusal::Io(ListingError::OutOfMemory) | Refusal::Memory => Error::Io(io::ErrorKind::OutOfMemory.into()),
        Refusal::Other(text) | Refusal::Date(text) => Error::Other(text),
        other => Error::Other(sentence(&other)),
    }
}

/// The error of a refusal of a table that was made of a manifest.
pub(crate) fn refused_table(refusal: Refusal) -> Error {
    match refusal {
        Refusal::TooDeep(_) => Error::Other(too_deep()),
        other => refused(other, &[]),
    }
}

/// Why a manifest cannot inherit from its workspace.
pub(crate) fn sentence(refusal: &Refusal) -> String {
    match refusal {
        Refusal::NoWorkspace => "the manifest of the workspace's root has no table `workspace`".into(),
        Refusal::NotInWorkspace(key) => format!("`{key}` is inherited from the workspace, which does not define it"),
        Refusal::InheritedInWorkspace(name) => {
            format!("the dependency `{name}` is inherited from the workspace, whose own entry says `workspace = true`")
        }
        Refusal::MixedLints => "`lints` cannot have lints of its own next to `workspace = true`".into(),
        Refusal::ToolNamedWorkspace => {
            "`lints` is inherited from a workspace with lints of a tool named `workspace`".into()
        }
        other => other.to_string(),
    }
}
