//! What is said of a manifest.

use crate::error::line_column;
use crate::found::{KeyPath, Place};
use crate::Replacement;
use std::fmt;
use std::ops::Range;

/// How grave a diagnostic is.
#[derive(Clone, Copy, Debug, PartialEq, Eq, Hash)]
pub enum Level {
    /// Cargo refuses to read the manifest, or to build the package.
    Error,
    /// Cargo warns of it, or refuses it only by its version, its channel or its configuration.
    Warning,
    /// It is worth knowing, and needs no change.
    Note,
}

impl fmt::Display for Level {
    fn fmt(&self, f: &mut fmt::Formatter<'_>) -> fmt::Result {
        f.write_str(match self {
            Level::Error => "error",
            Level::Warning => "warning",
            Level::Note => "note",
        })
    }
}

/// The file that a second place is in.
#[derive(Clone, Copy, Debug, PartialEq, Eq, Hash)]
pub enum File {
    /// The manifest itself.
    Manifest,
    /// The root that was passed in.
    Root,
    /// The member of this index among those that were passed in.
    Member(usize),
}

/// A second place, and what is said there.
#[derive(Clone, Debug, PartialEq, Eq, Hash)]
pub struct Label {
    /// The file.
    pub file: File,
    /// Where in its bytes, where it has a place.
    pub range: Option<Range<usize>>,
    /// What is said there.
    pub text: String,
}

/// What can be written instead.
#[derive(Clone, Debug, PartialEq, Eq, Hash)]
pub struct Suggestion {
    /// What to do, in words.
    pub text: String,
    /// Whether it is certain to be what was meant, so that a program may make it.
    pub is_certain: bool,
    /// What it replaces in the bytes of the manifest: ranges that ascend and do not overlap. There are none where the words alone
    /// say what to do.
    pub replacements: Vec<Replacement>,
}

/// One thing that is wrong with a manifest, or worth knowing of it. Its text has the level, the code and the message, as
/// "error[unknown-feature]: feature `default` includes `ful` which is neither a dependency nor another feature".
#[derive(Clone, Debug, PartialEq, Eq, Hash)]
#[non_exhaustive]
pub struct Diagnostic {
    /// Its code, as `unknown-feature`: `docs/CHECKS.md` of the repository has a section for each.
    pub code: String,
    /// How grave it is.
    pub level: Level,
    /// What is wrong. Few messages have more lines than one, as that of `no-targets`.
    pub message: String,
    /// The path of what it is about; none where that is a range of the text, or the whole of it.
    pub path: KeyPath,
    /// The range of the bytes that is meant; none where that is the whole text, or has no place.
    pub range: Option<Range<usize>>,
    /// Where the value, the key and the header of the path stand.
    pub place: Place,
    /// Second places.
    pub labels: Vec<Label>,
    /// What is to be known in addition.
    pub notes: Vec<String>,
    /// What can be written instead.
    pub suggestions: Vec<Suggestion>,
}

/// A byte order mark, which is in no column.
const MARK: &[u8] = b"\xef\xbb\xbf";

impl Diagnostic {
    /// The range of the bytes that is meant; none where that is the whole text, or has no place.
    pub fn span(&self) -> Option<Range<usize>> {
        self.range.clone()
    }

    /// The line and the column, both from 1 on, at which [`span`](Diagnostic::span) begins in these bytes, which are those that were
    /// checked. A column is a character; a byte order mark is in none.
    pub fn line_column(&self, bytes: &[u8]) -> Option<(usize, usize)> {
        let start = self.range.as_ref()?.start;
        Some(match bytes.strip_prefix(MARK) {
            Some(bytes) => line_column(bytes, start.saturating_sub(MARK.len())),
            None => line_column(bytes, start),
        })
    }
}

impl fmt::Display for Diagnostic {
    fn fmt(&self, f: &mut fmt::Formatter<'_>) -> fmt::Result {
        write!(f, "{}[{}]: {}", self.level, self.code, self.message)
    }
}

impl Suggestion {
    /// The bytes from the first that it replaces to the last.
    fn reach(&self) -> Option<(usize, usize)> {
        Some((self.replacements.first()?.range.start, self.replacements.last()?.range.end))
    }

    /// Whether it can be made in this many bytes: its ranges are within them, ascend, and do not overlap.
    fn fits(&self, length: usize) -> bool {
        let mut last = 0;
        self.replacements.iter().all(|Replacement { range, .. }| {
            let is_next = last <= range.start && range.start <= range.end && range.end <= length;
            last = range.end;
            is_next
        })
    }
}

/// The bytes of a manifest with the certain suggestions of these diagnostics made, which are of these bytes: from the first place on,
/// each that does not touch the one before. One may be possible only after another, so a program checks the new bytes again until
/// nothing changes, and keeps the old ones where an error has come that was not there before (as `manifest_check --fix` does).
///
/// ```
/// use cargo_manifest::check::{check, fixed};
///
/// let text = b"[package]\nname = 'a'\nversion = '0.1.0'\nedition = '2021'\n\n[dev_dependencies]\nb = '1' # for tests\n";
/// let new = fixed(text, &check(text)?);
/// assert_eq!(new, b"[package]\nname = 'a'\nversion = '0.1.0'\nedition = '2021'\n\n[dev-dependencies]\nb = '1' # for tests\n");
/// # Ok::<(), cargo_manifest::calls::Refusal>(())
/// ```
pub fn fixed(bytes: &[u8], diagnostics: &[Diagnostic]) -> Vec<u8> {
    let all = diagnostics.iter().flat_map(|diagnostic| &diagnostic.suggestions);
    let certain = all.filter(|suggestion| suggestion.is_certain && suggestion.fits(bytes.len()));
    let mut certain: Vec<_> = certain.filter_map(|suggestion| Some((suggestion.reach()?, suggestion))).collect();
    certain.sort_by_key(|(reach, _)| *reach);
    let mut last = None;
    certain.retain(|((start, end), _)| {
        let is_free = last.is_none_or(|last| *start > last);
        if is_free {
            last = Some(*end);
        }
        is_free
    });
    let mut new = bytes.to_vec();
    for Replacement { range, text } in
        certain.iter().rev().flat_map(|(_, suggestion)| suggestion.replacements.iter().rev())
    {
        new.splice(range.clone(), text.bytes());
    }
    new
}
