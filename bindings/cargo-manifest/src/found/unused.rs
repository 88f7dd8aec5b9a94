//! The keys that nothing reads, and what Cargo makes of those that it knows.

use super::{KeyPath, Place};
use crate::codec::{path_text, Step};
use crate::error::line_column;
use crate::message::expected_at;
use std::fmt;
use std::ops::Range;

/// A key that nothing reads: a manifest does not hold it, and it is not written.
///
/// It may be misspelled, or one that only Cargo knows.
///
/// ```
/// let text = b"package.name = 'a'\npackage.edtion = '2021'\n[lints.rust.unexpected_cfgs]\nlevel = 'warn'\ncheck-cfg = []";
/// let keys = cargo_manifest::unused_keys(text)?;
/// let lines: Vec<_> = keys.iter().map(ToString::to_string).collect();
/// assert_eq!(lines, [
///     "unused manifest key: package.edtion",
///     "unused manifest key: lints.rust.unexpected_cfgs.check-cfg (Cargo reads it since 1.80)",
/// ]);
/// assert!(keys[0].in_cargo.is_none());
/// # Ok::<(), cargo_manifest::Error>(())
/// ```
#[derive(Clone, Debug, PartialEq, Eq, Hash)]
pub struct UnusedKey {
    /// Where it stands.
    pub path: KeyPath,
    /// What Cargo makes of it, if Cargo knows it.
    pub in_cargo: Option<CargoKey>,
    /// Where in the text.
    pub place: Place,
}

impl UnusedKey {
    pub(super) fn new(path: KeyPath) -> UnusedKey {
        UnusedKey { in_cargo: in_cargo(&path), path, place: Place::default() }
    }

    /// Where in the bytes the key stands, and where it has no place of its own, as a table that is written by a header, that
    /// header.
    ///
    /// ```
    /// let text = "package.name = 'a'\npackage.edtion = '2021'";
    /// let key = &cargo_manifest::unused_keys(text.as_bytes())?[0];
    /// assert_eq!(key.span().map(|span| &text[span]), Some("package.edtion"));
    /// assert_eq!(key.line_column(text.as_bytes()), Some((2, 1)));
    /// # Ok::<(), cargo_manifest::Error>(())
    /// ```
    pub fn span(&self) -> Option<Range<usize>> {
        self.place.key.clone().or_else(|| self.place.span())
    }

    /// The line and the column, both from 1 on, at which [`span`](UnusedKey::span) begins in these bytes, which are those that
    /// were read. A column is a character.
    pub fn line_column(&self, bytes: &[u8]) -> Option<(usize, usize)> {
        self.span().map(|span| line_column(bytes, span.start))
    }
}

/// In the words of Cargo's own warning.
impl fmt::Display for UnusedKey {
    fn fmt(&self, f: &mut fmt::Formatter<'_>) -> fmt::Result {
        write!(f, "unused manifest key: {}", self.path)?;
        self.in_cargo.map_or(Ok(()), |key| write!(f, " ({key})"))
    }
}

/// A key that Cargo knows and this crate does not hold. `docs/CARGO.md` of the repository has the table of them, which
/// was compared with Cargo 1.95.
#[derive(Clone, Copy, Debug, PartialEq, Eq, Hash)]
#[non_exhaustive]
pub struct CargoKey {
    /// What Cargo does with it.
    pub support: CargoSupport,
    /// The first version that knows it, as `1.80`, where that is known.
    pub since: Option<&'static str>,
}

/// What Cargo does with a key that it knows.
#[derive(Clone, Copy, Debug, PartialEq, Eq, Hash)]
#[non_exhaustive]
pub enum CargoSupport {
    /// It reads the key.
    Stable,
    /// It reads the key, and advises against it.
    Deprecated,
    /// It reads the key where an unstable feature is enabled, and else refuses it or warns of it.
    Unstable,
    /// It reads the key no longer, and does not warn of it.
    Ignored,
    /// It always refuses the key.
    Refused,
}

impl fmt::Display for CargoKey {
    fn fmt(&self, f: &mut fmt::Formatter<'_>) -> fmt::Result {
        f.write_str(match self.support {
            CargoSupport::Stable => "Cargo reads it",
            CargoSupport::Deprecated => "Cargo reads it, but it is deprecated",
            CargoSupport::Unstable => "Cargo reads it with an unstable feature",
            CargoSupport::Ignored => "Cargo ignores it",
            CargoSupport::Refused => "Cargo refuses it",
        })?;
        self.since.map_or(Ok(()), |version| write!(f, " since {version}"))
    }
}

/// A key of the table of `docs/CARGO.md`: the type whose rows its table has, the last steps to that table where not each
/// such table has it, and the key.
struct Known(&'static str, &'static str, &'static str, CargoSupport, Option<&'static str>);

const KNOWN: &[Known] = &[
    Known("Manifest", "", "project", CargoSupport::Deprecated, None),
    Known("Manifest", "", "replace", CargoSupport::Deprecated, None),
    Known("Manifest", "", "hints", CargoSupport::Stable, Some("1.90")),
    Known("Package", "", "cargo-features", CargoSupport::Refused, None),
    Known("Package", "", "metabuild", CargoSupport::Unstable, None),
    Known("Package", "", "default-target", CargoSupport::Unstable, None),
    Known("Package", "", "forced-target", CargoSupport::Unstable, None),
    Known("Package", "", "im-a-teapot", CargoSupport::Unstable, None),
    Known("WorkspacePackage", "", "badges", CargoSupport::Ignored, Some("1.80")),
    Known("DependencyDetail", "", "public", CargoSupport::Unstable, None),
    Known("DependencyDetail", "", "artifact", CargoSupport::Unstable, None),
    Known("DependencyDetail", "", "lib", CargoSupport::Unstable, None),
    Known("DependencyDetail", "", "target", CargoSupport::Unstable, None),
    Known("DependencyDetail", "", "base", CargoSupport::Unstable, None),
    Known("Product", "", "doc-scrape-examples", CargoSupport::Stable, Some("1.67")),
    Known("Product", "", "filename", CargoSupport::Unstable, None),
    Known("Profile", "", "hint-mostly-unused", CargoSupport::Unstable, None),
    Known("Profile", "", "codegen-backend", CargoSupport::Unstable, None),
    Known("Profile", "", "rustflags", CargoSupport::Unstable, None),
    Known("Profile", "", "trim-paths", CargoSupport::Unstable, None),
    Known("Profile", "", "dir-name", CargoSupport::Refused, None),
    Known("LintConfig", "rust.unexpected_cfgs", "check-cfg", CargoSupport::Stable, Some("1.80")),
];

/// What Cargo makes of a key that nothing reads.
fn in_cargo(path: &KeyPath) -> Option<CargoKey> {
    let (table, Step::Key(key)) = path.split_last()? else { return None };
    let mut known = KNOWN.iter().filter(|Known(_, _, name, ..)| name == key).peekable();
    known.peek()?;
    let steps: Vec<Step> = table.steps().into_iter().cloned().collect();
    let form = expected_at(&steps)?.table?;
    let within = path_text(&steps[steps.len().saturating_sub(2)..]);
    let found = known.find(|Known(of, below, ..)| *of == form && (below.is_empty() || *below == within));
    found.map(|Known(_, _, _, support, since)| CargoKey { support: *support, since: *since })
}
