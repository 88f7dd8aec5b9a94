//! The library's calls, whose answers are texts and untyped values: what the types of this crate stand on.
//!
//! ```
//! use cargo_manifest::calls;
//!
//! let text = calls::canonical(b"name = 'a'\nedition = '2021'")?; // an old header
//! assert_eq!(text, "[package]\nedition = \"2021\"\nname = \"a\"\n");
//! # Ok::<(), calls::Refusal>(())
//! ```
//!
//! Nothing of a manifest is kept between calls, so each may be made from any thread, also while others run; not from a
//! signal handler, nor from the forked child of a process that has threads. 256 KiB of stack are enough for each of them,
//! whatever its bytes are, which is tested: what nests too deep is refused. How long an answer may be [`AtMost`] bounds.

mod at_most;
mod checking;
// (a call of the library takes pointers and lengths, and no compiler sees that they fit: at each call stands why they do)
#[allow(unsafe_code)]
mod declared;
mod editing;
mod folders;
#[cfg(test)]
#[allow(unsafe_code)] // (it stands in the place of functions in C)
pub(crate) mod heap;
mod listings;
#[allow(dead_code)] // (no call of this crate is refused with LISTINGS)
mod numbers;
mod paths;
mod refusal;
pub(crate) mod tables;
#[cfg(test)]
#[allow(unsafe_code)] // (one call is made with less memory than its text takes)
mod tests;

use crate::found::{Finding, UnfoundTarget, Unresolved};
use crate::value::{decoded, Value};
use crate::{Edit, Position, Replacement};
pub use at_most::AtMost;
pub(crate) use declared::{diagnostics, is_broken, ANY};
pub(crate) use editing::replacement;
pub use listings::Listings;
pub use refusal::{Cause, ListingError, Part, Refusal, DEPTH_LIMIT};

/// The canonical text of the manifest that the bytes are.
pub fn canonical(bytes: &[u8]) -> Result<String, Refusal> {
    AtMost(ANY).canonical(bytes)
}

/// The canonical text of the manifest that the bytes are, completed over listings.
pub fn completed(bytes: &[u8], listings: &Listings) -> Result<String, Refusal> {
    AtMost(ANY).completed(bytes, listings)
}

/// The canonical text of the manifest that the bytes are, with what it inherits from the workspace of the root put in.
pub fn resolved(bytes: &[u8], root: &[u8]) -> Result<String, Refusal> {
    AtMost(ANY).resolved(bytes, root)
}

/// The same, resolved and then completed.
pub fn resolved_completed(bytes: &[u8], root: &[u8], listings: &Listings) -> Result<String, Refusal> {
    AtMost(ANY).resolved_completed(bytes, root, listings)
}

/// What a document is whose metadata the library cannot keep, as tagged bytes.
pub(crate) struct Apart {
    /// The table of the manifest, with an empty table in the place of all metadata.
    pub(crate) table: Vec<u8>,
    /// The whole document.
    pub(crate) document: Vec<u8>,
}

/// The value of tagged bytes.
fn value_of(table: Vec<u8>) -> Value {
    decoded(&table).unwrap_or_else(|| is_broken())
}

/// The one table of the manifest that the bytes are: what its canonical text says, by values.
///
/// ```
/// use cargo_manifest::{calls::table, Value};
///
/// let Value::Table(all) = table(b"[package]\nname = 'a'")? else { panic!() };
/// let Value::Table(package) = &all["package"] else { panic!() };
/// assert_eq!(package["name"], Value::String("a".into()));
/// # Ok::<(), cargo_manifest::calls::Refusal>(())
/// ```
pub fn table(bytes: &[u8]) -> Result<Value, Refusal> {
    AtMost(ANY).table(bytes)
}

/// The table of the completed manifest: what [`completed`] says, by values.
pub fn completed_table(bytes: &[u8], listings: &Listings) -> Result<Value, Refusal> {
    AtMost(ANY).completed_table(bytes, listings)
}

/// The table of the resolved manifest: what [`resolved`] says, by values.
pub fn resolved_table(bytes: &[u8], root: &[u8]) -> Result<Value, Refusal> {
    AtMost(ANY).resolved_table(bytes, root)
}

/// The table of the resolved and completed manifest: what [`resolved_completed`] says, by values.
pub fn resolved_completed_table(bytes: &[u8], root: &[u8], listings: &Listings) -> Result<Value, Refusal> {
    AtMost(ANY).resolved_completed_table(bytes, root, listings)
}

/// What is found in the document that the bytes are, as in a manifest: every fault, what is ignored where it does not fit,
/// and every key that nothing reads. They stand in the order in which `docs/KEYS.md` of the repository has the keys, and the
/// keys that nothing reads after what is found in the other keys of their table.
///
/// Metadata is not looked at, so no float in it is a fault. A document with faults is no error here. An error is what is no
/// TOML, or nests too deep.
///
/// ```
/// use cargo_manifest::calls::findings;
///
/// let found = findings(b"[package]\nname = 1\nedtion = '2021'\n[badges]\ngitlab = 1")?;
/// let lines: Vec<_> = found.iter().map(ToString::to_string).collect();
/// assert_eq!(lines, [
///     "invalid type for `package.name`: expected a string",
///     "unused manifest key: package.edtion",
///     "ignored: invalid type for `badges.gitlab`: expected a table",
/// ]);
/// # Ok::<(), cargo_manifest::calls::Refusal>(())
/// ```
pub fn findings(bytes: &[u8]) -> Result<Vec<Finding>, Refusal> {
    AtMost(ANY).findings(bytes)
}

/// All that a member cannot inherit from the workspace of a root, and why, with its places in both texts. There is none exactly
/// where [`resolved`] puts in what the member inherits, and else the first one is that with which it refuses (but that a bound may
/// refuse it before).
///
/// They stand in this order: the fields of the package, `dependencies`, `dev-dependencies` and `build-dependencies`, the same three of
/// each platform, and `lints`. Under an old header, or by a second spelling, as `dev_dependencies`, what inherits does not stand at
/// the path of its refusal: its place is that of the table in which it would belong.
///
/// An error is a member or a root that is no manifest, and [`Refusal::NoWorkspace`].
///
/// ```
/// use cargo_manifest::{refusals, UnresolvedCause};
///
/// let member = "[package]\nname = 'a'\nversion.workspace = true\n[dependencies]\nlog = { workspace = true }\n";
/// let root = "[workspace.dependencies]\nlog.workspace = true\n";
/// let found = refusals(member.as_bytes(), root.as_bytes())?;
/// assert_eq!(found[0].cause, UnresolvedCause::NotInWorkspace("version".into()));
/// assert_eq!(found[0].line_column(member.as_bytes()), Some((3, 1)));
/// assert_eq!(found[1].cause, UnresolvedCause::InheritedInWorkspace("log".into()));
/// assert_eq!(found[1].span().map(|span| &member[span]), Some("{ workspace = true }"));
/// assert_eq!(found[1].root_line_column(root.as_bytes()), Some((2, 1)));
/// # Ok::<(), cargo_manifest::calls::Refusal>(())
/// ```
pub fn refusals(member: &[u8], root: &[u8]) -> Result<Vec<Unresolved>, Refusal> {
    AtMost(ANY).refusals(member, root)
}

/// The declared targets of the manifest that the bytes are for which there is no file in the listings, with their places in the
/// text: the library, where [`completed`] refuses the manifest for it, and each binary, example, test or bench that it leaves
/// without a path. The library is first, and then each list is in its order. A path that is declared is not looked up.
///
/// An error is what is no manifest, and a listing whose error refuses a completion; that of `.` does not.
///
/// ```
/// use cargo_manifest::{calls::Listings, unfound_targets};
///
/// let text = "[package]\nname = 'a'\nedition = '2021'\n[[bin]]\nname = 'b'\n[[bin]]\nname = 'c'\n";
/// let mut listings = Listings::new();
/// listings.put("src/bin", ["b.rs"]);
/// let unfound = unfound_targets(text.as_bytes(), &listings)?;
/// assert_eq!((unfound.len(), unfound[0].path.to_string().as_str()), (1, "bin[1]"));
/// assert_eq!(unfound[0].line_column(text.as_bytes()), Some((6, 1)));
/// # Ok::<(), cargo_manifest::calls::Refusal>(())
/// ```
pub fn unfound_targets(bytes: &[u8], listings: &Listings) -> Result<Vec<UnfoundTarget>, Refusal> {
    AtMost(ANY).unfound_targets(bytes, listings)
}

/// The text with all of these edits, in which nothing else is changed: comments, order and layout stay. It is the text of the
/// document with these changes and no others, which is proved. Either all edits are made or none; paths and indexes are those of
/// the document as it is given.
///
/// An error is what is no TOML or nests too deep; [`Refusal::NotAValue`], [`Refusal::NoPlace`], [`Refusal::Overlap`] and
/// [`Refusal::NotEdited`] say why edits cannot be made.
///
/// ```
/// use cargo_manifest::{edited, Edit};
///
/// let text = "[package]\nname = 'a' # its name\nedition = '2018'\n\n# what it needs\n[dependencies]\nlog = '0.4'\n";
/// let edits = [
///     Edit::set(["package", "edition"], "'2021'"),
///     Edit::insert(["package", "license"], "'MIT'"),
///     Edit::rename(["dependencies", "log"], "tracing"),
/// ];
/// assert_eq!(
///     edited(text, &edits)?,
///     "[package]\nname = 'a' # its name\nedition = '2021'\nlicense = 'MIT'\n\n# what it needs\n[dependencies]\n\
///      tracing = '0.4'\n"
/// );
/// # Ok::<(), cargo_manifest::calls::Refusal>(())
/// ```
pub fn edited(text: &str, edits: &[Edit]) -> Result<String, Refusal> {
    AtMost(ANY).edited(text, edits)
}

/// What [`edited`] replaces in the text, as an editor takes it: ranges of bytes that ascend and do not overlap.
///
/// ```
/// use cargo_manifest::{replacements, Edit, Replacement};
///
/// let replaced = replacements("a = 1 # one\n", &[Edit::set(["a"], "2")])?;
/// assert_eq!(replaced, [Replacement { range: 4..5, text: "2".into() }]);
/// # Ok::<(), cargo_manifest::calls::Refusal>(())
/// ```
pub fn replacements(text: &str, edits: &[Edit]) -> Result<Vec<Replacement>, Refusal> {
    AtMost(ANY).replacements(text, edits)
}

/// The line and the columns of each of these offsets of bytes, in one pass over the text. An error is [`Refusal::Offsets`] where
/// they do not ascend, or one is over the end of the text.
///
/// ```
/// let positions = cargo_manifest::positions("a = 1\nb = '\u{e9}'", &[4, 13])?;
/// assert_eq!((positions[0].line, positions[0].characters), (1, 4));
/// assert_eq!((positions[1].line, positions[1].bytes, positions[1].characters), (2, 7, 6));
/// # Ok::<(), cargo_manifest::calls::Refusal>(())
/// ```
pub fn positions(text: &str, offsets: &[usize]) -> Result<Vec<Position>, Refusal> {
    AtMost(ANY).positions(text, offsets)
}
