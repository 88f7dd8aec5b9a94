//! The calls with a bound on what they answer.

use super::declared::{
    self, complete, edit, manifest_placed_findings, of_text, read, resolve, resolve_and_complete, text_of, Output,
};
use super::editing::{positions_of, replacements_of};
use super::listings::Listings;
use super::refusal::Refusal;
use super::value_of;
use crate::found::{findings_of, refusals_of, unfound_of, Finding, UnfoundTarget, Unresolved};
use crate::value::Value;
use crate::{Edit, Position, Replacement};

/// The calls of this module, none of which returns more than a given number of bytes: what could take more is
/// [`Refusal::TooLong`]: a text before it is made, tagged bytes when they are measured.
///
/// Some kilobytes can mean a text of many megabytes, as where a long key stands above many tables. So who handles the
/// manifests of others bounds not their length alone. Of a text it is a bound on its length that is compared: its keys and its
/// values, and a header of its whole path for each table. Of a [`Value`] it is the exact length of its tagged bytes.
///
/// ```
/// use cargo_manifest::calls::{AtMost, Refusal};
///
/// let upload = b"[package]\nname = 'a'\nversion = '1.0.0'\n";
/// assert!(AtMost(1 << 20).canonical(upload).is_ok());
/// assert_eq!(AtMost(16).canonical(upload), Err(Refusal::TooLong));
/// ```
#[derive(Clone, Copy, Debug, PartialEq, Eq)]
pub struct AtMost(pub usize);

impl AtMost {
    /// [`canonical`](super::canonical) in at most this many bytes.
    pub fn canonical(self, bytes: &[u8]) -> Result<String, Refusal> {
        read(Output::Text, bytes, self.0).map(text_of)
    }

    /// [`completed`](super::completed) in at most this many bytes.
    pub fn completed(self, bytes: &[u8], listings: &Listings) -> Result<String, Refusal> {
        complete(Output::Text, bytes, listings, self.0).map(text_of)
    }

    /// [`resolved`](super::resolved) in at most this many bytes.
    pub fn resolved(self, bytes: &[u8], root: &[u8]) -> Result<String, Refusal> {
        resolve(Output::Text, bytes, root, self.0).map(text_of)
    }

    /// [`resolved_completed`](super::resolved_completed) in at most this many bytes.
    pub fn resolved_completed(self, bytes: &[u8], root: &[u8], listings: &Listings) -> Result<String, Refusal> {
        resolve_and_complete(Output::Text, bytes, root, listings, self.0).map(text_of)
    }

    /// [`table`](super::table) in at most this many tagged bytes.
    pub fn table(self, bytes: &[u8]) -> Result<Value, Refusal> {
        read(Output::Table, bytes, self.0).map(value_of)
    }

    /// [`completed_table`](super::completed_table) in at most this many tagged bytes.
    pub fn completed_table(self, bytes: &[u8], listings: &Listings) -> Result<Value, Refusal> {
        complete(Output::Table, bytes, listings, self.0).map(value_of)
    }

    /// [`resolved_table`](super::resolved_table) in at most this many tagged bytes.
    pub fn resolved_table(self, bytes: &[u8], root: &[u8]) -> Result<Value, Refusal> {
        resolve(Output::Table, bytes, root, self.0).map(value_of)
    }

    /// [`resolved_completed_table`](super::resolved_completed_table) in at most this many tagged bytes.
    pub fn resolved_completed_table(self, bytes: &[u8], root: &[u8], listings: &Listings) -> Result<Value, Refusal> {
        resolve_and_complete(Output::Table, bytes, root, listings, self.0).map(value_of)
    }

    /// [`findings`](super::findings) in at most this many tagged bytes.
    pub fn findings(self, bytes: &[u8]) -> Result<Vec<Finding>, Refusal> {
        of_text(manifest_placed_findings, bytes, self.0).map(findings_of)
    }

    /// [`refusals`](super::refusals) in at most this many tagged bytes.
    pub fn refusals(self, member: &[u8], root: &[u8]) -> Result<Vec<Unresolved>, Refusal> {
        declared::refusals(member, root, self.0).map(refusals_of)
    }

    /// [`unfound_targets`](super::unfound_targets) in at most this many tagged bytes.
    pub fn unfound_targets(self, bytes: &[u8], listings: &Listings) -> Result<Vec<UnfoundTarget>, Refusal> {
        declared::unfound_targets(bytes, listings, self.0).map(unfound_of)
    }

    /// [`edited`](super::edited) in at most this many bytes.
    pub fn edited(self, text: &str, edits: &[Edit]) -> Result<String, Refusal> {
        edit(text.as_bytes(), edits, false, self.0).map(text_of)
    }

    /// [`replacements`](super::replacements) in at most this many tagged bytes.
    pub fn replacements(self, text: &str, edits: &[Edit]) -> Result<Vec<Replacement>, Refusal> {
        edit(text.as_bytes(), edits, true, self.0).map(|bytes| replacements_of(&bytes))
    }

    /// [`positions`](super::positions) in at most this many tagged bytes.
    pub fn positions(self, text: &str, offsets: &[usize]) -> Result<Vec<Position>, Refusal> {
        declared::positions(text.as_bytes(), offsets, self.0).map(|bytes| positions_of(&bytes))
    }
}
