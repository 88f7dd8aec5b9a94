//! The declarations of the library, and its calls with memory for their text.

use super::checking::{with_check, CheckRequest};
use super::editing::{with_edits, GivenEdit};
use super::folders::{with_folders, Folder, Slice};
use super::listings::Listings;
use super::numbers;
use super::refusal::{Cause, ListingError, Part, Refusal};
use crate::check::Check;
use crate::Edit;
use std::sync::OnceLock;

/// What a call answers: `struct manifest_answer` of `bindings/c/cargo_manifest.h`.
#[repr(C)]
#[derive(Clone, Copy, Debug, PartialEq, Eq)]
pub(crate) struct Answer {
    pub(crate) status: u8,
    pub(crate) cause: u8,
    pub(crate) length: usize,
    pub(crate) start: usize,
    pub(crate) end: usize,
}

/// `struct manifest_request`: what a call is asked for. What is not passed in is empty.
#[repr(C)]
#[derive(Clone, Copy)]
pub(crate) struct Request {
    pub(crate) bytes: Slice<u8>,
    pub(crate) root: Slice<u8>,
    pub(crate) folders: Slice<Folder>,
    pub(crate) most: usize,
    pub(crate) input: u8,
    pub(crate) output: u8,
    pub(crate) has_root: u8,
    pub(crate) has_folders: u8,
}

impl Request {
    /// A request of bytes alone.
    pub(crate) fn of(input: Input, output: Output, bytes: &[u8], most: usize) -> Request {
        let (root, folders) = (Slice::of(&[]), Slice::of(&[]));
        let (input, output) = (input as u8, output as u8);
        Request { bytes: Slice::of(bytes), root, folders, most, input, output, has_root: 0, has_folders: 0 }
    }

    /// The same with a root.
    fn over(self, root: &[u8]) -> Request {
        Request { root: Slice::of(root), has_root: 1, ..self }
    }

    /// The same with folders.
    fn with(self, folders: &[Folder]) -> Request {
        Request { folders: Slice::of(folders), has_folders: 1, ..self }
    }
}

// The signatures of `bindings/c/cargo_manifest.h`. No tool compares them: `scripts/library` compares the
// sizes and offsets of the two, and runs both.
extern "C" {
    fn manifest_version() -> u32;
    pub(crate) fn manifest_run(request: Request, out: *mut u8, out_length: usize) -> Answer;
    fn manifest_diagnostics(request: CheckRequest, out: *mut u8, out_length: usize) -> Answer;
    fn manifest_placed_refusals(
        bytes: *const u8,
        bytes_length: usize,
        root: *const u8,
        root_length: usize,
        most: usize,
        out: *mut u8,
        out_length: usize,
    ) -> Answer;
    fn manifest_placed_unfound_targets(
        bytes: *const u8,
        bytes_length: usize,
        folders: *const Folder,
        folders_length: usize,
        most: usize,
        out: *mut u8,
        out_length: usize,
    ) -> Answer;
    fn manifest_positions(
        bytes: *const u8,
        bytes_length: usize,
        offsets: *const usize,
        offsets_length: usize,
        most: usize,
        out: *mut u8,
        out_length: usize,
    ) -> Answer;
    fn manifest_edited(
        bytes: *const u8,
        bytes_length: usize,
        edits: *const GivenEdit,
        edits_length: usize,
        as_replacements: u8,
        most: usize,
        out: *mut u8,
        out_length: usize,
    ) -> Answer;
}

/// Declares calls of a text alone.
macro_rules! declared {
    ($($name:ident)+) => {
        extern "C" {
            $(pub(crate) fn $name(
                bytes: *const u8,
                bytes_length: usize,
                most: usize,
                out: *mut u8,
                out_length: usize,
            ) -> Answer;)+
        }
    };
}

declared! { manifest_table_without_metadata manifest_document manifest_placed_findings }

/// What the bytes of a request are.
#[derive(Clone, Copy)]
pub(crate) enum Input {
    /// The text of a `Cargo.toml`.
    Text = 0,
    /// The tagged bytes of its table.
    Table = 1,
}

/// What is asked for of a manifest.
#[derive(Clone, Copy)]
pub(crate) enum Output {
    /// Its canonical text.
    Text = 0,
    /// The tagged bytes of its table.
    Table = 1,
}

/// Ends at an answer that no contract of the library allows: the archive is of another version than this crate, or this
/// crate reads the answer wrongly.
pub(crate) fn is_broken() -> ! {
    panic!("the header does not have this answer of the library: the archive is of another version")
}

/// The text of an answer, which is UTF-8: contracts say so of a canonical text and of the text of a refusal.
pub(crate) fn text_of(bytes: Vec<u8>) -> String {
    String::from_utf8(bytes).unwrap_or_else(|_| is_broken())
}

/// The error of an answer that gives no text.
fn refused(answer: Answer, text: Vec<u8>) -> Refusal {
    let of_root = numbers::OF_ROOT..2 * numbers::OF_ROOT;
    let part = if of_root.contains(&answer.status) { Part::Root } else { Part::Manifest };
    match answer.status {
        numbers::NO_TOML | numbers::ROOT_NO_TOML => {
            Refusal::Toml { part, message: text_of(text), range: answer.start..answer.end }
        }
        numbers::SCHEMA | numbers::ROOT_SCHEMA => match Cause::of_number(answer.cause) {
            Some(cause) => Refusal::Schema { part, cause, path: text_of(text) },
            None => is_broken(),
        },
        numbers::IO => Refusal::Io(match answer.cause {
            numbers::NOT_FOUND => ListingError::NotFound,
            numbers::OUT_OF_MEMORY => ListingError::OutOfMemory,
            _ => ListingError::Other,
        }),
        numbers::NOT_UTF8 | numbers::ROOT_NOT_UTF8 => Refusal::Utf8(part),
        numbers::OTHER => Refusal::Other(text_of(text)),
        numbers::MEMORY => Refusal::Memory,
        numbers::DATE => Refusal::Date(text_of(text)),
        numbers::NO_WORKSPACE => Refusal::NoWorkspace,
        numbers::UNTAGGED | numbers::ROOT_UNTAGGED => Refusal::Untagged(part),
        numbers::TOO_DEEP | numbers::ROOT_TOO_DEEP => Refusal::TooDeep(part),
        numbers::TOO_LONG => Refusal::TooLong,
        numbers::NOT_A_VALUE => Refusal::NotAValue,
        numbers::NO_PLACE => Refusal::NoPlace,
        numbers::OVERLAP => Refusal::Overlap,
        numbers::NOT_EDITED => Refusal::NotEdited,
        numbers::OFFSETS => Refusal::Offsets,
        numbers::CONFIGURATION => Refusal::Configuration,
        status => Refusal::of_inheriting(status, text_of(text)).unwrap_or_else(|| is_broken()),
    }
}

impl Refusal {
    /// The refusal to inherit something, of the status with which it is reported, with the text of that.
    pub(crate) fn of_inheriting(status: u8, text: String) -> Option<Refusal> {
        match status {
            numbers::NOT_IN_WORKSPACE => Some(Refusal::NotInWorkspace(text)),
            numbers::INHERITED_IN_WORKSPACE => Some(Refusal::InheritedInWorkspace(text)),
            numbers::MIXED_LINTS => Some(Refusal::MixedLints),
            numbers::TOOL_NAMED_WORKSPACE => Some(Refusal::ToolNamedWorkspace),
            _ => None,
        }
    }
}

/// The version of the archive's calls.
fn version() -> u32 {
    // SAFETY: the call takes nothing.
    unsafe { manifest_version() }
}

/// The version of the calls that this crate is written for.
const VERSION: u32 = 4;

/// Compares the versions of this crate and of the archive, at the first call.
fn version_fits() {
    static FITS: OnceLock<bool> = OnceLock::new();
    if !FITS.get_or_init(|| version() == VERSION) {
        is_broken();
    }
}

/// What `most` is where a text may be of any length.
pub(crate) const ANY: usize = usize::MAX;

/// Calls with memory for this many bytes, and once more where the text takes more. `run` gets a pointer to this many
/// bytes that are set.
fn bytes_of(room: usize, run: impl Fn(*mut u8, usize) -> Answer) -> Result<Vec<u8>, Refusal> {
    version_fits();
    let mut out = Vec::new();
    let mut room = room;
    loop {
        out.try_reserve_exact(room).map_err(|_| Refusal::Memory)?;
        // (no contract says that the library reads none of them, so they are set before)
        out.resize(room, 0);
        let answer = run(out.as_mut_ptr(), out.len());
        if answer.length > out.len() {
            room = answer.length;
            out.clear();
            continue;
        }
        out.truncate(answer.length);
        return match answer.status {
            numbers::ACCEPTED => Ok(out),
            _ => Err(refused(answer, out)),
        };
    }
}

/// How many bytes most outputs fit into that are made of this many bytes and this many names.
pub(super) fn room_for(bytes: usize, names: usize) -> usize {
    names.saturating_mul(64).saturating_add(bytes).saturating_mul(2).saturating_add(256)
}

/// How many bytes most diagnostics fit into that a text of this many bytes has.
fn room_for_diagnostics(bytes: usize) -> usize {
    bytes.saturating_mul(4).saturating_add(4096)
}

/// How many bytes most tables fit into: a table has no spaces, and each of its numbers is short.
pub(super) fn room_for_table(bytes: usize) -> usize {
    bytes.saturating_add(bytes / 8).saturating_add(256)
}

/// What a request gives, in a first memory of this many bytes.
///
/// # Safety
///
/// The slices of the request, and those that its folders hold, live through the call.
unsafe fn asked(request: Request, room: usize) -> Result<Vec<u8>, Refusal> {
    bytes_of(room.min(request.most), |out, room| {
        // SAFETY: `out` is memory of its own; the caller says the rest.
        unsafe { manifest_run(request, out, room) }
    })
}

/// What is asked for of the manifest that the bytes are, in at most this many bytes.
pub(crate) fn read(output: Output, bytes: &[u8], most: usize) -> Result<Vec<u8>, Refusal> {
    let room = match output {
        Output::Text => room_for(bytes.len(), 0),
        Output::Table => room_for_table(bytes.len()),
    };
    // SAFETY: the slices are borrowed through the call, here and below.
    unsafe { asked(Request::of(Input::Text, output, bytes, most), room) }
}

/// The same, completed over listings.
pub(crate) fn complete(output: Output, bytes: &[u8], listings: &Listings, most: usize) -> Result<Vec<u8>, Refusal> {
    let request = Request::of(Input::Text, output, bytes, most);
    with_folders(listings, |folders| {
        // SAFETY: as in `read`; so are the slices that the folders hold.
        unsafe { asked(request.with(folders), room_for(bytes.len(), listings.len())) }
    })
}

/// The same, with what it inherits from the workspace of the root put in.
pub(crate) fn resolve(output: Output, bytes: &[u8], root: &[u8], most: usize) -> Result<Vec<u8>, Refusal> {
    let request = Request::of(Input::Text, output, bytes, most).over(root);
    // SAFETY: as in `read`.
    unsafe { asked(request, room_for(bytes.len().saturating_add(root.len()), 0)) }
}

/// The same, resolved and then completed.
pub(crate) fn resolve_and_complete(
    output: Output,
    bytes: &[u8],
    root: &[u8],
    listings: &Listings,
    most: usize,
) -> Result<Vec<u8>, Refusal> {
    let request = Request::of(Input::Text, output, bytes, most).over(root);
    let room = room_for(bytes.len().saturating_add(root.len()), listings.len());
    with_folders(listings, |folders| {
        // SAFETY: as in `complete`.
        unsafe { asked(request.with(folders), room) }
    })
}

type OnSlice = unsafe extern "C" fn(*const u8, usize, usize, *mut u8, usize) -> Answer;

/// What a call answers that takes one text, in at most this many bytes.
pub(crate) fn of_text(call: OnSlice, bytes: &[u8], most: usize) -> Result<Vec<u8>, Refusal> {
    bytes_of(room_for(bytes.len(), 0).min(most), |out, room| {
        // SAFETY: both pointers are of slices that live through the call and do not overlap, with their lengths.
        unsafe { call(bytes.as_ptr(), bytes.len(), most, out, room) }
    })
}

/// The refusals of a member over the workspace of a root, in at most this many tagged bytes.
pub(crate) fn refusals(member: &[u8], root: &[u8], most: usize) -> Result<Vec<u8>, Refusal> {
    bytes_of(room_for(member.len(), 0).min(most), |out, room| {
        let (at, length) = (root.as_ptr(), root.len());
        // SAFETY: the three pointers are of slices that live through the call, of which `out` overlaps none, with their lengths.
        unsafe { manifest_placed_refusals(member.as_ptr(), member.len(), at, length, most, out, room) }
    })
}

/// The unfound targets of a manifest over listings, in at most this many tagged bytes.
pub(crate) fn unfound_targets(bytes: &[u8], listings: &Listings, most: usize) -> Result<Vec<u8>, Refusal> {
    with_folders(listings, |folders| {
        bytes_of(room_for(bytes.len(), 0).min(most), |out, room| {
            let (at, length) = (folders.as_ptr(), folders.len());
            // SAFETY: as in `refusals`; so are the slices that the folders hold.
            unsafe { manifest_placed_unfound_targets(bytes.as_ptr(), bytes.len(), at, length, most, out, room) }
        })
    })
}

/// The positions of offsets, which ascend, in at most this many tagged bytes.
pub(crate) fn positions(bytes: &[u8], offsets: &[usize], most: usize) -> Result<Vec<u8>, Refusal> {
    bytes_of(room_for(0, offsets.len()).min(most), |out, room| {
        // SAFETY: the three pointers are of slices that live through the call, of which `out` overlaps none, with their lengths.
        unsafe { manifest_positions(bytes.as_ptr(), bytes.len(), offsets.as_ptr(), offsets.len(), most, out, room) }
    })
}

/// The text with these edits, or the tagged bytes of what they replace in it.
pub(crate) fn edit(bytes: &[u8], edits: &[Edit], as_replacements: bool, most: usize) -> Result<Vec<u8>, Refusal> {
    let texts: usize = edits.iter().map(|edit| edit.parts().1.len()).sum();
    with_edits(edits, |given| {
        bytes_of(room_for(bytes.len().saturating_add(texts), edits.len()).min(most), |out, room| {
            let (edits, count, as_replacements) = (given.as_ptr(), given.len(), u8::from(as_replacements));
            // SAFETY: as in `positions`; so are the slices that the edits hold.
            unsafe { manifest_edited(bytes.as_ptr(), bytes.len(), edits, count, as_replacements, most, out, room) }
        })
    })
}

/// What is wrong with a manifest, as tagged bytes.
pub(crate) fn diagnostics(check: &Check<'_>) -> Result<Vec<u8>, Refusal> {
    with_check(check, |request| {
        bytes_of(room_for_diagnostics(check.bytes.len()).min(check.most), |out, room| {
            // SAFETY: the slices of the request, and those that its folders, members and packages hold, live through the run, and
            // `out` overlaps none of them.
            unsafe { manifest_diagnostics(request, out, room) }
        })
    })
}

/// The canonical text of a table.
pub(crate) fn of_table(table: &[u8]) -> Result<Vec<u8>, Refusal> {
    // SAFETY: as in `read`.
    unsafe { asked(Request::of(Input::Table, Output::Text, table, ANY), room_for(table.len(), 0)) }
}

/// A table, completed over listings.
pub(crate) fn complete_table(table: &[u8], listings: &Listings) -> Result<Vec<u8>, Refusal> {
    let request = Request::of(Input::Table, Output::Table, table, ANY);
    with_folders(listings, |folders| {
        // SAFETY: as in `complete`.
        unsafe { asked(request.with(folders), room_for(table.len(), listings.len())) }
    })
}

/// A table, with what it inherits from the workspace of the root's put in.
pub(crate) fn resolve_table(member: &[u8], root: &[u8]) -> Result<Vec<u8>, Refusal> {
    let request = Request::of(Input::Table, Output::Table, member, ANY).over(root);
    // SAFETY: as in `read`.
    unsafe { asked(request, room_for(member.len().saturating_add(root.len()), 0)) }
}
