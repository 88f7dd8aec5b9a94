//! Edits and offsets, as the library takes them.

use super::folders::Slice;
use super::is_broken;
use crate::codec::{Reader, Step};
use crate::{Edit, Position, Replacement};

/// `struct manifest_step`.
#[repr(C)]
pub(crate) struct GivenStep {
    pub(crate) key: Slice<u8>,
    pub(crate) index: usize,
    pub(crate) is_index: u8,
}

/// `struct manifest_edit`.
#[repr(C)]
pub(crate) struct GivenEdit {
    pub(crate) path: Slice<GivenStep>,
    pub(crate) text: Slice<u8>,
    pub(crate) kind: u8,
}

fn step_of(step: &Step) -> GivenStep {
    match step {
        Step::Key(key) => GivenStep { key: Slice::of(key.as_bytes()), index: 0, is_index: 0 },
        Step::Index(index) => GivenStep { key: Slice::of(&[]), index: *index, is_index: 1 },
    }
}

fn kind_of(edit: &Edit) -> u8 {
    match edit {
        Edit::Set(..) => 0,
        Edit::Insert(..) => 1,
        Edit::Remove(..) => 2,
        Edit::Rename(..) => 3,
    }
}

/// Runs with these edits. What they point to lives as long as the run.
pub(crate) fn with_edits<T>(edits: &[Edit], run: impl FnOnce(&[GivenEdit]) -> T) -> T {
    let paths: Vec<Vec<GivenStep>> =
        edits.iter().map(|edit| edit.parts().0.steps().into_iter().map(step_of).collect()).collect();
    let given: Vec<GivenEdit> = edits
        .iter()
        .zip(&paths)
        .map(|(edit, path)| GivenEdit {
            path: Slice::of(path),
            text: Slice::of(edit.parts().1.as_bytes()),
            kind: kind_of(edit),
        })
        .collect();
    run(&given)
}

/// What the items of an array are, if the bytes are tagged bytes of one.
fn items<T>(bytes: &[u8], read: impl Fn(&mut Reader<'_>) -> Option<T>) -> Option<Vec<T>> {
    let mut reader = Reader::new(bytes);
    let items = (0..reader.array()?).map(|_| read(&mut reader)).collect::<Option<_>>()?;
    reader.is_at_end().then_some(items)
}

pub(crate) fn replacement(reader: &mut Reader<'_>) -> Option<Replacement> {
    (reader.array()? == 3).then_some(())?;
    let range = reader.offset()?..reader.offset()?;
    Some(Replacement { range, text: reader.string()?.to_owned() })
}

fn position(reader: &mut Reader<'_>) -> Option<Position> {
    (reader.array()? == 4).then_some(())?;
    Some(Position {
        line: reader.offset()?,
        bytes: reader.offset()?,
        characters: reader.offset()?,
        units: reader.offset()?,
    })
}

/// The replacements that the tagged bytes are.
pub(crate) fn replacements_of(bytes: &[u8]) -> Vec<Replacement> {
    items(bytes, replacement).unwrap_or_else(|| is_broken())
}

/// The positions that the tagged bytes are.
pub(crate) fn positions_of(bytes: &[u8]) -> Vec<Position> {
    items(bytes, position).unwrap_or_else(|| is_broken())
}
