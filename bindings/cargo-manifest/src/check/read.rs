//! The tagged bytes by which the library reports what is wrong: `docs/LIBRARY.md` of the repository has their form.

use super::{Diagnostic, File, Label, Level, Suggestion};
use crate::calls::is_broken;
use crate::calls::replacement;
use crate::codec::Reader;
use crate::found::{range, step, Place};

/// How many parts a diagnostic has.
const PARTS: u64 = 9;

/// The items of an array, which is next.
fn items<T>(reader: &mut Reader<'_>, mut read: impl FnMut(&mut Reader<'_>) -> Option<T>) -> Option<Vec<T>> {
    (0..reader.array()?).map(|_| read(reader)).collect()
}

fn text(reader: &mut Reader<'_>) -> Option<String> {
    reader.string().map(str::to_owned)
}

fn level(reader: &mut Reader<'_>) -> Option<Level> {
    Some(match reader.whole_number()? {
        0 => Level::Error,
        1 => Level::Warning,
        2 => Level::Note,
        _ => return None,
    })
}

/// The places of a path, or none.
fn place(reader: &mut Reader<'_>) -> Option<Place> {
    match reader.array()? {
        0 => Some(Place::default()),
        3 => Place::of_three(reader),
        _ => None,
    }
}

fn label(reader: &mut Reader<'_>) -> Option<Label> {
    (reader.array()? == 4).then_some(())?;
    let file = match (reader.whole_number()?, reader.offset()?) {
        (0, 0) => File::Manifest,
        (1, 0) => File::Root,
        (2, member) => File::Member(member),
        _ => return None,
    };
    Some(Label { file, range: range(reader)?, text: text(reader)? })
}

fn suggestion(reader: &mut Reader<'_>) -> Option<Suggestion> {
    (reader.array()? == 3).then_some(())?;
    Some(Suggestion { text: text(reader)?, is_certain: reader.boolean()?, replacements: items(reader, replacement)? })
}

fn diagnostic(reader: &mut Reader<'_>) -> Option<Diagnostic> {
    (reader.array()? == PARTS).then_some(())?;
    Some(Diagnostic {
        code: text(reader)?,
        level: level(reader)?,
        message: text(reader)?,
        path: items(reader, step)?.into_iter().collect(),
        range: range(reader)?,
        place: place(reader)?,
        labels: items(reader, label)?,
        notes: items(reader, text)?,
        suggestions: items(reader, suggestion)?,
    })
}

/// The diagnostics of the bytes, if they are tagged bytes of an array of such, and no more.
pub(super) fn decoded(bytes: &[u8]) -> Option<Vec<Diagnostic>> {
    let mut reader = Reader::new(bytes);
    let all = items(&mut reader, diagnostic)?;
    reader.is_at_end().then_some(all)
}

/// The diagnostics of the tagged bytes by which the library reports them.
pub(crate) fn diagnostics_of(bytes: Vec<u8>) -> Vec<Diagnostic> {
    decoded(&bytes).unwrap_or_else(|| is_broken())
}
