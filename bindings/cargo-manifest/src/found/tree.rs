//! The tagged bytes by which the library reports what is found: a tree, in which each step of a path stands once.
//! `docs/LIBRARY.md` of the repository has its form.

use super::{Fault, Finding, KeyPath, Place, UnfoundTarget, Unresolved, UnresolvedCause, UnusedKey};
use crate::calls::Cause;
use crate::codec::{Reader, Step, STRING};
use std::collections::BTreeMap;
use std::sync::Arc;

const FAULT: u64 = 0;
const IGNORED: u64 = 1;
const UNUSED: u64 = 2;
const BELOW: u64 = 3;

/// A value of the document, and how many parts of what is found there are still to come.
struct Open {
    path: KeyPath,
    left: u64,
}

impl Open {
    fn read(reader: &mut Reader<'_>, path: KeyPath) -> Option<Open> {
        Some(Open { left: reader.array()?, path })
    }
}

/// The words of choices, each list of them once.
type Choices<'a> = BTreeMap<Vec<&'a str>, Arc<[String]>>;

/// A step of a path: a key or an index.
pub(crate) fn step(reader: &mut Reader<'_>) -> Option<Step> {
    if reader.peek()? == STRING {
        return reader.string().map(|key| Step::Key(key.to_owned()));
    }
    Some(Step::Index(reader.offset()?))
}

/// The texts of an array.
fn words<'a>(reader: &mut Reader<'a>) -> Option<Vec<&'a str>> {
    (0..reader.array()?).map(|_| reader.string()).collect()
}

/// A fault at this path, by a part of this many values, the first of which was read.
fn fault<'a>(path: &KeyPath, length: u64, reader: &mut Reader<'a>, choices: &mut Choices<'a>) -> Option<Fault> {
    let cause = Cause::of_number(reader.whole_number()?.try_into().ok()?)?;
    let choices = match (cause, length) {
        (Cause::NotAChoice, 3) => {
            let of_words = |words: &Vec<&str>| words.iter().map(ToString::to_string).collect();
            choices.entry(words(reader)?).or_insert_with_key(of_words).clone()
        }
        (Cause::NotAChoice, _) => return None,
        (_, 2) => Arc::default(),
        _ => return None,
    };
    Some(Fault { path: path.clone(), cause, choices, place: Place::default() })
}

/// What the parts of a tree say, in their order, if one is next. A part is read by its path, its first number and the count of
/// its values. The tree is read by a loop, so that no nesting takes stack.
fn parts<'a, T>(
    reader: &mut Reader<'a>,
    mut read: impl FnMut(&KeyPath, u64, u64, &mut Reader<'a>) -> Option<T>,
) -> Option<Vec<T>> {
    let mut found = Vec::new();
    let mut open = vec![Open::read(reader, KeyPath::default())?];
    while let Some(Open { path, left }) = open.last_mut() {
        let Some(less) = left.checked_sub(1) else {
            open.pop();
            continue;
        };
        *left = less;
        let length = reader.array()?;
        match (reader.whole_number()?, length) {
            (BELOW, 3) => {
                let path = path.below(step(reader)?);
                open.push(Open::read(reader, path)?);
            }
            (what, _) => found.push(read(path, what, length, reader)?),
        }
    }
    Some(found)
}

/// The findings of a tree, in their order, if it is next.
fn findings(reader: &mut Reader<'_>) -> Option<Vec<Finding>> {
    let mut choices = Choices::new();
    parts(reader, |path, what, length, reader| match (what, length) {
        (FAULT, _) => Some(Finding::Fault(fault(path, length, reader, &mut choices)?)),
        (IGNORED, _) => Some(Finding::Ignored(fault(path, length, reader, &mut choices)?)),
        (UNUSED, 2) => Some(Finding::Unused(UnusedKey::new(path.below(Step::Key(reader.string()?.to_owned()))))),
        _ => None,
    })
}

/// The refusals of a tree, in their order, if it is next.
fn refusals(reader: &mut Reader<'_>) -> Option<Vec<Unresolved>> {
    parts(reader, |path, what, length, reader| {
        (what == FAULT && length == 3).then_some(())?;
        let status = reader.whole_number()?.try_into().ok()?;
        let cause = UnresolvedCause::of_status(status, reader.string()?)?;
        Some(Unresolved { path: path.clone(), cause, place: Place::default(), root_place: Place::default() })
    })
}

/// The paths of an array, in their order, if it is next.
fn paths(reader: &mut Reader<'_>) -> Option<Vec<KeyPath>> {
    let path = |reader: &mut Reader<'_>| (0..reader.array()?).map(|_| step(reader)).collect();
    (0..reader.array()?).map(|_| path(reader)).collect()
}

/// Reads the place of each of these things, or none at all, if they are next.
fn read_places<T>(reader: &mut Reader<'_>, all: &mut [T], place_of: impl Fn(&mut T) -> &mut Place) -> Option<()> {
    let count = reader.array()?;
    if count != 0 {
        (usize::try_from(count) == Ok(all.len())).then_some(())?;
        for each in all {
            *place_of(each) = Place::read(reader)?;
        }
    }
    Some(())
}

/// The findings of the bytes, in their order, if the bytes hold such a tree, the place of each or none at all, and no more.
pub(super) fn decoded(bytes: &[u8]) -> Option<Vec<Finding>> {
    let mut reader = Reader::new(bytes);
    (reader.array()? == 2).then_some(())?;
    let mut found = findings(&mut reader)?;
    read_places(&mut reader, &mut found, Finding::place_mut)?;
    reader.is_at_end().then_some(found)
}

/// The refusals of the bytes, in the same way, with the places of each in two texts.
pub(super) fn decoded_refusals(bytes: &[u8]) -> Option<Vec<Unresolved>> {
    let mut reader = Reader::new(bytes);
    (reader.array()? == 3).then_some(())?;
    let mut found = refusals(&mut reader)?;
    read_places(&mut reader, &mut found, |refusal| &mut refusal.place)?;
    read_places(&mut reader, &mut found, |refusal| &mut refusal.root_place)?;
    reader.is_at_end().then_some(found)
}

/// The unfound targets of the bytes, in the same way.
pub(super) fn decoded_targets(bytes: &[u8]) -> Option<Vec<UnfoundTarget>> {
    let mut reader = Reader::new(bytes);
    (reader.array()? == 2).then_some(())?;
    let of_path = |path| UnfoundTarget { path, place: Place::default() };
    let mut found: Vec<_> = paths(&mut reader)?.into_iter().map(of_path).collect();
    read_places(&mut reader, &mut found, |target| &mut target.place)?;
    reader.is_at_end().then_some(found)
}
