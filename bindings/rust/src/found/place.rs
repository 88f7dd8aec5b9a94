//! Where a finding stands in its text.

use crate::codec::Reader;
use std::ops::Range;

/// Where that stands in a text which is found in it: ranges of bytes, those of a `str` too.
///
/// ```
/// let text = "[package]\nname = 'a'\n[dependencies]\nserde.version = 1\n";
/// let place = &cargo_manifest::faults(text.as_bytes())?[0].place;
/// assert_eq!(place.value.clone().map(|range| &text[range]), Some("1"));
/// assert_eq!(place.key.clone().map(|range| &text[range]), Some("serde.version"));
/// assert_eq!(place.header.clone().map(|range| &text[range]), Some("[dependencies]"));
/// # Ok::<(), cargo_manifest::Error>(())
/// ```
#[derive(Clone, Debug, Default, PartialEq, Eq, Hash)]
pub struct Place {
    /// The value, where it has a place: a table or an array of tables that is written by headers or by dotted keys has none. Of
    /// a key that is missing it is the inline table in which it belongs.
    pub value: Option<Range<usize>>,
    /// The whole key of the value, and the whole of a dotted key; of a table that a dotted key goes through, the key up to that
    /// part. An item of an array has none, nor has a table that is written by headers.
    pub key: Option<Range<usize>>,
    /// The header that the value stands under, and none at the top of the text; of a table that is written by headers, the one
    /// that opens it, or else the first one that goes through it. Of a key that is missing it is that of the table in which it
    /// belongs.
    pub header: Option<Range<usize>>,
}

impl Place {
    /// The value, or where it has no place its key, or else its header; none where the place is the whole text.
    pub fn span(&self) -> Option<Range<usize>> {
        self.value.as_ref().or(self.key.as_ref()).or(self.header.as_ref()).cloned()
    }

    /// The place that the bytes hold next.
    pub(super) fn read(reader: &mut Reader<'_>) -> Option<Place> {
        (reader.array()? == 3).then_some(())?;
        Place::of_three(reader)
    }

    /// The place that the three ranges make which the bytes hold next.
    pub(crate) fn of_three(reader: &mut Reader<'_>) -> Option<Place> {
        Some(Place { value: range(reader)?, key: range(reader)?, header: range(reader)? })
    }
}

/// A range, or none.
pub(crate) fn range(reader: &mut Reader<'_>) -> Option<Option<Range<usize>>> {
    match reader.array()? {
        0 => Some(None),
        2 => Some(Some(reader.offset()?..reader.offset()?)),
        _ => None,
    }
}
