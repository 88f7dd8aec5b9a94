//! The one table of a manifest as tagged bytes, and the types that stand in it.
//!
//! A type is given by its rows, once: [`record`] makes of them the struct, what reads it and what writes it.

mod containers;
mod expected;
mod path;
pub(crate) mod read;
mod reader;
mod record;
#[cfg(test)]
mod tests;
mod words;
mod writer;

pub(crate) use containers::integer;
pub(crate) use expected::Expected;
pub(crate) use reader::{Keys, Reader, ARRAY, DATETIME, FALSE, FLOAT, STRING, TABLE, TRUE};
pub(crate) use record::{others_of, record, row};
pub(crate) use words::words;
pub(crate) use writer::{AsideOf, Members, Writer};

use crate::value::Value;
pub(crate) use path::steps;
pub(crate) use path::text as path_text;
pub use path::Step;
pub(crate) use read::Misfit;

/// What stands in the table of a manifest as one value.
pub(crate) trait Form: Sized {
    /// The value that the bytes hold next; `None` where they are not what the library writes of this type.
    fn decode(reader: &mut Reader<'_>) -> Option<Self>;

    /// The value, read as the definitions say: by each spelling of a key, with defaults for what is absent.
    fn read(value: Value, aside: &mut Aside) -> Result<Self, Misfit>;

    /// What is expected.
    fn expected() -> Expected;

    /// The name of a table that has these keys and no others, by all of their spellings.
    #[cfg(feature = "serde")]
    fn keys() -> Option<(&'static str, &'static [&'static str])> {
        None
    }

    /// What is expected at a path below, if that is known.
    fn expected_at(path: &[Step]) -> Option<Expected> {
        path.is_empty().then(Self::expected)
    }
}

/// What can be written as one value of the table of a manifest.
pub(crate) trait Encode {
    /// Appends the value to what is written.
    fn encode(&self, writer: &mut Writer);
}

/// The metadata of a manifest, which is kept apart while it is read or written: its types are the user's.
#[derive(Debug, Default)]
pub(crate) struct Aside {
    pub(crate) package: Option<Value>,
    pub(crate) workspace: Option<Value>,
}
