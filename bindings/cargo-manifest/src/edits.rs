//! Edits of a text that keep all else: comments, order and layout.

use crate::found::KeyPath;
use std::ops::Range;

/// A change of the text of a `Cargo.toml`, or of any other TOML document, at a key path, as [`edited`](crate::edited) makes it.
///
/// A value is given as TOML text, as `"'2021'"` or `"[1, 2]"`, or as a [`Value`](crate::Value), and a key as it is, without
/// quotes.
///
/// ```
/// use cargo_manifest::{Edit, Value};
///
/// assert_eq!(Edit::set(["a"], Value::from(vec![1, 2])), Edit::set(["a"], "[1, 2]"));
/// ```
#[derive(Clone, Debug, PartialEq, Eq, Hash)]
#[non_exhaustive]
pub enum Edit {
    /// Another value in the place of the one that is there. A table or an array of tables that is written by headers or by
    /// dotted keys has no place: what stands in it has.
    Set(KeyPath, String),
    /// A value where none is: the path ends with a new key of a table, or with the index after the last item of an array. A
    /// new key stands after the table's own entries, before the comments of the next header; where the table has no header, it
    /// gets one at the end of the text.
    Insert(KeyPath, String),
    /// Nothing more at the path: the entry goes with the rest of its line, or with one comma. With the last line of an array
    /// that has no comma after it goes the comma before it, and with a line between two blank ones one of these.
    Remove(KeyPath),
    /// Another key for what is at the path, in each dotted key and each header that goes through it.
    Rename(KeyPath, String),
}

impl Edit {
    /// [`Edit::Set`] at the path of these steps.
    pub fn set(path: impl Into<KeyPath>, toml: impl Into<String>) -> Edit {
        Edit::Set(path.into(), toml.into())
    }

    /// [`Edit::Insert`] at the path of these steps.
    pub fn insert(path: impl Into<KeyPath>, toml: impl Into<String>) -> Edit {
        Edit::Insert(path.into(), toml.into())
    }

    /// [`Edit::Remove`] at the path of these steps.
    pub fn remove(path: impl Into<KeyPath>) -> Edit {
        Edit::Remove(path.into())
    }

    /// [`Edit::Rename`] at the path of these steps.
    pub fn rename(path: impl Into<KeyPath>, key: impl Into<String>) -> Edit {
        Edit::Rename(path.into(), key.into())
    }

    /// The path, and the value or the key.
    pub(crate) fn parts(&self) -> (&KeyPath, &str) {
        match self {
            Edit::Set(path, text) | Edit::Insert(path, text) | Edit::Rename(path, text) => (path, text),
            Edit::Remove(path) => (path, ""),
        }
    }
}

/// A range of bytes of a text, and what takes its place.
#[derive(Clone, Debug, PartialEq, Eq, Hash)]
pub struct Replacement {
    /// The range.
    pub range: Range<usize>,
    /// What takes its place.
    pub text: String,
}

/// Where an offset is in a text.
#[derive(Clone, Copy, Debug, PartialEq, Eq, Hash)]
pub struct Position {
    /// The line, from 1 on. A line ends after a line feed, and nowhere else.
    pub line: usize,
    /// How many bytes of the line stand before the offset.
    pub bytes: usize,
    /// How many characters begin there.
    pub characters: usize,
    /// How many units of UTF-16 these have, by which editors count.
    pub units: usize,
}
