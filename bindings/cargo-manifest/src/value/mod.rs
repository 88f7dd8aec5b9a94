//! Values: what a table holds, whatever it means.

mod access;
mod codec;
mod datetime;
#[cfg(test)]
pub(crate) mod tests;
mod text;

pub use access::Index;
pub(crate) use codec::decoded;
pub use datetime::{Date, Datetime, DatetimeParseError, Offset, Time};
use std::collections::BTreeMap;
pub(crate) use text::{inline, lines, short};

/// Keys and their values, in the order of the keys' bytes.
pub type Map = BTreeMap<String, Value>;

/// A value of a TOML document, with the names that `toml::Value` has.
///
/// ```
/// use cargo_manifest::Value;
///
/// let metadata = Value::from_iter([("keep", vec![1, 2])]);
/// assert_eq!(metadata["keep"][1].as_integer(), Some(2));
/// assert_eq!(metadata.get("drop"), None);
/// assert_eq!(metadata.to_string(), "keep = [1, 2]\n");
/// ```
#[derive(Clone, Debug, PartialEq)]
pub enum Value {
    /// A string.
    String(String),
    /// An integer.
    Integer(i64),
    /// A float. A manifest has floats in its metadata alone.
    Float(f64),
    /// True or false.
    Boolean(bool),
    /// A date, a time, or both.
    Datetime(Datetime),
    /// Values in a row.
    Array(Vec<Value>),
    /// Values by their keys.
    Table(Map),
}
