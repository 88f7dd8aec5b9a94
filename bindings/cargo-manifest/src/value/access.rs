//! What a value is asked for.

use super::{Datetime, Map, Value};
use std::collections::{BTreeMap, HashMap};
use std::hash::Hash;
use std::ops;

impl Value {
    /// The value at a key of a table, or at a place of an array.
    pub fn get<I: Index>(&self, index: I) -> Option<&Value> {
        index.index(self)
    }

    /// The same, to be changed.
    pub fn get_mut<I: Index>(&mut self, index: I) -> Option<&mut Value> {
        index.index_mut(self)
    }

    /// The string, if the value is one.
    pub fn as_str(&self) -> Option<&str> {
        match self {
            Value::String(text) => Some(text),
            _ => None,
        }
    }

    /// The table, if the value is one, to be changed.
    pub fn as_table_mut(&mut self) -> Option<&mut Map> {
        match self {
            Value::Table(table) => Some(table),
            _ => None,
        }
    }

    /// The array, if the value is one, to be changed.
    pub fn as_array_mut(&mut self) -> Option<&mut Vec<Value>> {
        match self {
            Value::Array(array) => Some(array),
            _ => None,
        }
    }

    /// Whether two values are of one kind.
    pub fn same_type(&self, other: &Value) -> bool {
        std::mem::discriminant(self) == std::mem::discriminant(other)
    }

    /// The kind of the value, in a word: `string`, `integer`, `float`, `boolean`, `datetime`, `array` or `table`.
    pub fn type_str(&self) -> &'static str {
        match self {
            Value::String(_) => "string",
            Value::Integer(_) => "integer",
            Value::Float(_) => "float",
            Value::Boolean(_) => "boolean",
            Value::Datetime(_) => "datetime",
            Value::Array(_) => "array",
            Value::Table(_) => "table",
        }
    }

    /// Whether the value is a string.
    pub fn is_str(&self) -> bool {
        self.as_str().is_some()
    }
}

/// Defines what asks for a value of one kind.
macro_rules! kinds {
    ($($variant:ident $word:literal: $type:ty, $as:ident $([$by:tt])?, $is:ident;)+) => {
        impl Value {
            $(
                #[doc = concat!("The ", $word, ", if the value is one.")]
                pub fn $as(&self) -> Option<$($by)? $type> {
                    match self {
                        Value::$variant(value) => Some(kinds!(value $($by)?)),
                        _ => None,
                    }
                }

                #[doc = concat!("Whether the value is of the kind ", $word, ".")]
                pub fn $is(&self) -> bool {
                    matches!(self, Value::$variant(_))
                }
            )+
        }
    };
    ($value:ident) => { *$value };
    ($value:ident $by:tt) => { $value };
}

kinds! {
    Integer "integer": i64, as_integer, is_integer;
    Float "float": f64, as_float, is_float;
    Boolean "boolean": bool, as_bool, is_bool;
    Datetime "date-time": Datetime, as_datetime [&], is_datetime;
    Array "array": Vec<Value>, as_array [&], is_array;
    Table "table": Map, as_table [&], is_table;
}

mod sealed {
    pub trait Sealed {}
}

/// What points at a value in another: a key into a table, or a number into an array.
pub trait Index: sealed::Sealed {
    #[doc(hidden)]
    fn index<'a>(&self, value: &'a Value) -> Option<&'a Value>;
    #[doc(hidden)]
    fn index_mut<'a>(&self, value: &'a mut Value) -> Option<&'a mut Value>;
}

impl sealed::Sealed for usize {}
impl sealed::Sealed for str {}
impl sealed::Sealed for String {}
impl<T: sealed::Sealed + ?Sized> sealed::Sealed for &T {}

impl Index for usize {
    fn index<'a>(&self, value: &'a Value) -> Option<&'a Value> {
        value.as_array()?.get(*self)
    }

    fn index_mut<'a>(&self, value: &'a mut Value) -> Option<&'a mut Value> {
        value.as_array_mut()?.get_mut(*self)
    }
}

impl Index for str {
    fn index<'a>(&self, value: &'a Value) -> Option<&'a Value> {
        value.as_table()?.get(self)
    }

    fn index_mut<'a>(&self, value: &'a mut Value) -> Option<&'a mut Value> {
        value.as_table_mut()?.get_mut(self)
    }
}

impl Index for String {
    fn index<'a>(&self, value: &'a Value) -> Option<&'a Value> {
        self.as_str().index(value)
    }

    fn index_mut<'a>(&self, value: &'a mut Value) -> Option<&'a mut Value> {
        self.as_str().index_mut(value)
    }
}

impl<I: Index + ?Sized> Index for &I {
    fn index<'a>(&self, value: &'a Value) -> Option<&'a Value> {
        (**self).index(value)
    }

    fn index_mut<'a>(&self, value: &'a mut Value) -> Option<&'a mut Value> {
        (**self).index_mut(value)
    }
}

/// Panics where there is no such value.
impl<I: Index> ops::Index<I> for Value {
    type Output = Value;

    fn index(&self, index: I) -> &Value {
        self.get(index).expect("the value has nothing at this key or place")
    }
}

/// Panics where there is no such value.
impl<I: Index> ops::IndexMut<I> for Value {
    fn index_mut(&mut self, index: I) -> &mut Value {
        self.get_mut(index).expect("the value has nothing at this key or place")
    }
}

macro_rules! from {
    ($($variant:ident: $($type:ty)+;)+) => {
        $($(
            impl From<$type> for Value {
                fn from(value: $type) -> Value {
                    Value::$variant(value.into())
                }
            }
        )+)+
    };
}

from! {
    String: String &str;
    Integer: i8 i16 i32 i64 u8 u16 u32;
    Float: f32 f64;
    Boolean: bool;
    Datetime: Datetime;
}

impl<V: Into<Value>> From<Vec<V>> for Value {
    fn from(items: Vec<V>) -> Value {
        items.into_iter().collect()
    }
}

impl<K: Into<String>, V: Into<Value>> From<BTreeMap<K, V>> for Value {
    fn from(table: BTreeMap<K, V>) -> Value {
        table.into_iter().collect()
    }
}

impl<K: Into<String> + Hash + Eq, V: Into<Value>> From<HashMap<K, V>> for Value {
    fn from(table: HashMap<K, V>) -> Value {
        table.into_iter().collect()
    }
}

impl<V: Into<Value>> FromIterator<V> for Value {
    fn from_iter<T: IntoIterator<Item = V>>(items: T) -> Value {
        Value::Array(items.into_iter().map(Into::into).collect())
    }
}

impl<K: Into<String>, V: Into<Value>> FromIterator<(K, V)> for Value {
    fn from_iter<T: IntoIterator<Item = (K, V)>>(members: T) -> Value {
        Value::Table(members.into_iter().map(|(key, value)| (key.into(), value.into())).collect())
    }
}
