//! A value that a type of serde's is written to.

use super::value::{FIELD, NAME};
use super::ValueError;
use crate::codec::Step;
use crate::value::{Map, Value};
use ::serde::ser::{SerializeMap, SerializeSeq, SerializeStruct, SerializeStructVariant, SerializeTuple};
use ::serde::ser::{SerializeTupleStruct, SerializeTupleVariant, Serializer};
use ::serde::Serialize;

/// What makes a value of what is written.
pub(super) struct ToValue;

fn written<T: Serialize + ?Sized>(value: &T) -> Result<Value, ValueError> {
    value.serialize(ToValue)
}

/// A value, or none where it is an option that has none.
fn written_if_some<T: Serialize + ?Sized>(value: &T) -> Result<Option<Value>, ValueError> {
    match written(value) {
        Ok(value) => Ok(Some(value)),
        Err(error) if error == nothing() => Ok(None),
        Err(error) => Err(error),
    }
}

/// The error of an option that has nothing. As the value of a key it leaves the key out.
fn nothing() -> ValueError {
    ValueError::new("unsupported value: TOML has no null")
}

fn table_of(variant: &str, content: Value) -> Value {
    Value::Table(Map::from([(variant.to_owned(), content)]))
}

macro_rules! integers {
    ($($name:ident $type:ty),+) => {
        $(
            fn $name(self, value: $type) -> Result<Value, ValueError> {
                let number = i64::try_from(value);
                number.map(Value::Integer).map_err(|_| ValueError::new(format!("invalid value: integer `{value}`, expected one of 64 bits")))
            }
        )+
    };
}

impl Serializer for ToValue {
    type Ok = Value;
    type Error = ValueError;
    type SerializeSeq = Items;
    type SerializeTuple = Items;
    type SerializeTupleStruct = Items;
    type SerializeTupleVariant = Items;
    type SerializeMap = Members;
    type SerializeStruct = Members;
    type SerializeStructVariant = Members;

    integers! {
        serialize_i8 i8, serialize_i16 i16, serialize_i32 i32, serialize_i64 i64,
        serialize_u8 u8, serialize_u16 u16, serialize_u32 u32, serialize_u64 u64
    }

    fn serialize_bool(self, value: bool) -> Result<Value, ValueError> {
        Ok(Value::Boolean(value))
    }

    fn serialize_f32(self, value: f32) -> Result<Value, ValueError> {
        Ok(Value::Float(value.into()))
    }

    fn serialize_f64(self, value: f64) -> Result<Value, ValueError> {
        Ok(Value::Float(value))
    }

    fn serialize_char(self, value: char) -> Result<Value, ValueError> {
        Ok(Value::String(value.into()))
    }

    fn serialize_str(self, value: &str) -> Result<Value, ValueError> {
        Ok(Value::String(value.to_owned()))
    }

    fn serialize_bytes(self, value: &[u8]) -> Result<Value, ValueError> {
        Ok(value.iter().copied().collect())
    }

    fn serialize_none(self) -> Result<Value, ValueError> {
        Err(nothing())
    }

    fn serialize_some<T: Serialize + ?Sized>(self, value: &T) -> Result<Value, ValueError> {
        value.serialize(self)
    }

    fn serialize_unit(self) -> Result<Value, ValueError> {
        Err(nothing())
    }

    fn serialize_unit_struct(self, _: &'static str) -> Result<Value, ValueError> {
        Err(nothing())
    }

    fn serialize_unit_variant(self, _: &'static str, _: u32, variant: &'static str) -> Result<Value, ValueError> {
        Ok(Value::String(variant.into()))
    }

    fn serialize_newtype_struct<T: Serialize + ?Sized>(self, _: &'static str, value: &T) -> Result<Value, ValueError> {
        value.serialize(self)
    }

    fn serialize_newtype_variant<T: Serialize + ?Sized>(
        self,
        _: &'static str,
        _: u32,
        variant: &'static str,
        value: &T,
    ) -> Result<Value, ValueError> {
        Ok(table_of(variant, written(value)?))
    }

    fn serialize_seq(self, _: Option<usize>) -> Result<Items, ValueError> {
        Ok(Items { variant: None, items: Vec::new() })
    }

    fn serialize_tuple(self, length: usize) -> Result<Items, ValueError> {
        self.serialize_seq(Some(length))
    }

    fn serialize_tuple_struct(self, _: &'static str, length: usize) -> Result<Items, ValueError> {
        self.serialize_seq(Some(length))
    }

    fn serialize_tuple_variant(
        self,
        _: &'static str,
        _: u32,
        variant: &'static str,
        _: usize,
    ) -> Result<Items, ValueError> {
        Ok(Items { variant: Some(variant), items: Vec::new() })
    }

    fn serialize_map(self, _: Option<usize>) -> Result<Members, ValueError> {
        Ok(Members { name: "", variant: None, key: String::new(), members: Map::new() })
    }

    fn serialize_struct(self, name: &'static str, _: usize) -> Result<Members, ValueError> {
        Ok(Members { name, variant: None, key: String::new(), members: Map::new() })
    }

    fn serialize_struct_variant(
        self,
        _: &'static str,
        _: u32,
        variant: &'static str,
        _: usize,
    ) -> Result<Members, ValueError> {
        Ok(Members { name: "", variant: Some(variant), key: String::new(), members: Map::new() })
    }
}

pub(super) struct Items {
    variant: Option<&'static str>,
    items: Vec<Value>,
}

impl Items {
    fn put<T: Serialize + ?Sized>(&mut self, item: &T) -> Result<(), ValueError> {
        let place = self.items.len();
        self.items.push(written(item).map_err(|error| error.below(Step::Index(place)))?);
        Ok(())
    }

    fn whole(self) -> Value {
        match self.variant {
            None => Value::Array(self.items),
            Some(variant) => table_of(variant, Value::Array(self.items)),
        }
    }
}

macro_rules! items {
    ($($trait:ident $put:ident),+) => {
        $(
            impl $trait for Items {
                type Ok = Value;
                type Error = ValueError;

                fn $put<T: Serialize + ?Sized>(&mut self, item: &T) -> Result<(), ValueError> {
                    self.put(item)
                }

                fn end(self) -> Result<Value, ValueError> {
                    Ok(self.whole())
                }
            }
        )+
    };
}

items! {
    SerializeSeq serialize_element, SerializeTuple serialize_element,
    SerializeTupleStruct serialize_field, SerializeTupleVariant serialize_field
}

pub(super) struct Members {
    name: &'static str,
    variant: Option<&'static str>,
    key: String,
    members: Map,
}

impl Members {
    fn put<T: Serialize + ?Sized>(&mut self, key: &str, value: &T) -> Result<(), ValueError> {
        if let Some(value) = written_if_some(value).map_err(|error| error.below(Step::Key(key.to_owned())))? {
            self.members.insert(key.to_owned(), value);
        }
        Ok(())
    }

    fn whole(self) -> Result<Value, ValueError> {
        if self.name == NAME {
            let text = self.members.get(FIELD).and_then(Value::as_str).unwrap_or_default();
            return text.parse().map(Value::Datetime).map_err(::serde::ser::Error::custom);
        }
        let table = Value::Table(self.members);
        Ok(match self.variant {
            None => table,
            Some(variant) => table_of(variant, table),
        })
    }
}

impl SerializeMap for Members {
    type Ok = Value;
    type Error = ValueError;

    fn serialize_key<T: Serialize + ?Sized>(&mut self, key: &T) -> Result<(), ValueError> {
        self.key = match written(key)? {
            Value::String(key) => key,
            other => {
                return Err(ValueError::new(format!("invalid type of a key: {}, expected a string", other.type_str())))
            }
        };
        Ok(())
    }

    fn serialize_value<T: Serialize + ?Sized>(&mut self, value: &T) -> Result<(), ValueError> {
        let key = std::mem::take(&mut self.key);
        self.put(&key, value)
    }

    fn end(self) -> Result<Value, ValueError> {
        self.whole()
    }
}

macro_rules! members {
    ($($trait:ident),+) => {
        $(
            impl $trait for Members {
                type Ok = Value;
                type Error = ValueError;

                fn serialize_field<T: Serialize + ?Sized>(
                    &mut self,
                    key: &'static str,
                    value: &T,
                ) -> Result<(), ValueError> {
                    self.put(key, value)
                }

                fn end(self) -> Result<Value, ValueError> {
                    self.whole()
                }
            }
        )+
    };
}

members! { SerializeStruct, SerializeStructVariant }
