//! A value as data of serde's.

use super::ValueError;
use crate::value::{Datetime, Map, Value};
use ::serde::de::{Deserializer, MapAccess, SeqAccess, Visitor};
use ::serde::ser::{SerializeStruct, Serializer};
use ::serde::{Deserialize, Serialize};
use std::fmt;

/// The name and the field by which the crate `toml` passes a date-time through serde.
pub(super) const NAME: &str = "$__toml_private_Datetime";
pub(super) const FIELD: &str = "$__toml_private_datetime";

impl Value {
    /// Reads the value as a type of serde's.
    pub fn try_into<'de, T: Deserialize<'de>>(self) -> Result<T, ValueError> {
        T::deserialize(self)
    }

    /// The value that a type of serde's is.
    pub fn try_from<T: Serialize>(value: T) -> Result<Value, ValueError> {
        value.serialize(super::ser::ToValue)
    }
}

impl Serialize for Datetime {
    fn serialize<S: Serializer>(&self, serializer: S) -> Result<S::Ok, S::Error> {
        let mut parts = serializer.serialize_struct(NAME, 1)?;
        parts.serialize_field(FIELD, &self.to_string())?;
        parts.end()
    }
}

impl Serialize for Value {
    fn serialize<S: Serializer>(&self, serializer: S) -> Result<S::Ok, S::Error> {
        match self {
            Value::String(text) => serializer.serialize_str(text),
            Value::Integer(number) => serializer.serialize_i64(*number),
            Value::Float(number) => serializer.serialize_f64(*number),
            Value::Boolean(boolean) => serializer.serialize_bool(*boolean),
            Value::Datetime(datetime) => datetime.serialize(serializer),
            Value::Array(items) => items.serialize(serializer),
            Value::Table(members) => serializer.collect_map(in_order(members)),
        }
    }
}

/// The members of a table with simple values first, then arrays of tables, then tables: a writer of TOML needs this
/// order.
fn in_order(members: &Map) -> impl Iterator<Item = (&String, &Value)> {
    let rank = |value: &Value| match value {
        Value::Table(_) => 2,
        Value::Array(items) if items.iter().any(Value::is_table) => 1,
        _ => 0,
    };
    (0..3).flat_map(move |wanted| members.iter().filter(move |(_, value)| rank(value) == wanted))
}

impl<'de> Deserialize<'de> for Value {
    fn deserialize<D: Deserializer<'de>>(deserializer: D) -> Result<Value, D::Error> {
        deserializer.deserialize_any(ValueVisitor("a value of TOML"))
    }
}

impl<'de> Deserialize<'de> for Datetime {
    fn deserialize<D: Deserializer<'de>>(deserializer: D) -> Result<Datetime, D::Error> {
        match deserializer.deserialize_struct(NAME, &[FIELD], ValueVisitor("a date-time"))? {
            Value::Datetime(datetime) => Ok(datetime),
            other => {
                Err(::serde::de::Error::custom(format!("invalid type: {}, expected a date-time", other.type_str())))
            }
        }
    }
}

/// Takes any value. The text says what is expected where the format finds out by itself that it is another.
pub(super) struct ValueVisitor(pub(super) &'static str);

impl<'de> Visitor<'de> for ValueVisitor {
    type Value = Value;

    fn expecting(&self, f: &mut fmt::Formatter<'_>) -> fmt::Result {
        f.write_str(self.0)
    }

    fn visit_bool<E>(self, value: bool) -> Result<Value, E> {
        Ok(Value::Boolean(value))
    }

    fn visit_i64<E>(self, value: i64) -> Result<Value, E> {
        Ok(Value::Integer(value))
    }

    fn visit_u64<E: ::serde::de::Error>(self, value: u64) -> Result<Value, E> {
        let number = i64::try_from(value);
        number
            .map(Value::Integer)
            .map_err(|_| E::custom(format!("invalid value: integer `{value}`, expected one of 64 bits")))
    }

    fn visit_f64<E>(self, value: f64) -> Result<Value, E> {
        Ok(Value::Float(value))
    }

    fn visit_str<E>(self, value: &str) -> Result<Value, E> {
        Ok(Value::String(value.to_owned()))
    }

    fn visit_string<E>(self, value: String) -> Result<Value, E> {
        Ok(Value::String(value))
    }

    fn visit_some<D: Deserializer<'de>>(self, value: D) -> Result<Value, D::Error> {
        Deserialize::deserialize(value)
    }

    fn visit_newtype_struct<D: Deserializer<'de>>(self, value: D) -> Result<Value, D::Error> {
        Deserialize::deserialize(value)
    }

    fn visit_seq<A: SeqAccess<'de>>(self, mut items: A) -> Result<Value, A::Error> {
        let mut array = Vec::new();
        while let Some(item) = items.next_element()? {
            array.push(item);
        }
        Ok(Value::Array(array))
    }

    /// A key without a value, as other formats than TOML have it by `null`, counts as absent.
    fn visit_map<A: MapAccess<'de>>(self, mut members: A) -> Result<Value, A::Error> {
        let mut table = Map::new();
        while let Some(key) = members.next_key::<String>()? {
            if key == FIELD && table.is_empty() {
                let text: String = members.next_value()?;
                return text.parse().map(Value::Datetime).map_err(::serde::de::Error::custom);
            }
            if let Some(value) = members.next_value::<Option<Value>>()? {
                table.insert(key, value);
            }
        }
        Ok(Value::Table(table))
    }
}
