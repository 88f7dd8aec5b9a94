//! Strings, numbers, lists and maps.

use super::reader::{ARRAY, BELOW_ZERO, FALSE, FROM_ZERO, TABLE, TRUE};
use super::{read, Aside, Encode, Expected, Form, Misfit, Reader, Step, Writer};
use crate::calls::Cause;
use crate::value::Value;
use std::collections::BTreeMap;

impl Form for String {
    #[inline]
    fn decode(reader: &mut Reader<'_>) -> Option<String> {
        reader.string().map(str::to_owned)
    }

    fn read(value: Value, _: &mut Aside) -> Result<String, Misfit> {
        match value {
            Value::String(text) => Ok(text),
            _ => Err(Misfit::wrong_kind::<String>()),
        }
    }

    fn expected() -> Expected {
        Expected::new("a string")
    }
}

impl Encode for String {
    fn encode(&self, writer: &mut Writer) {
        writer.string(self);
    }
}

impl Form for bool {
    #[inline]
    fn decode(reader: &mut Reader<'_>) -> Option<bool> {
        match reader.byte()? {
            FALSE => Some(false),
            TRUE => Some(true),
            _ => None,
        }
    }

    fn read(value: Value, _: &mut Aside) -> Result<bool, Misfit> {
        value.as_bool().ok_or_else(Misfit::wrong_kind::<bool>)
    }

    fn expected() -> Expected {
        Expected::new("a boolean")
    }
}

impl Encode for bool {
    fn encode(&self, writer: &mut Writer) {
        writer.boolean(*self);
    }
}

/// An integer.
pub(crate) fn integer(reader: &mut Reader<'_>) -> Option<i64> {
    match reader.byte()? {
        FROM_ZERO => i64::try_from(reader.number()?).ok(),
        BELOW_ZERO => i64::try_from(reader.number()?).ok().map(|number| !number),
        _ => None,
    }
}

impl Encode for i64 {
    fn encode(&self, writer: &mut Writer) {
        let (tag, number) = if *self < 0 { (BELOW_ZERO, !*self) } else { (FROM_ZERO, *self) };
        writer.byte(tag);
        writer.number(number.unsigned_abs());
    }
}

macro_rules! small_integer {
    ($($integer:ident)+) => {
        $(
            impl Form for $integer {
                #[inline]
                fn decode(reader: &mut Reader<'_>) -> Option<$integer> {
                    integer(reader)?.try_into().ok()
                }

                fn read(value: Value, _: &mut Aside) -> Result<$integer, Misfit> {
                    let number = value.as_integer().ok_or_else(Misfit::wrong_kind::<$integer>)?;
                    number.try_into().map_err(|_| Misfit::new::<$integer>(Cause::OutOfRange))
                }

                fn expected() -> Expected {
                    Expected::new(format!("an integer from {} to {}", $integer::MIN, $integer::MAX))
                }
            }

            impl Encode for $integer {
                fn encode(&self, writer: &mut Writer) {
                    i64::from(*self).encode(writer);
                }
            }
        )+
    };
}

small_integer! { i8 u16 }

impl<T: Form> Form for Vec<T> {
    #[inline]
    fn decode(reader: &mut Reader<'_>) -> Option<Vec<T>> {
        let count = reader.array()?;
        let mut items = Vec::with_capacity(reader.at_most::<T>(count));
        for _ in 0..count {
            items.push(T::decode(reader)?);
        }
        Some(items)
    }

    fn read(value: Value, aside: &mut Aside) -> Result<Vec<T>, Misfit> {
        match value {
            Value::Array(items) => read::items(items, aside),
            _ => Err(Misfit::wrong_kind::<Vec<T>>()),
        }
    }

    fn expected() -> Expected {
        Expected::new("an array")
    }

    fn expected_at(path: &[Step]) -> Option<Expected> {
        match path {
            [] => Some(Self::expected()),
            [Step::Index(_), path @ ..] => T::expected_at(path),
            [Step::Key(_), ..] => None,
        }
    }
}

impl<T: Encode> Encode for Vec<T> {
    fn encode(&self, writer: &mut Writer) {
        writer.byte(ARRAY);
        writer.length(self.len());
        for item in self {
            item.encode(writer);
        }
    }
}

/// How many entries a map has in one node: up to here inserting them one by one is faster than by a list.
const ONE_NODE: u64 = 11;

impl<T: Form> Form for BTreeMap<String, T> {
    #[inline]
    fn decode(reader: &mut Reader<'_>) -> Option<BTreeMap<String, T>> {
        let mut keys = reader.table()?;
        if keys.left() <= ONE_NODE {
            let mut map = BTreeMap::new();
            while let Some(key) = keys.next(reader)? {
                map.insert(key.to_owned(), T::decode(reader)?);
            }
            return Some(map);
        }
        let mut members = Vec::with_capacity(reader.at_most::<(String, T)>(keys.left()));
        while let Some(key) = keys.next(reader)? {
            members.push((key.to_owned(), T::decode(reader)?));
        }
        // (the keys ascend, so this sorts nothing)
        Some(members.into_iter().collect())
    }

    fn read(value: Value, aside: &mut Aside) -> Result<BTreeMap<String, T>, Misfit> {
        read::others(read::members::<Self>(value)?, aside)
    }

    fn expected() -> Expected {
        Expected::new("a table")
    }

    fn expected_at(path: &[Step]) -> Option<Expected> {
        match path {
            [] => Some(Self::expected()),
            [Step::Key(_), path @ ..] => T::expected_at(path),
            [Step::Index(_), ..] => None,
        }
    }
}

impl<T: Encode> Encode for BTreeMap<String, T> {
    fn encode(&self, writer: &mut Writer) {
        writer.byte(TABLE);
        writer.length(self.len());
        for (key, value) in self {
            writer.str(key);
            value.encode(writer);
        }
    }
}

/// A value that is there. (Whether a key is absent its row says.)
impl<T: Form> Form for Option<T> {
    #[inline]
    fn decode(reader: &mut Reader<'_>) -> Option<Option<T>> {
        T::decode(reader).map(Some)
    }

    fn read(value: Value, aside: &mut Aside) -> Result<Option<T>, Misfit> {
        T::read(value, aside).map(Some)
    }

    fn expected() -> Expected {
        T::expected()
    }

    fn expected_at(path: &[Step]) -> Option<Expected> {
        T::expected_at(path)
    }
}
