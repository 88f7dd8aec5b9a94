//! Prints what serde writes of each manifest: a line as JSON, with `null` for what is nothing, by a small writer of its own;
//! and a line as TOML by the crate `toml`, or that it refuses, and whether that text is read as the same manifest.
//!
//! `serialized < CASES`

mod cases;

use cargo_manifest::Manifest;
use serde::ser::{self, Serialize, Serializer};
use std::fmt::{self, Display};

#[derive(Debug)]
struct Refused(String);

impl Display for Refused {
    fn fmt(&self, f: &mut fmt::Formatter<'_>) -> fmt::Result {
        f.write_str(&self.0)
    }
}

impl std::error::Error for Refused {}

impl ser::Error for Refused {
    fn custom<T: Display>(message: T) -> Refused {
        Refused(message.to_string())
    }
}

/// Writes JSON. Of what no manifest has it makes nothing.
struct Json;

/// An array or an object that is being written.
struct Open {
    text: String,
    closing: &'static str,
}

impl Open {
    fn new(opening: &str, closing: &'static str) -> Result<Open, Refused> {
        Ok(Open { text: opening.to_string(), closing })
    }

    fn part<T: Serialize + ?Sized>(&mut self, before: &str, part: &T) -> Result<(), Refused> {
        let is_first = self.text.len() == 1;
        if before != ":" && !is_first {
            self.text.push(',');
        }
        self.text += before;
        self.text += &part.serialize(Json)?;
        Ok(())
    }

    fn finish(self) -> Result<String, Refused> {
        Ok(self.text + self.closing)
    }
}

macro_rules! displayed {
    ($($name:ident $type:ty),+) => {
        $(fn $name(self, value: $type) -> Result<String, Refused> {
            Ok(value.to_string())
        })+
    };
}

macro_rules! refused {
    ($($name:ident($($type:ty),*) -> $answer:ty;)+) => {
        $(fn $name(self, $(_: $type),*) -> Result<$answer, Refused> {
            Err(Refused(stringify!($name).to_string()))
        })+
    };
}

type Never = ser::Impossible<String, Refused>;

impl Serializer for Json {
    type Ok = String;
    type Error = Refused;
    type SerializeSeq = Open;
    type SerializeTuple = Never;
    type SerializeTupleStruct = Never;
    type SerializeTupleVariant = Never;
    type SerializeMap = Open;
    type SerializeStruct = Open;
    type SerializeStructVariant = Never;

    displayed! {
        serialize_bool bool, serialize_i8 i8, serialize_i16 i16, serialize_i32 i32, serialize_i64 i64, serialize_u8 u8,
        serialize_u16 u16, serialize_u32 u32, serialize_u64 u64, serialize_f32 f32, serialize_f64 f64
    }

    refused! {
        serialize_char(char) -> String;
        serialize_bytes(&[u8]) -> String;
        serialize_unit() -> String;
        serialize_unit_struct(&'static str) -> String;
        serialize_tuple(usize) -> Never;
        serialize_tuple_struct(&'static str, usize) -> Never;
        serialize_tuple_variant(&'static str, u32, &'static str, usize) -> Never;
        serialize_struct_variant(&'static str, u32, &'static str, usize) -> Never;
    }

    fn serialize_str(self, value: &str) -> Result<String, Refused> {
        Ok(format!("{value:?}"))
    }

    fn serialize_none(self) -> Result<String, Refused> {
        Ok("null".to_string())
    }

    fn serialize_some<T: Serialize + ?Sized>(self, value: &T) -> Result<String, Refused> {
        value.serialize(self)
    }

    fn serialize_unit_variant(self, _: &'static str, _: u32, variant: &'static str) -> Result<String, Refused> {
        self.serialize_str(variant)
    }

    fn serialize_newtype_struct<T: Serialize + ?Sized>(self, _: &'static str, value: &T) -> Result<String, Refused> {
        value.serialize(self)
    }

    fn serialize_newtype_variant<T: Serialize + ?Sized>(
        self,
        _: &'static str,
        _: u32,
        variant: &'static str,
        _: &T,
    ) -> Result<String, Refused> {
        Err(Refused(variant.to_string()))
    }

    fn serialize_seq(self, _: Option<usize>) -> Result<Open, Refused> {
        Open::new("[", "]")
    }

    fn serialize_map(self, _: Option<usize>) -> Result<Open, Refused> {
        Open::new("{", "}")
    }

    fn serialize_struct(self, _: &'static str, _: usize) -> Result<Open, Refused> {
        Open::new("{", "}")
    }
}

impl ser::SerializeSeq for Open {
    type Ok = String;
    type Error = Refused;

    fn serialize_element<T: Serialize + ?Sized>(&mut self, item: &T) -> Result<(), Refused> {
        self.part("", item)
    }

    fn end(self) -> Result<String, Refused> {
        self.finish()
    }
}

impl ser::SerializeMap for Open {
    type Ok = String;
    type Error = Refused;

    fn serialize_key<T: Serialize + ?Sized>(&mut self, key: &T) -> Result<(), Refused> {
        self.part("", key)
    }

    fn serialize_value<T: Serialize + ?Sized>(&mut self, value: &T) -> Result<(), Refused> {
        self.part(":", value)
    }

    fn end(self) -> Result<String, Refused> {
        self.finish()
    }
}

impl ser::SerializeStruct for Open {
    type Ok = String;
    type Error = Refused;

    fn serialize_field<T: Serialize + ?Sized>(&mut self, key: &'static str, value: &T) -> Result<(), Refused> {
        self.part("", key)?;
        self.part(":", value)
    }

    fn end(self) -> Result<String, Refused> {
        self.finish()
    }
}

/// The manifest as TOML.
fn toml_of(manifest: &Manifest) -> String {
    match toml::to_string(manifest) {
        Ok(text) => {
            let again: Result<Manifest, _> = text.parse();
            let same = again.is_ok_and(|again| format!("{again:?}") == format!("{manifest:?}"));
            format!("{text:?} {}", if same { "is read back" } else { "is not read back" })
        }
        Err(_) => "refused by toml".to_string(),
    }
}

fn main() {
    for case in cases::read() {
        match Manifest::from_slice(&case.text) {
            Ok(manifest) => println!("{}\n{}", manifest.serialize(Json).expect("JSON"), toml_of(&manifest)),
            Err(_) => println!("refused\nrefused"),
        }
    }
}
