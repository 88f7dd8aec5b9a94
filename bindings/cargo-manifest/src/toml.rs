//! A value from and to one of the crate `toml`, and its errors, for each version of it that a feature names. Date-times go by
//! their text, which all versions have.

use crate::value::Value;
use crate::{Error, ParseError};
use std::ops::Range;

/// What the errors of some versions of `toml` have as methods of their own, which then count: in the others, nothing.
#[allow(dead_code)] // (which of them is called depends on the version)
trait NoPlace {
    fn span(&self) -> Option<Range<usize>> {
        None
    }

    fn line_col(&self) -> Option<(usize, usize)> {
        None
    }
}

macro_rules! of_toml {
    ($toml:ident) => {
        impl From<::$toml::Value> for Value {
            fn from(value: ::$toml::Value) -> Value {
                match value {
                    ::$toml::Value::String(text) => Value::String(text),
                    ::$toml::Value::Integer(number) => Value::Integer(number),
                    ::$toml::Value::Float(number) => Value::Float(number),
                    ::$toml::Value::Boolean(boolean) => Value::Boolean(boolean),
                    ::$toml::Value::Datetime(datetime) => {
                        let text = datetime.to_string();
                        text.parse().map_or(Value::String(text), Value::Datetime)
                    }
                    ::$toml::Value::Array(items) => Value::Array(items.into_iter().map(Value::from).collect()),
                    ::$toml::Value::Table(members) => {
                        Value::Table(members.into_iter().map(|(key, value)| (key, Value::from(value))).collect())
                    }
                }
            }
        }

        /// A date-time that `toml` does not read, as one without seconds in versions that read TOML 1.0, becomes a string.
        impl From<Value> for ::$toml::Value {
            fn from(value: Value) -> ::$toml::Value {
                match value {
                    Value::String(text) => ::$toml::Value::String(text),
                    Value::Integer(number) => ::$toml::Value::Integer(number),
                    Value::Float(number) => ::$toml::Value::Float(number),
                    Value::Boolean(boolean) => ::$toml::Value::Boolean(boolean),
                    Value::Datetime(datetime) => {
                        let text = datetime.to_string();
                        text.parse().map_or(::$toml::Value::String(text), ::$toml::Value::Datetime)
                    }
                    Value::Array(items) => ::$toml::Value::Array(items.into_iter().map(::$toml::Value::from).collect()),
                    Value::Table(members) => ::$toml::Value::Table(
                        members.into_iter().map(|(key, value)| (key, ::$toml::Value::from(value))).collect(),
                    ),
                }
            }
        }

        impl NoPlace for ::$toml::de::Error {}

        /// The message is the text of the other error; the place is there where that one has it.
        impl From<::$toml::de::Error> for ParseError {
            fn from(error: ::$toml::de::Error) -> ParseError {
                ParseError::of_toml(error.to_string(), error.span(), error.line_col())
            }
        }

        impl From<::$toml::de::Error> for Error {
            fn from(error: ::$toml::de::Error) -> Error {
                Error::Parse(error.into())
            }
        }
    };
}

#[cfg(feature = "toml")]
of_toml!(toml);
#[cfg(feature = "toml_1")]
of_toml!(toml_1);
