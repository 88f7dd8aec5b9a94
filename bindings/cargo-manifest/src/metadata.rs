//! The types that metadata can be read as and written from.

use crate::{Error, Value};

/// A type that `[package.metadata]` can be read as: [`Value`]; with the feature `serde`, every type that is
/// `DeserializeOwned`.
pub trait Metadata: Sized {
    /// Reads the metadata that stands at a key path.
    #[doc(hidden)]
    fn read(value: Value, path: &str) -> Result<Self, Error>;
}

/// A type that metadata can be written from: [`Value`]; with the feature `serde`, every type that is `Serialize`.
pub trait WrittenMetadata {
    /// The value of the metadata that stands at a key path.
    #[doc(hidden)]
    fn written(&self, path: &str) -> Result<Value, Error>;
}

#[cfg(not(feature = "serde"))]
impl Metadata for Value {
    fn read(value: Value, _: &str) -> Result<Value, Error> {
        Ok(value)
    }
}

#[cfg(not(feature = "serde"))]
impl WrittenMetadata for Value {
    fn written(&self, _: &str) -> Result<Value, Error> {
        Ok(self.clone())
    }
}

#[cfg(feature = "serde")]
impl<T: ::serde::de::DeserializeOwned> Metadata for T {
    fn read(value: Value, path: &str) -> Result<T, Error> {
        let read = T::deserialize(value);
        read.map_err(|error| crate::ParseError::of_metadata(path, &error.to_string()).into())
    }
}

#[cfg(feature = "serde")]
impl<T: ::serde::Serialize> WrittenMetadata for T {
    fn written(&self, path: &str) -> Result<Value, Error> {
        let written = Value::try_from(self);
        written.map_err(|error| Error::Other(format!("`{path}` cannot be written: {error}")))
    }
}
