//! What a value and a type of serde cannot agree on.

use crate::codec::{path_text, Step};
use crate::ParseError;
use std::error::Error;
use std::fmt::{self, Display};

/// Why a value is not of the expected type, or a type cannot be a value. The text says where, by the key path.
#[derive(Clone, Debug, PartialEq, Eq)]
pub struct ValueError {
    message: String,
    /// From the inside out.
    steps: Vec<Step>,
}

impl ValueError {
    pub(crate) fn new(message: impl Into<String>) -> ValueError {
        ValueError { message: message.into(), steps: Vec::new() }
    }

    /// The same error, one step further out.
    pub(super) fn below(mut self, step: Step) -> ValueError {
        self.steps.push(step);
        self
    }
}

impl Display for ValueError {
    fn fmt(&self, f: &mut fmt::Formatter<'_>) -> fmt::Result {
        f.write_str(&self.message)?;
        if self.steps.is_empty() {
            return Ok(());
        }
        let steps: Vec<Step> = self.steps.iter().rev().cloned().collect();
        write!(f, " at `{}`", path_text(&steps))
    }
}

impl Error for ValueError {}

impl ::serde::de::Error for ValueError {
    fn custom<T: Display>(message: T) -> ValueError {
        ValueError::new(message.to_string())
    }
}

impl ::serde::ser::Error for ValueError {
    fn custom<T: Display>(message: T) -> ValueError {
        ValueError::new(message.to_string())
    }
}

/// As the errors of reading a manifest, which is also data that does not fit.
impl From<ValueError> for ParseError {
    fn from(error: ValueError) -> ParseError {
        ParseError::of_whole(error.to_string())
    }
}

impl From<ValueError> for crate::Error {
    fn from(error: ValueError) -> crate::Error {
        crate::Error::Parse(error.into())
    }
}
