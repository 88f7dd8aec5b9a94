//! What is expected in the place of a value.

use crate::message::listed;
use std::borrow::Cow;

/// What is expected in the place of a value.
#[derive(Clone, Debug)]
pub(crate) struct Expected {
    /// In words, as `a string`.
    pub(crate) what: Cow<'static, str>,
    /// The texts that are allowed, where it is a choice.
    pub(crate) choices: &'static [&'static str],
    /// The type with the rows of the table, where it is one.
    pub(crate) table: Option<&'static str>,
}

impl Expected {
    pub(crate) fn new(what: impl Into<Cow<'static, str>>) -> Expected {
        Expected { what: what.into(), choices: &[], table: None }
    }

    /// A table with the rows of a type.
    pub(crate) fn table(of: &'static str) -> Expected {
        Expected { table: Some(of), ..Expected::new("a table") }
    }

    /// One of these texts.
    pub(crate) fn one_of(choices: &'static [&'static str]) -> Expected {
        Expected { choices, ..Expected::new(format!("one of the strings {}", listed(choices))) }
    }

    /// The same, in other words.
    pub(crate) fn said(self, what: impl Into<Cow<'static, str>>) -> Expected {
        Expected { what: what.into(), ..self }
    }
}
