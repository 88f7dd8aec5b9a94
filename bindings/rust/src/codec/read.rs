//! Values that are read as the types of a manifest, whatever the values are.

use super::path::{self, Step};
use super::{Aside, Expected, Form};
use crate::calls::Cause;
use crate::value::{Map, Value};
use std::collections::BTreeMap;

/// Why a value, or its absence, does not fit, and where.
#[derive(Debug)]
pub(crate) struct Misfit {
    pub(crate) cause: Cause,
    /// What is expected there.
    pub(crate) expected: Expected,
    /// From the inside out.
    steps: Vec<Step>,
}

impl Misfit {
    pub(crate) fn new<T: Form>(cause: Cause) -> Misfit {
        Misfit { cause, expected: T::expected(), steps: Vec::new() }
    }

    pub(crate) fn wrong_kind<T: Form>() -> Misfit {
        Misfit::new::<T>(Cause::WrongKind)
    }

    fn below(mut self, step: Step) -> Misfit {
        self.steps.push(step);
        self
    }

    /// The key path.
    pub(crate) fn path(mut self) -> String {
        self.steps.reverse();
        path::text(&self.steps)
    }
}

/// The members of a table that is read as one type.
pub(crate) fn members<T: Form>(value: Value) -> Result<Map, Misfit> {
    match value {
        Value::Table(members) => Ok(members),
        _ => Err(Misfit::wrong_kind::<T>()),
    }
}

/// The value of a key, by either of its spellings.
pub(crate) fn optional<T: Form>(
    members: &mut Map,
    key: &'static str,
    second: Option<&'static str>,
    aside: &mut Aside,
) -> Result<Option<T>, Misfit> {
    let first = members.remove(key).map(|value| (key, value));
    let other = second.and_then(|second| members.remove(second).map(|value| (second, value)));
    let (spelling, value) = match (first, other) {
        (Some(_), Some(_)) => {
            return Err(Misfit::new::<T>(Cause::TwoSpellings).below(Step::Key(key.into())));
        }
        (None, None) => return Ok(None),
        (Some(one), None) | (None, Some(one)) => one,
    };
    let read = T::read(value, aside);
    read.map(Some).map_err(|misfit| misfit.below(Step::Key(spelling.into())))
}

/// The same for a key that is required.
pub(crate) fn required<T: Form>(
    members: &mut Map,
    key: &'static str,
    second: Option<&'static str>,
    aside: &mut Aside,
) -> Result<T, Misfit> {
    let read = optional(members, key, second, aside)?;
    read.ok_or_else(|| Misfit::new::<T>(Cause::Missing).below(Step::Key(key.into())))
}

/// All members that are left, each as the same type.
pub(crate) fn others<T: Form>(members: Map, aside: &mut Aside) -> Result<BTreeMap<String, T>, Misfit> {
    let read = members.into_iter().map(|(key, value)| match T::read(value, aside) {
        Ok(value) => Ok((key, value)),
        Err(misfit) => Err(misfit.below(Step::Key(key))),
    });
    read.collect()
}

/// All items of an array, each as the same type.
pub(crate) fn items<T: Form>(items: Vec<Value>, aside: &mut Aside) -> Result<Vec<T>, Misfit> {
    let read = items
        .into_iter()
        .enumerate()
        .map(|(place, item)| T::read(item, aside).map_err(|misfit| misfit.below(Step::Index(place))));
    read.collect()
}

/// Whether a value is a table whose `workspace` is true.
pub(crate) fn is_inherited(value: &Value) -> bool {
    value.get("workspace").and_then(Value::as_bool) == Some(true)
}
