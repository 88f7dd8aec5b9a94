//! Values as tagged bytes. Both ways go by a loop, so that no nesting takes stack.

use super::{Date, Datetime, Offset, Time, Value};
use crate::calls::Cause;
use crate::codec::{integer, Aside, Encode, Expected, Form, Keys, Misfit, Reader, Step, Writer};
use crate::codec::{ARRAY, DATETIME, FALSE, FLOAT, STRING, TABLE, TRUE};
use std::collections::btree_map;
use std::slice;

/// A part that may be left out.
fn part<'a, T>(reader: &mut Reader<'a>, read: impl FnOnce(&mut Reader<'a>) -> Option<T>) -> Option<Option<T>> {
    match reader.byte()? {
        0 => Some(None),
        1 => read(reader).map(Some),
        _ => None,
    }
}

fn date(reader: &mut Reader<'_>) -> Option<Date> {
    let (month, day) = (reader.byte()?, reader.byte()?);
    let year = reader.number()?.try_into().ok()?;
    Some(Date { year, month, day })
}

fn time(reader: &mut Reader<'_>) -> Option<Time> {
    let (hour, minute) = (reader.byte()?, reader.byte()?);
    let second = part(reader, Reader::byte)?;
    let nanosecond = part(reader, |reader| reader.number()?.try_into().ok())?;
    Some(Time { hour, minute, second, nanosecond })
}

fn offset(reader: &mut Reader<'_>) -> Option<Offset> {
    match reader.byte()? {
        0 => Some(Offset::Z),
        1 => Some(Offset::Minutes(reader.number()?.try_into().ok()?)),
        2 => Some(Offset::Minutes(!i16::try_from(reader.number()?).ok()?)),
        _ => None,
    }
}

fn datetime(reader: &mut Reader<'_>) -> Option<Datetime> {
    let date = part(reader, date)?;
    let time = part(reader, time)?;
    let offset = part(reader, offset)?;
    Some(Datetime { date, time, offset })
}

/// The bits of everything that is not a number, as the library writes them.
const NOT_A_NUMBER: u64 = 0x7ff8_0000_0000_0000;

fn float(reader: &mut Reader<'_>) -> Option<f64> {
    let bits = reader.number()?;
    let number = f64::from_bits(bits);
    (bits == NOT_A_NUMBER || !number.is_nan()).then_some(number)
}

/// A value that holds no other.
fn simple(reader: &mut Reader<'_>) -> Option<Value> {
    Some(match reader.peek()? {
        DATETIME => {
            reader.tag(DATETIME)?;
            Value::Datetime(datetime(reader)?)
        }
        FLOAT => {
            reader.tag(FLOAT)?;
            Value::Float(float(reader)?)
        }
        STRING => Value::String(Form::decode(reader)?),
        FALSE | TRUE => Value::Boolean(Form::decode(reader)?),
        _ => Value::Integer(integer(reader)?),
    })
}

/// An array or a table that is being read: what was read, and in a table the key of the next value.
enum Open<'a> {
    Array(u64, Vec<Value>),
    Table(Keys<'a>, Vec<(String, Value)>, &'a str),
}

impl<'a> Open<'a> {
    /// Goes on to the next value. Where there is none, it is whole.
    fn next(mut self, reader: &mut Reader<'a>) -> Option<Result<Value, Open<'a>>> {
        match &mut self {
            Open::Array(left, items) => match left.checked_sub(1) {
                None => return Some(Ok(Value::Array(std::mem::take(items)))),
                Some(less) => *left = less,
            },
            Open::Table(keys, members, key) => match keys.next(reader)? {
                None => return Some(Ok(Value::Table(std::mem::take(members).into_iter().collect()))),
                Some(next) => *key = next,
            },
        }
        Some(Err(self))
    }

    fn put(&mut self, value: Value) {
        match self {
            Open::Array(_, items) => items.push(value),
            Open::Table(_, members, key) => members.push(((*key).to_owned(), value)),
        }
    }
}

impl Form for Value {
    fn decode(reader: &mut Reader<'_>) -> Option<Value> {
        let mut open: Vec<Open<'_>> = Vec::new();
        loop {
            let mut step = match reader.peek()? {
                ARRAY => Open::Array(reader.array()?, Vec::new()).next(reader)?,
                TABLE => Open::Table(reader.table()?, Vec::new(), "").next(reader)?,
                _ => Ok(simple(reader)?),
            };
            // what is whole goes into what holds it, which may be whole by that
            loop {
                match step {
                    Err(holder) => {
                        open.push(holder);
                        break;
                    }
                    Ok(whole) => {
                        let Some(mut holder) = open.pop() else { return Some(whole) };
                        holder.put(whole);
                        step = holder.next(reader)?;
                    }
                }
            }
        }
    }

    fn read(value: Value, _: &mut Aside) -> Result<Value, Misfit> {
        if value.holds_float() {
            return Err(Misfit::new::<Value>(Cause::HoldsFloat));
        }
        Ok(value)
    }

    fn expected() -> Expected {
        Expected::new("a value without a float")
    }

    fn expected_at(_: &[Step]) -> Option<Expected> {
        Some(Self::expected())
    }
}

impl Encode for Datetime {
    fn encode(&self, writer: &mut Writer) {
        if !self.is_one() {
            writer.refuse("a date-time has parts that no date-time of TOML has".into());
        }
        writer.byte(DATETIME);
        writer.byte(self.date.is_some().into());
        if let Some(date) = &self.date {
            writer.byte(date.month);
            writer.byte(date.day);
            writer.number(date.year.into());
        }
        writer.byte(self.time.is_some().into());
        if let Some(time) = &self.time {
            encode_time(time, writer);
        }
        writer.byte(self.offset.is_some().into());
        match self.offset {
            None => {}
            Some(Offset::Z) => writer.byte(0),
            Some(Offset::Minutes(minutes)) => {
                writer.byte(if minutes < 0 { 2 } else { 1 });
                let number = if minutes < 0 { !minutes } else { minutes };
                writer.number(number.unsigned_abs().into());
            }
        }
    }
}

fn encode_time(time: &Time, writer: &mut Writer) {
    writer.byte(time.hour);
    writer.byte(time.minute);
    writer.byte(time.second.is_some().into());
    if let Some(second) = time.second {
        writer.byte(second);
    }
    writer.byte(time.nanosecond.is_some().into());
    if let Some(nanosecond) = time.nanosecond {
        writer.number(nanosecond.into());
    }
}

/// What is left to write of an array or a table.
enum Left<'a> {
    Items(slice::Iter<'a, Value>),
    Members(btree_map::Iter<'a, String, Value>),
}

/// Writes a value; what it holds is left to write.
fn encode_head<'a>(value: &'a Value, writer: &mut Writer) -> Option<Left<'a>> {
    match value {
        Value::String(text) => writer.string(text),
        Value::Integer(number) => number.encode(writer),
        Value::Float(_) => writer.refuse("a float is supported in metadata alone".into()),
        Value::Boolean(boolean) => writer.boolean(*boolean),
        Value::Datetime(datetime) => datetime.encode(writer),
        Value::Array(items) => {
            writer.byte(ARRAY);
            writer.length(items.len());
            return Some(Left::Items(items.iter()));
        }
        Value::Table(members) => {
            writer.byte(TABLE);
            writer.length(members.len());
            return Some(Left::Members(members.iter()));
        }
    }
    None
}

impl Encode for Value {
    fn encode(&self, writer: &mut Writer) {
        let mut open: Vec<Left<'_>> = encode_head(self, writer).into_iter().collect();
        while let Some(mut left) = open.pop() {
            let next = match &mut left {
                Left::Items(items) => items.next(),
                Left::Members(members) => members.next().map(|(key, value)| {
                    writer.str(key);
                    value
                }),
            };
            if let Some(value) = next {
                open.push(left);
                open.extend(encode_head(value, writer));
            }
        }
    }
}

/// The value that the bytes hold, if they hold one and no more.
pub(crate) fn decoded(bytes: &[u8]) -> Option<Value> {
    let mut reader = Reader::new(bytes);
    let value = Value::decode(&mut reader)?;
    reader.is_at_end().then_some(value)
}

impl Value {
    /// Whether there is a float in the value.
    pub(crate) fn holds_float(&self) -> bool {
        let mut left = vec![self];
        while let Some(value) = left.pop() {
            match value {
                Value::Float(_) => return true,
                Value::Array(items) => left.extend(items),
                Value::Table(members) => left.extend(members.values()),
                _ => {}
            }
        }
        false
    }

    /// How deep arrays and tables stand in one another.
    pub(crate) fn depth(&self) -> usize {
        let mut deepest = 0;
        let mut left = vec![(self, 1)];
        while let Some((value, depth)) = left.pop() {
            match value {
                Value::Array(items) => left.extend(items.iter().map(|item| (item, depth + 1))),
                Value::Table(members) => left.extend(members.values().map(|member| (member, depth + 1))),
                _ => continue,
            }
            deepest = deepest.max(depth);
        }
        deepest
    }
}
