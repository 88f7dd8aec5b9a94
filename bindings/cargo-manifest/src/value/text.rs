//! Values as TOML text. `Display` prints them as the crate `toml` 0.5 does.

use super::{Map, Value};
use std::fmt::{self, Write};

/// A string between double quotes.
pub(crate) fn quoted(text: &str, out: &mut impl Write) -> fmt::Result {
    out.write_char('"')?;
    for c in text.chars() {
        match c {
            '"' | '\\' => write!(out, "\\{c}")?,
            '\u{8}' => out.write_str("\\b")?,
            '\u{c}' => out.write_str("\\f")?,
            '\n' => out.write_str("\\n")?,
            '\r' => out.write_str("\\r")?,
            '\t' => out.write_str("\\t")?,
            c if c.is_ascii_control() => write!(out, "\\u{:04X}", u32::from(c))?,
            c => out.write_char(c)?,
        }
    }
    out.write_char('"')
}

/// A key, between quotes where it is no bare key.
fn key(key: &str, out: &mut impl Write) -> fmt::Result {
    let is_bare = |byte: u8| byte.is_ascii_alphanumeric() || byte == b'_' || byte == b'-';
    if !key.is_empty() && key.bytes().all(is_bare) {
        out.write_str(key)
    } else {
        quoted(key, out)
    }
}

/// How a float is printed.
pub(crate) type Float = fn(f64) -> String;

/// A float by all of its digits.
fn digits(number: f64) -> String {
    match number {
        _ if number.is_nan() => short(number),
        _ if number % 1.0 == 0.0 => format!("{number}.0"),
        _ => number.to_string(),
    }
}

/// A float with an exponent where that is shorter.
pub(crate) fn short(number: f64) -> String {
    if number.is_nan() {
        return if number.is_sign_negative() { "-nan".into() } else { "nan".into() };
    }
    // (`{:?}` has a point or an exponent in each finite number, and gives `inf` and `-inf`)
    format!("{number:?}")
}

/// A value in one line.
pub(crate) fn inline(value: &Value, float: Float, out: &mut impl Write) -> fmt::Result {
    match value {
        Value::String(text) => quoted(text, out),
        Value::Integer(number) => write!(out, "{number}"),
        Value::Float(number) => out.write_str(&float(*number)),
        Value::Boolean(boolean) => write!(out, "{boolean}"),
        Value::Datetime(datetime) => write!(out, "{datetime}"),
        Value::Array(items) => {
            out.write_char('[')?;
            for (place, item) in items.iter().enumerate() {
                out.write_str(if place > 0 { ", " } else { "" })?;
                inline(item, float, out)?;
            }
            out.write_char(']')
        }
        Value::Table(members) if members.is_empty() => out.write_str("{}"),
        Value::Table(members) => {
            for (place, (name, value)) in members.iter().enumerate() {
                out.write_str(if place > 0 { ", " } else { "{ " })?;
                member(name, value, float, out)?;
            }
            out.write_str(" }")
        }
    }
}

/// The TOML text of the value in one line, as it stands after a key and `=`.
impl From<&Value> for String {
    fn from(value: &Value) -> String {
        let mut text = String::new();
        // (writing to a `String` never fails)
        let _ = inline(value, short, &mut text);
        text
    }
}

/// The TOML text of the value in one line, as it stands after a key and `=`.
impl From<Value> for String {
    fn from(value: Value) -> String {
        String::from(&value)
    }
}

fn member(name: &str, value: &Value, float: Float, out: &mut impl Write) -> fmt::Result {
    key(name, out)?;
    out.write_str(" = ")?;
    inline(value, float, out)
}

fn line(name: &str, value: &Value, float: Float, out: &mut impl Write) -> fmt::Result {
    member(name, value, float, out)?;
    out.write_char('\n')
}

/// A table as what stands below a header: a line for each of its keys.
pub(crate) fn lines(table: &Map, float: Float, out: &mut impl Write) -> fmt::Result {
    table.iter().try_for_each(|(name, value)| line(name, value, float, out))
}

/// The tables of an array that has nothing else, which stand below a header each; none of any other value.
fn tables(value: &Value) -> Option<Vec<&Map>> {
    let items = value.as_array().filter(|items| !items.is_empty())?;
    items.iter().map(Value::as_table).collect()
}

/// A document that is being printed.
struct Document<'a, W> {
    out: &'a mut W,
    /// The keys of the table that is printed.
    path: Vec<&'a str>,
}

impl<'a, W: Write> Document<'a, W> {
    /// A header of the table that is printed. A line is left out before it where something of the table around it is printed.
    fn header(&mut self, opening: &str, closing: &str, after_others: bool) -> fmt::Result {
        self.out.write_str(if after_others { "\n" } else { "" })?;
        self.out.write_str(opening)?;
        for (place, part) in self.path.iter().enumerate() {
            self.out.write_str(if place > 0 { "." } else { "" })?;
            key(part, self.out)?;
        }
        self.out.write_str(closing)?;
        self.out.write_char('\n')
    }

    /// A table below its header, which is left out where only tables stand in it.
    fn table(&mut self, table: &'a Map, after_others: bool) -> fmt::Result {
        let is_line = |value: &Value| !value.is_table() && tables(value).is_none();
        if table.is_empty() || table.values().any(is_line) {
            self.header("[", "]", after_others)?;
        }
        self.members(table)
    }

    /// What stands in a table: its lines, then its arrays of tables, then its tables.
    fn members(&mut self, table: &'a Map) -> fmt::Result {
        let (mut arrays, mut last) = (Vec::new(), Vec::new());
        let mut after_others = false;
        for (name, value) in table {
            match (value, tables(value)) {
                (Value::Table(members), _) => last.push((name, members)),
                (_, Some(items)) => arrays.push((name, items)),
                _ => {
                    line(name, value, digits, self.out)?;
                    after_others = true;
                }
            }
        }
        for (name, items) in arrays {
            self.path.push(name);
            for item in items {
                self.header("[[", "]]", after_others)?;
                self.members(item)?;
                after_others = true;
            }
            self.path.pop();
        }
        for (name, members) in last {
            self.path.push(name);
            self.table(members, after_others)?;
            self.path.pop();
            after_others = true;
        }
        Ok(())
    }
}

/// A table as a document; any other value in one line.
impl fmt::Display for Value {
    fn fmt(&self, f: &mut fmt::Formatter<'_>) -> fmt::Result {
        let mut text = String::new();
        match self {
            Value::Table(table) => Document { out: &mut text, path: Vec::new() }.members(table)?,
            value => inline(value, digits, &mut text)?,
        }
        f.pad(&text)
    }
}
