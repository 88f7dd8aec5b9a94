//! What `toml_edit` makes of texts: each case of standard input is a text with one edit of it, which stands in the lines of
//! its files: `set`, `remove` or `keep`, the value to set in TOML, and the steps of a path. Each line is in hexadecimal digits
//! after its first character: `e` for the edit, `v` for the value, `k` for a key; an index is a decimal number after `i`.
//!
//! For each case a line is printed, with the length of the new text in bytes, and then this text; or `none`, where `toml_edit`
//! does not read the text or the value, or there is nothing at the path.

mod cases;

use cases::Case;
use std::io::{self, Write};
use toml_edit::{Document, Item, TableLike, Value};

/// One step of a path.
enum Step {
    Key(String),
    Index(usize),
}

/// The text that hexadecimal digits stand for.
fn text_of(digits: &str) -> String {
    let bytes = (0..digits.len()).step_by(2).map(|at| u8::from_str_radix(&digits[at..at + 2], 16).expect("two digits"));
    String::from_utf8(bytes.collect()).expect("UTF-8")
}

/// Sets or removes what the key of a table leads to, or what is below it.
fn edit_table(table: &mut dyn TableLike, path: &[Step], new: Option<&Value>) -> Option<()> {
    let (first, rest) = path.split_first()?;
    let Step::Key(key) = first else { return None };
    match new {
        None if rest.is_empty() => table.remove(key).map(|_| ()),
        _ => edit_item(table.get_mut(key)?, rest, new),
    }
}

/// Sets what is here, or edits what is below it.
fn edit_item(item: &mut Item, path: &[Step], new: Option<&Value>) -> Option<()> {
    match (item, path.first(), new) {
        (item, None, Some(new)) => {
            *item = Item::Value(new.clone());
            Some(())
        }
        (Item::Value(value), _, _) => edit_value(value, path, new),
        (Item::Table(table), _, _) => edit_table(table, path, new),
        (Item::ArrayOfTables(tables), Some(Step::Index(index)), _) => {
            edit_table(tables.get_mut(*index)?, &path[1..], new)
        }
        _ => None,
    }
}

/// The same of a value, which may be an item of an array.
fn edit_value(value: &mut Value, path: &[Step], new: Option<&Value>) -> Option<()> {
    match (value, path.first(), new) {
        (value, None, Some(new)) => {
            *value = new.clone();
            Some(())
        }
        (Value::InlineTable(table), _, _) => edit_table(table, path, new),
        (Value::Array(items), Some(Step::Index(index)), None) if path.len() == 1 && *index < items.len() => {
            items.remove(*index);
            Some(())
        }
        (Value::Array(items), Some(Step::Index(index)), _) => edit_value(items.get_mut(*index)?, &path[1..], new),
        _ => None,
    }
}

/// The text with the edit of a case.
fn edited(case: &Case) -> Option<String> {
    let text = std::str::from_utf8(&case.text).ok()?;
    let mut document = text.parse::<Document>().ok()?;
    let mut path = Vec::new();
    let mut what = String::new();
    let mut value = None;
    for line in &case.files {
        let (kind, rest) = line.split_at(1);
        match kind {
            "e" => what = text_of(rest),
            "v" => value = Some(text_of(rest)),
            "k" => path.push(Step::Key(text_of(rest))),
            _ => path.push(Step::Index(rest.parse().expect("a number"))),
        }
    }
    let new = match what.as_str() {
        "set" => Some(value?.parse::<Value>().ok()?),
        _ => None,
    };
    if what != "keep" {
        edit_item(document.as_item_mut(), &path, new.as_ref())?;
    }
    Some(document.to_string())
}

fn main() {
    let mut out = io::stdout().lock();
    for case in cases::read() {
        match edited(&case) {
            Some(text) => write!(out, "{}\n{text}", text.len()),
            None => writeln!(out, "none"),
        }
        .expect("standard output");
    }
}
