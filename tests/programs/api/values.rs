//! What a value is made of, asked for, and printed as.

use cargo_manifest::Value;
use std::collections::{BTreeMap, HashMap};

/// Each of its kinds, by a match without `_`.
fn kind(value: &Value) -> &'static str {
    match value {
        Value::String(_) => "string",
        Value::Integer(_) => "integer",
        Value::Float(_) => "float",
        Value::Boolean(_) => "boolean",
        Value::Datetime(_) => "datetime",
        Value::Array(_) => "array",
        Value::Table(_) => "table",
    }
}

fn made() -> Vec<Value> {
    let datetime =
        "a = 1979-05-27".parse::<Value>().expect("a document")["a"].as_datetime().expect("a date-time").clone();
    vec![
        Value::from("s"),
        Value::from("s".to_string()),
        Value::from(1_i8),
        Value::from(1_u8),
        Value::from(1_i32),
        Value::from(1_u32),
        Value::from(1_i64),
        Value::from(0.5_f32),
        Value::from(0.5_f64),
        Value::from(true),
        Value::from(datetime),
        Value::from(vec!["a", "b"]),
        Value::from(vec![Value::from(1), Value::from("x")]),
        Value::from(BTreeMap::from([("k", 1)])),
        Value::from(BTreeMap::from([("k".to_string(), vec![0.5])])),
        Value::from(HashMap::from([("k", "v")])),
        Value::from(HashMap::from([("k".to_string(), BTreeMap::from([("l", false)]))])),
    ]
}

/// What a value answers of itself.
fn answers(value: &Value) -> String {
    let of = (
        value.as_str(),
        value.as_integer(),
        value.as_float(),
        value.as_bool(),
        value.as_datetime().map(ToString::to_string),
        value.as_array().map(Vec::len),
        value.as_table().map(|table| table.keys().cloned().collect::<Vec<_>>()),
    );
    let is = [
        value.is_str(),
        value.is_integer(),
        value.is_float(),
        value.is_bool(),
        value.is_datetime(),
        value.is_array(),
        value.is_table(),
    ];
    format!("{} {} {of:?} {is:?} {:?} {value:>12}", kind(value), value.type_str(), value.to_string())
}

/// Places in a value, asked for and changed.
fn places() -> String {
    let mut value: Value = "a = [1, 2]\n[b]\nc = 'x'\n[[d]]\ne = 1\n".parse().expect("a document");
    let (key, place) = ("b".to_string(), 1_usize);
    let asked =
        (value.get("b").is_some(), value.get(&key).is_some(), value.get(0).is_none(), value["a"][place].clone());
    value["b"]["c"] = Value::from(2);
    *value.get_mut("a").and_then(|array| array.get_mut(0)).expect("an item") = Value::from("first");
    let table = value.as_table_mut().expect("a table");
    let old = table.insert("z".to_string(), Value::from(true));
    let taken = table.remove("d");
    table.entry("y".to_string()).or_insert(Value::from(1));
    let length = (table.len(), table.is_empty(), table.contains_key("y"), table.get("z").cloned());
    table.iter_mut().filter(|(key, _)| key.as_str() == "z").for_each(|(_, value)| *value = Value::from(9));
    value["a"].as_array_mut().expect("an array").push(Value::from(3));
    let same = (value["a"].same_type(&value["b"]), value["y"].same_type(&value["z"]), value == value.clone());
    format!("{asked:?} {old:?} {taken:?} {length:?} {same:?} {:?}", value.to_string())
}

/// A table by its items.
fn collected() -> String {
    let items = vec![("k".to_string(), Value::from(1)), ("j".to_string(), Value::from(2))];
    let table = Value::Table(items.into_iter().collect());
    let Value::Table(members) = &table else { return String::new() };
    let keys: Vec<&String> = members.keys().collect();
    let sum: i64 = members.values().filter_map(Value::as_integer).sum();
    format!("{keys:?} {sum} {:?} {:?}", members["j"], members.clone().into_iter().next())
}

pub fn lines() -> Vec<String> {
    let mut lines: Vec<String> = made().iter().map(answers).collect();
    lines.push(places());
    lines.push(collected());
    lines
}
