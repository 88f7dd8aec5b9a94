//! Bytes that are no table of a manifest.

use crate::codec::{Aside, Reader};
use crate::reading::{decoded, encode};
use crate::value::tests::Random;
use crate::value::{self, Value};

/// Tagged bytes of a manifest with many kinds of rows.
fn table() -> Vec<u8> {
    let text = "[package]\nname = 'p'\nedition.workspace = true\nreadme = false\npublish = ['a']\n\
                [package.metadata]\nd = 1979-05-27T07:32:00.5-07:00\nn = [-1, 300, {}]\n[dependencies]\na = '1'\n\
                b = { git = 'g', features = ['f'] }\nc = { workspace = true, optional = true }\n[lints.rust]\n\
                x = 'deny'\ny = { level = 'warn', priority = -3 }\n[profile.own]\nstrip = true\ncodegen-units = 500\n\
                [[bin]]\nname = 'b'\nharness = false\n[target.t.dependencies]\nd = '*'\n[badges]\n[workspace]\n";
    crate::calls::tables::table(text.as_bytes()).expect("a table")
}

/// Whether a value holds what can be read and not written: a float, or a date-time that TOML does not have.
fn is_unwritten(value: &Value) -> bool {
    match value {
        Value::Float(_) => true,
        Value::Datetime(datetime) => !datetime.is_one(),
        Value::Array(items) => items.iter().any(is_unwritten),
        Value::Table(members) => members.values().any(is_unwritten),
        _ => false,
    }
}

/// Whether the bytes are read as a manifest: then they are exactly those that are written of it.
fn is_read(bytes: &[u8]) -> bool {
    let Some((manifest, aside)) = decoded::<Value, Value>(Reader::new(bytes)) else { return false };
    let value = value::decoded(bytes).expect("a manifest is a value too");
    match encode(&manifest, aside) {
        Ok(again) => assert_eq!(again, bytes, "{manifest:?}"),
        Err(error) => assert!(is_unwritten(&value), "{error} of {manifest:?}"),
    }
    true
}

#[test]
fn bytes_that_are_cut_off_are_refused() {
    let table = table();
    assert!(is_read(&table));
    for end in 0..table.len() {
        assert!(!is_read(&table[..end]), "{end}");
    }
    assert!(!is_read(&[&table[..], &[0]].concat()));
}

#[test]
fn bytes_that_are_changed_are_refused_or_those_of_what_is_read() {
    let table = table();
    let (mut read, mut refused) = (0, 0);
    for place in 0..table.len() {
        for other in 0..=255 {
            let mut bytes = table.clone();
            bytes[place] = other;
            *(if is_read(&bytes) { &mut read } else { &mut refused }) += 1;
        }
        for more in [&[0][..], &[1, 0], &[128, 0]] {
            let (front, back) = table.split_at(place);
            is_read(&[front, more, back].concat());
            is_read(&[front, more, &back[1..]].concat());
        }
    }
    assert!(read > table.len() && refused > table.len(), "{read} read, {refused} refused");
}

/// The key `package`, with a table of the name `p` after it.
const PACKAGE: &[u8] = b"\x07package\x08\x01\x04name\x01\x01p";

#[test]
fn what_is_as_usual_is_not_written() {
    let with = |member: &[u8]| [&[8, 2][..], member, PACKAGE].concat();
    let lib = |key: &[u8]| {
        let required = b"\x11required-features\x07\x00";
        with(&[&[3, b'l', b'i', b'b', 8, 2][..], key, required].concat())
    };
    assert!(is_read(&[&[8, 1][..], PACKAGE].concat()));
    assert!(is_read(&lib(b"\x07harness\x04")));
    assert!(!is_read(&lib(b"\x07harness\x05")));
    assert!(is_read(&lib(b"\x06plugin\x05")));
    assert!(!is_read(&lib(b"\x06plugin\x04")));
    assert!(is_read(&with(b"\x03bin\x07\x01\x08\x01\x11required-features\x07\x00")));
    assert!(!is_read(&with(b"\x03bin\x07\x00")));
    let profile = |strip: &[u8]| {
        let before = b"\x07profile\x08\x01\x03dev\x08\x02\x07package\x08\x00\x05strip";
        [&[8, 2][..], PACKAGE, before, strip].concat()
    };
    for (strip, is) in [(&b"\x05"[..], true), (b"\x04", true), (b"\x01\x09debuginfo", true), (b"\x01\x04none", false)] {
        assert_eq!(is_read(&profile(strip)), is, "{strip:?}");
    }
    assert!(!is_read(&profile(b"\x01\x07symbols")));
}

#[test]
fn damaged_bytes_are_refused_or_those_of_what_is_read() {
    let table = table();
    let mut random = Random(0x1357_9bdf_0246_8ace);
    let (mut read, mut refused) = (0, 0);
    for _ in 0..20_000 {
        let mut bytes = table.clone();
        random.damage(&mut bytes);
        *(if is_read(&bytes) { &mut read } else { &mut refused }) += 1;
    }
    assert!(read > 200 && refused > 2_000, "{read} read, {refused} refused");
}

#[test]
fn any_bytes_are_refused_or_those_of_what_is_read() {
    let mut random = Random(0x2545_f491_4f6c_dd1d);
    for _ in 0..100_000 {
        // (few of them are a table)
        let bytes: Vec<u8> = (0..random.below(24)).map(|_| random.byte()).collect();
        is_read(&bytes);
        is_read(&[&[8, 1, 9][..], b"workspace", &bytes].concat());
    }
}

/// A length of 2^63 or so, of each kind that has one.
#[test]
fn no_room_is_made_for_more_than_there_is() {
    for tag in [1, 7, 8] {
        let long = [&[tag][..], &[255; 9], &[1]].concat();
        assert!(!is_read(&long));
        assert!(!is_read(&[&[8, 1, 7][..], b"package", &long].concat()));
    }
}

#[test]
fn keys_have_to_ascend() {
    let members = |first, second| [8, 2, 1, first, 1, 1, b'1', 1, second, 1, 1, b'1'];
    let dependencies = |first, second| [&b"\x0cdependencies"[..], &members(first, second)].concat();
    let is = |one: &[u8], other: &[u8]| is_read(&[&[8, 2], one, other].concat());
    assert!(is(&dependencies(b'a', b'b'), PACKAGE));
    for (first, second) in [(b'b', b'a'), (b'a', b'a')] {
        assert!(!is(&dependencies(first, second), PACKAGE));
    }
    assert!(!is(PACKAGE, &dependencies(b'a', b'b')));
    assert!(!is(PACKAGE, PACKAGE));
}

/// A number that is read stays a float, and no table of a manifest has one.
#[test]
fn floats() {
    let mut bytes = vec![9];
    let mut left = 0.1_f64.to_bits();
    while left > 127 {
        bytes.push(left as u8 | 128);
        left >>= 7;
    }
    bytes.push(left as u8);
    assert_eq!(value::decoded(&bytes), Some(Value::Float(0.1)));
    let empty = Aside { package: Some(Value::Float(0.1)), workspace: None };
    let mut manifest: crate::Manifest = "[package]\nname = 'p'\n".parse().expect("a manifest");
    assert!(encode(&manifest, empty).is_err());
    manifest.package = None;
    assert!(encode(&manifest, Aside::default()).is_ok());
}
