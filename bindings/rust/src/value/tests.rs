//! Tagged bytes of single values: which are read, and which are refused. What the bytes of a value are is written here once
//! more, as `docs/LIBRARY.md` says it, and nothing of that is taken from the crate.

use super::{decoded, Date, Datetime, Offset, Time, Value};
use crate::calls::heap::refusals::with_refused;
use crate::codec::{Encode, Reader, Writer};
use std::collections::BTreeMap;

const BITS_OF_NO_NUMBER: u64 = 0x7ff8_0000_0000_0000;

/// A number in groups of seven bits.
fn put_number(number: u64, out: &mut Vec<u8>) {
    match number {
        0..128 => out.push(number as u8),
        _ => {
            out.push((number % 128) as u8 + 128);
            put_number(number / 128, out);
        }
    }
}

fn put_text(text: &str, out: &mut Vec<u8>) {
    put_number(text.len() as u64, out);
    out.extend(text.bytes());
}

fn put_date(date: &Date, out: &mut Vec<u8>) {
    out.extend([date.month, date.day]);
    put_number(date.year.into(), out);
}

fn put_time(time: &Time, out: &mut Vec<u8>) {
    out.extend([time.hour, time.minute]);
    put_part(&time.second, out, |second, out| out.push(*second));
    put_part(&time.nanosecond, out, |nanosecond, out| put_number((*nanosecond).into(), out));
}

fn put_offset(offset: &Offset, out: &mut Vec<u8>) {
    match offset {
        Offset::Z => out.push(0),
        Offset::Minutes(ahead @ 0..) => {
            out.push(1);
            put_number(*ahead as u64, out);
        }
        Offset::Minutes(minutes) => {
            out.push(2);
            put_number((-1 - i64::from(*minutes)) as u64, out);
        }
    }
}

/// A part that may be left out.
fn put_part<T>(part: &Option<T>, out: &mut Vec<u8>, put: impl Fn(&T, &mut Vec<u8>)) {
    out.push(u8::from(part.is_some()));
    if let Some(part) = part {
        put(part, out);
    }
}

fn put_value(value: &Value, out: &mut Vec<u8>) {
    match value {
        Value::String(text) => {
            out.push(1);
            put_text(text, out);
        }
        Value::Integer(number) => {
            out.push(if *number < 0 { 3 } else { 2 });
            put_number((if *number < 0 { -1 - number } else { *number }) as u64, out);
        }
        Value::Boolean(flag) => out.push(if *flag { 5 } else { 4 }),
        Value::Datetime(datetime) => {
            out.push(6);
            put_part(&datetime.date, out, put_date);
            put_part(&datetime.time, out, put_time);
            put_part(&datetime.offset, out, put_offset);
        }
        Value::Array(items) => {
            out.push(7);
            put_number(items.len() as u64, out);
            items.iter().for_each(|item| put_value(item, out));
        }
        Value::Table(members) => {
            out.push(8);
            put_number(members.len() as u64, out);
            for (key, member) in members {
                put_text(key, out);
                put_value(member, out);
            }
        }
        Value::Float(number) => {
            out.push(9);
            put_number(if number.is_nan() { BITS_OF_NO_NUMBER } else { number.to_bits() }, out);
        }
    }
}

/// The bytes of a value.
pub(crate) fn bytes_of(value: &Value) -> Vec<u8> {
    let mut out = Vec::new();
    put_value(value, &mut out);
    out
}

/// Whether the bytes are read: then they are exactly those of the value that was read.
fn is_read(bytes: &[u8]) -> bool {
    match decoded(bytes) {
        Some(value) => {
            assert_eq!(bytes_of(&value), bytes, "{value:?}");
            true
        }
        None => false,
    }
}

/// Numbers at random, from a seed.
pub(crate) struct Random(pub(crate) u64);

impl Random {
    fn next(&mut self) -> u64 {
        self.0 ^= self.0 << 13;
        self.0 ^= self.0 >> 7;
        self.0 ^= self.0 << 17;
        self.0
    }

    pub(crate) fn below(&mut self, end: usize) -> usize {
        (self.next() % end as u64) as usize
    }

    /// A number of any size.
    fn number(&mut self) -> u64 {
        self.next() >> self.below(64)
    }

    fn option<T>(&mut self, make: impl Fn(&mut Random) -> T) -> Option<T> {
        (self.below(3) > 0).then(|| make(self))
    }

    fn text(&mut self) -> String {
        let letters = ['a', 'b', '"', '\0', 'é', '\u{800}', '\u{ffff}', '\u{10000}'];
        let length = if self.below(40) == 0 { 130 } else { self.below(4) };
        (0..length).map(|_| letters[self.below(letters.len())]).collect()
    }

    fn datetime(&mut self) -> Datetime {
        let date = |random: &mut Random| Date {
            year: random.number() as u16,
            month: random.number() as u8,
            day: random.number() as u8,
        };
        let time = |random: &mut Random| Time {
            hour: random.number() as u8,
            minute: random.number() as u8,
            second: random.option(|random| random.number() as u8),
            nanosecond: random.option(|random| random.number() as u32),
        };
        let offset = |random: &mut Random| match random.below(3) {
            0 => Offset::Z,
            _ => Offset::Minutes(random.number() as i16),
        };
        Datetime { date: self.option(date), time: self.option(time), offset: self.option(offset) }
    }

    /// A value that nests at most this deep.
    fn value(&mut self, deep: usize) -> Value {
        match self.below(if deep > 0 { 9 } else { 5 }) {
            0 => Value::String(self.text()),
            1 => Value::Integer(self.number() as i64),
            2 => Value::Float(f64::from_bits(self.number())),
            3 => Value::Boolean(self.below(2) == 0),
            4 => Value::Datetime(self.datetime()),
            5 | 6 => (0..self.below(5)).map(|_| self.value(deep - 1)).collect(),
            _ => {
                let members: BTreeMap<_, _> = (0..self.below(5)).map(|_| (self.text(), self.value(deep - 1))).collect();
                Value::Table(members)
            }
        }
    }

    /// A byte, which mostly is a tag or a short length.
    pub(crate) fn byte(&mut self) -> u8 {
        match self.below(4) {
            0 => self.next() as u8,
            1 => [0x7f, 0x80, 0x81, 0xff][self.below(4)],
            _ => self.below(10) as u8,
        }
    }

    /// Changes some bytes, or takes some away, or puts some in.
    pub(crate) fn damage(&mut self, bytes: &mut Vec<u8>) {
        for _ in 0..1 + self.below(3) {
            let place = self.below(bytes.len() + 1);
            let end = (place + self.below(4)).min(bytes.len());
            match self.below(6) {
                0 => bytes.insert(place, self.byte()),
                1 => drop(bytes.drain(place..end)),
                2 => bytes.truncate(place),
                3 => bytes.extend_from_within(place..end),
                4 => bytes.splice(place..place, [128, 0]).for_each(drop),
                _ => {
                    if let Some(byte) = bytes.get_mut(place) {
                        *byte = if self.below(2) == 0 { *byte ^ 1 << self.below(8) } else { self.byte() };
                    }
                }
            }
        }
    }
}

/// Numbers with their bytes, and bytes that are no number.
const NUMBERS: [(&[u8], Option<u64>); 22] = [
    (&[0], Some(0)),
    (&[1], Some(1)),
    (&[127], Some(127)),
    (&[128, 1], Some(128)),
    (&[172, 2], Some(300)),
    (&[255, 127], Some(16_383)),
    (&[128, 128, 1], Some(16_384)),
    (&[255, 255, 255, 255, 255, 255, 255, 255, 127], Some(i64::MAX as u64)),
    (&[128, 128, 128, 128, 128, 128, 128, 128, 128, 1], Some(1 << 63)),
    (&[255, 255, 255, 255, 255, 255, 255, 255, 255, 1], Some(u64::MAX)),
    // more than 64 bits
    (&[128, 128, 128, 128, 128, 128, 128, 128, 128, 2], None),
    (&[255, 255, 255, 255, 255, 255, 255, 255, 255, 3], None),
    (&[129, 128, 128, 128, 128, 128, 128, 128, 128, 126], None),
    (&[255, 255, 255, 255, 255, 255, 255, 255, 255, 129, 0], None),
    (&[128, 128, 128, 128, 128, 128, 128, 128, 128, 128, 1], None),
    // not written in the shortest way
    (&[128, 0], None),
    (&[129, 0], None),
    (&[255, 128, 0], None),
    (&[255, 255, 255, 255, 255, 255, 255, 255, 255, 0], None),
    (&[128, 128, 128, 128, 128, 128, 128, 128, 128, 0], None),
    // cut off
    (&[], None),
    (&[128], None),
];

#[test]
fn each_number_has_one_form() {
    for (bytes, wanted) in NUMBERS {
        assert_eq!(Reader::new(bytes).number(), wanted, "{bytes:?}");
        let Some(number) = wanted else { continue };
        let mut written = Writer::default();
        written.number(number);
        assert_eq!(written.finish().map(|(written, _)| written), Ok(bytes.to_vec()));
    }
}

/// What stands before and after a number that is part of a value, and the largest that is read there.
const PLACES: [(&[u8], &[u8], u64); 6] = [
    (&[2], &[], i64::MAX as u64),
    (&[3], &[], i64::MAX as u64),
    (&[6, 1, 5, 27], &[0, 0], u16::MAX as u64),
    (&[6, 0, 1, 7, 32, 0, 1], &[0], u32::MAX as u64),
    (&[6, 0, 0, 1, 1], &[], i16::MAX as u64),
    (&[6, 0, 0, 1, 2], &[], i16::MAX as u64),
];

#[test]
fn numbers_of_values() {
    let more: [(&[u8], Option<u64>); 5] = [
        (&[255, 255, 3], Some(u16::MAX.into())),
        (&[128, 128, 4], Some(1 << 16)),
        (&[255, 255, 255, 255, 15], Some(u32::MAX.into())),
        (&[128, 128, 128, 128, 16], Some(1 << 32)),
        (&[128, 128, 2], Some(1 << 15)),
    ];
    for (before, after, most) in PLACES {
        for (number, is) in NUMBERS.into_iter().chain(more) {
            let bytes = [before, number, after].concat();
            assert_eq!(is_read(&bytes), is.is_some_and(|is| is <= most), "{bytes:?}");
        }
    }
}

#[test]
fn lengths_and_counts_have_one_form() {
    // a text, an array, a table, and a key, of the length 0, 1 and 128
    let texts = [&[1, 0][..], &[1, 1, b'a'], &[&[1, 128, 1][..], &[b'a'; 128]].concat()].map(<[u8]>::to_vec);
    let arrays = [&[7, 0][..], &[7, 1, 4], &[&[7, 128, 1][..], &[4; 128]].concat()].map(<[u8]>::to_vec);
    let keys = [&[8, 1, 0, 4][..], &[8, 1, 1, b'a', 4], &[&[8, 1, 128, 1][..], &[b'a'; 128], &[4]].concat()];
    for bytes in texts.iter().chain(&arrays).chain(&keys.map(<[u8]>::to_vec)) {
        assert!(is_read(bytes), "{bytes:?}");
    }
    // the same lengths with a group of 0 after them
    let none: [&[u8]; 8] = [
        &[1, 128, 0],
        &[1, 129, 0, b'a'],
        &[&[1, 128, 129, 0][..], &[b'a'; 128]].concat(),
        &[7, 128, 0],
        &[7, 129, 0, 4],
        &[8, 128, 0],
        &[8, 129, 0, 1, b'a', 4],
        &[8, 1, 129, 0, b'a', 4],
    ];
    for bytes in none {
        assert_eq!(decoded(bytes), None, "{bytes:?}");
    }
}

#[test]
fn floats() {
    for (number, is) in NUMBERS {
        let is_float = is.is_some_and(|bits| !f64::from_bits(bits).is_nan());
        assert_eq!(is_read(&[&[9], number].concat()), is_float, "{number:?}");
    }
    assert_eq!(decoded(&[9, 128, 128, 128, 128, 128, 128, 128, 248, 63]), Some(Value::Float(1.0)));
    assert_eq!(decoded(&[9, 128, 128, 128, 128, 128, 128, 128, 248, 255, 1]), Some(Value::Float(f64::NEG_INFINITY)));
}

#[test]
fn floats_that_are_no_number_have_one_form() {
    let quiet = [9, 128, 128, 128, 128, 128, 128, 128, 252, 127];
    assert!(decoded(&quiet).is_some_and(|value| value.as_float().is_some_and(f64::is_nan)));
    for other in [0x7ff8_0000_0000_0001_u64, 0xfff8_0000_0000_0000, 0x7ff0_0000_0000_0001, u64::MAX] {
        let mut bytes = vec![9];
        put_number(other, &mut bytes);
        assert_eq!(decoded(&bytes), None, "{other:x}");
    }
}

#[test]
fn keys_ascend_strictly_by_their_bytes() {
    let table = |keys: &[&str]| {
        let mut bytes = vec![8, keys.len() as u8];
        for key in keys {
            put_text(key, &mut bytes);
            bytes.push(4);
        }
        bytes
    };
    let in_order =
        [&["", "a"][..], &["a", "b"], &["a", "aa", "b"], &["B", "a"], &["z", "é"], &["\u{ffff}", "\u{10000}"]];
    for keys in in_order {
        let there = Value::from_iter(keys.iter().map(|key| (*key, false)));
        assert_eq!(decoded(&table(keys)), Some(there));
        let back: Vec<&str> = keys.iter().rev().copied().collect();
        assert_eq!(decoded(&table(&back)), None, "{back:?}");
        let twice: Vec<&str> = keys.iter().flat_map(|key| [*key, key]).collect();
        assert_eq!(decoded(&table(&twice)), None, "{twice:?}");
        // the same within an array and within a table
        assert_eq!(decoded(&[&[7, 1][..], &table(&back)].concat()), None);
        assert_eq!(decoded(&[&[8, 1, 1, b'k'][..], &table(&twice)].concat()), None);
    }
    assert_eq!(decoded(&table(&["a", "b", "a"])), None);
}

#[test]
fn nothing_may_stand_after_a_value() {
    let mut random = Random(0x9e37_79b9_7f4a_7c15);
    for _ in 0..2_000 {
        let bytes = bytes_of(&random.value(3));
        assert!(is_read(&bytes));
        for more in [0, 1, 4, 128, 255] {
            assert_eq!(decoded(&[&bytes[..], &[more]].concat()), None);
        }
        assert_eq!(decoded(&bytes[..bytes.len() - 1]), None);
    }
}

#[test]
fn what_is_written_is_read() {
    let mut random = Random(0x2545_f491_4f6c_dd1d);
    for _ in 0..5_000 {
        let value = random.value(4);
        let bytes = bytes_of(&value);
        assert!(is_read(&bytes), "{value:?}");
        let mut writer = Writer::default();
        value.encode(&mut writer);
        // (a float is refused, and so is a date-time that TOML does not have)
        if let Ok((written, _)) = writer.finish() {
            assert_eq!(written, bytes);
            assert_eq!(decoded(&written), Some(value));
        }
    }
}

#[test]
fn damaged_bytes_are_refused_or_those_of_what_is_read() {
    let mut random = Random(0x1234_5678_9abc_def1);
    let (mut read, mut refused) = (0, 0);
    for _ in 0..60_000 {
        let mut bytes = bytes_of(&random.value(3));
        random.damage(&mut bytes);
        *(if is_read(&bytes) { &mut read } else { &mut refused }) += 1;
    }
    assert!(read > 5_000 && refused > 5_000, "{read} read, {refused} refused");
}

#[test]
fn any_bytes_are_refused_or_those_of_what_is_read() {
    let mut random = Random(0xfeed_beef_dead_cafe);
    let (mut read, mut refused) = (0, 0);
    for _ in 0..200_000 {
        let bytes: Vec<u8> = (0..random.below(24)).map(|_| random.byte()).collect();
        *(if is_read(&bytes) { &mut read } else { &mut refused }) += 1;
    }
    assert!(read > 2_000 && refused > 100_000, "{read} read, {refused} refused");
}

/// Numbers that say there is more than there is. (No machine has room for this many.)
#[test]
fn no_room_is_made_for_what_is_not_there() {
    for count in [1 << 20, 1 << 40, i64::MAX as u64, u64::MAX] {
        for before in [&[1][..], &[7], &[8], &[8, 1], &[7, 1, 7]] {
            let mut bytes = before.to_vec();
            put_number(count, &mut bytes);
            bytes.extend([4; 64]);
            assert_eq!(decoded(&bytes), None, "{bytes:?}");
        }
    }
    let reader = Reader::new(&[4; 240]);
    for (count, at_most) in [(0, 0), (9, 9), (10, 10), (11, 10), (u64::MAX, 10)] {
        assert_eq!(reader.at_most::<[u8; 24]>(count), at_most);
    }
}

/// Each request for memory is refused in turn.
#[test]
fn a_document_where_no_memory_is_left() {
    let text = "a = [1, 'x']\n[b]\nc = 0.5\n";
    let due = Value::from_iter([
        ("a", Value::from(vec![Value::from(1), Value::from("x")])),
        ("b", Value::from_iter([("c", 0.5)])),
    ]);
    let mut granted = 0;
    loop {
        let (read, was_refused) = with_refused(granted, || text.parse::<Value>());
        if !was_refused {
            assert_eq!(read, Ok(due));
            break;
        }
        assert_eq!(read.map_err(|error| error.to_string()), Err("out of memory".to_owned()));
        granted += 1;
    }
    assert!(granted > 3, "{granted}");
}

#[test]
fn the_text_of_a_value_is_read_as_it_is() {
    let due: Datetime = "2026-01-02T03:04:05.006+02:00".parse().unwrap();
    let values = [
        Value::from(""),
        Value::from("é\u{1}\u{7f}\t\r\n\"\\ # '"),
        Value::from(i64::MIN),
        Value::from(true),
        Value::from(-1e300),
        Value::from(f64::INFINITY),
        Value::from(due),
        Value::from(Vec::<Value>::new()),
        Value::from(vec![Value::from(vec![1]), Value::from("a")]),
        Value::from_iter([
            ("a", Value::from_iter([("b c", vec![Value::from_iter([("", 1)])])])),
            ("é", Value::from(2)),
        ]),
    ];
    for value in values {
        let text = String::from(&value);
        let read: Value = format!("a = {text} # one\n").parse().unwrap();
        assert_eq!(read["a"], value, "{text}");
        assert!(!text.contains('\n'), "{text}");
    }
}
