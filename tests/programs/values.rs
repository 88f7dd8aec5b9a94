//! Makes values at random from a seed, and prints of each what `Display` prints of it, a line for each.
//!
//! `values SEED COUNT`. Where the text of a table is not read back as that table, or is not printed at all, the line is
//! `not read back: ` with the `{:?}` of the value.

use cargo_manifest::Value;
use std::env;
use std::panic;

/// Numbers at random.
struct Random(u64);

impl Random {
    fn next(&mut self) -> u64 {
        self.0 ^= self.0 << 13;
        self.0 ^= self.0 >> 7;
        self.0 ^= self.0 << 17;
        self.0
    }

    fn below(&mut self, end: usize) -> usize {
        (self.next() % end as u64) as usize
    }

    fn one_of<T: Copy>(&mut self, all: &[T]) -> T {
        all[self.below(all.len())]
    }

    fn text(&mut self) -> String {
        let pieces = [
            "a",
            "b",
            "é",
            "\u{10000}",
            " ",
            ".",
            "'",
            "\"",
            "\\",
            "\n",
            "\r",
            "\t",
            "\0",
            "\u{8}",
            "\u{b}",
            "\u{c}",
            "\u{1b}",
            "\u{7f}",
            "\u{80}",
            "#",
            "''",
            "=",
            "\r\n",
            "\u{feff}",
        ];
        (0..self.below(5)).map(|_| self.one_of(&pieces)).collect()
    }

    fn key(&mut self) -> String {
        let usual = ["a", "b", "c", "d-e", "f_g", "1", "H"];
        if self.below(8) == 0 {
            self.text()
        } else {
            self.one_of(&usual).to_string()
        }
    }

    fn integer(&mut self) -> i64 {
        let usual = [0, 1, -1, 42, i64::MIN, i64::MAX];
        if self.below(2) == 0 {
            self.one_of(&usual)
        } else {
            self.next() as i64 >> self.below(64)
        }
    }

    fn float(&mut self) -> f64 {
        let usual = [
            0.0,
            -0.0,
            0.5,
            -1.5,
            1.0,
            1e15,
            1e16,
            1e17,
            1e300,
            1e-7,
            5e-324,
            f64::MAX,
            f64::INFINITY,
            f64::NEG_INFINITY,
        ];
        match self.below(3) {
            0 => self.one_of(&usual),
            1 => self.integer() as f64 / 64.0,
            // (of those that are no number the sign alone is printed)
            _ => Some(f64::from_bits(self.next())).filter(|number| !number.is_nan()).unwrap_or(f64::NAN),
        }
    }

    fn datetime(&mut self) -> Value {
        let all = [
            "1979-05-27",
            "07:32:00",
            "00:00:00.25",
            "23:59:59.999999999",
            "1979-05-27T07:32:00",
            "2000-02-29T00:00:00.000001",
            "1979-05-27T07:32:00Z",
            "1979-05-27T07:32:00.5-07:30",
            "0000-01-01T00:00:00+00:00",
            "9999-12-31T23:59:59.9+23:59",
        ];
        let read: Value = format!("a = {}", self.one_of(&all)).parse().expect("a date-time");
        read["a"].clone()
    }

    fn simple(&mut self) -> Value {
        match self.below(5) {
            0 => Value::String(self.text()),
            1 => Value::Integer(self.integer()),
            2 => Value::Float(self.float()),
            3 => Value::Boolean(self.below(2) == 0),
            _ => self.datetime(),
        }
    }

    fn table(&mut self, deep: usize) -> Value {
        let members: Vec<(String, Value)> = (0..self.below(5)).map(|_| (self.key(), self.value(deep - 1))).collect();
        Value::Table(members.into_iter().collect())
    }

    fn array(&mut self, deep: usize) -> Value {
        let kind = self.below(7);
        let item = |random: &mut Random| match kind {
            0 | 1 => random.table(deep),
            2 => random.value(deep - 1),
            3 => random.array(deep - 1),
            _ => random.simple(),
        };
        let count = self.below(4);
        let deepest = deep == 1 && kind < 4;
        Value::Array((0..count).map(|_| if deepest { self.simple() } else { item(self) }).collect())
    }

    /// A value that nests at most this deep.
    fn value(&mut self, deep: usize) -> Value {
        match self.below(8) {
            0..=2 if deep > 0 => self.table(deep),
            3 | 4 if deep > 0 => self.array(deep),
            _ => self.simple(),
        }
    }
}

/// What is printed of a value, if it is read back where it is a document.
fn printed(value: &Value) -> Option<String> {
    let text = panic::catch_unwind(|| value.to_string()).ok()?;
    let document = if value.is_table() { text.clone() } else { format!("a = {text}") };
    let read: Value = document.parse().ok()?;
    let read = if value.is_table() { read } else { read.get("a")?.clone() };
    (format!("{read:?}") == format!("{value:?}")).then_some(text)
}

fn main() {
    let words: Vec<u64> = env::args().skip(1).map(|word| word.parse().expect("a number")).collect();
    let [seed, count] = words.as_slice() else { panic!("usage: values SEED COUNT") };
    panic::set_hook(Box::new(|_| {}));
    let mut random = Random(seed.wrapping_mul(0x9e37_79b9_7f4a_7c15) | 1);
    for number in 0..*count {
        let value = if number % 4 == 0 { random.value(3) } else { random.table(4) };
        match printed(&value) {
            Some(text) => println!("{text:?}"),
            None => println!("not read back: {value:?}"),
        }
    }
}
