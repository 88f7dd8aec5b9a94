//! Texts and tagged tables that are made to take much stack, time or memory, each from its number alone: headers, dotted keys,
//! arrays and inline tables in one another, about as deep as is read and far deeper; long keys above many tables; strings and
//! comments with brackets, whose ends are easily missed; and all of this cut off or damaged. (`heap` counts the memory.)

pub mod heap;

/// Numbers that look random.
pub struct Random(u64);

impl Random {
    pub fn new(seed: u64) -> Random {
        // (the first numbers of near seeds are near each other)
        let mut random = Random(seed.wrapping_mul(0x9e37_79b9_7f4a_7c15) | 1);
        for _ in 0..8 {
            random.next();
        }
        random
    }

    fn next(&mut self) -> u64 {
        self.0 ^= self.0 << 13;
        self.0 ^= self.0 >> 7;
        self.0 ^= self.0 << 17;
        self.0
    }

    /// A number from 0 on, less than this one.
    pub fn below(&mut self, end: usize) -> usize {
        (self.next() % end as u64) as usize
    }

    /// True once in this many times.
    pub fn one_in(&mut self, times: usize) -> bool {
        self.below(times) == 0
    }

    pub fn one_of<T: Copy>(&mut self, all: &[T]) -> T {
        all[self.below(all.len())]
    }
}

/// How many parts the keys of a text have at most, and how many brackets stand in one another.
#[derive(Clone, Copy)]
struct Most {
    parts: usize,
    brackets: usize,
}

impl Most {
    /// About three times as many as are read.
    fn beyond_the_limit(random: &mut Random) -> Most {
        let parts = random.one_of(&[1, 2, 2, 3, 4, 5, 6, 8, 8, 16, 16, 32, 32, 64, 79, 80, 81, 128, 170]);
        let brackets: usize = 384 / parts;
        let brackets = brackets.saturating_sub(3) + usize::from(random.one_in(8));
        Most { parts, brackets: brackets.min(random.one_of(&[80, 80, 80, 80, 81, 600])) }
    }

    /// About as many as make a table that is 128 deep.
    fn near_the_depth(random: &mut Random) -> Most {
        let parts = random.one_of(&[1, 1, 2, 3, 4, 8, 30, 60]);
        let brackets: usize = 126 / parts + random.below(2);
        Most { parts, brackets: brackets.saturating_sub(3).min(80) }
    }

    /// Few or many.
    fn any(random: &mut Random) -> Most {
        let counts = [1, 2, 3, 5, 8, 20, 40, 60, 79, 80, 81, 170, 600, 6_000];
        let (parts, brackets) = (random.one_of(&counts), random.one_of(&counts));
        // (this many parts in this many brackets are many bytes)
        Most { parts: parts.min(4_000 / brackets + 1), brackets }
    }
}

const KEYS: [&str; 8] = ["a", "a", "a", "b-1", "'.'", "\"[\\\"{\"", "''", "\"\\u00e9\""];

/// Where values are kept, read as types, or left out.
const PLACES: [&str; 15] = [
    "package.metadata",
    "package.metadata",
    "package.metadata",
    "workspace.metadata",
    "project.metadata",
    "metadata",
    "profile.dev.package",
    "profile.dev.lto",
    "dependencies",
    "target.a.dependencies",
    "patch.a",
    "lints",
    "workspace.dependencies",
    "features",
    "x",
];

const STARTS: [&str; 7] = [
    "[package]\nname = 'p'\n",
    "[package]\nname = 'p'\n",
    "[package]\nname = 'p'\nversion.workspace = true\nedition = '2021'\n",
    "[project]\nname = 'p'\n",
    "name = 'p'\n",
    "[workspace]\n",
    "",
];

/// Lines with strings and comments that end elsewhere than it seems, or do not end.
const QUOTES: [&str; 30] = [
    "q1 = \"\\\"[[[[{{{{\"\n",
    "q2 = '\\'\n",
    "q3 = \"\"\"\\\"\"\"[[[[\"\"\"\n",
    "q4 = \"\"\"\"x\"\"\"\"\n",
    "q5 = ''''x''''\n",
    "q6 = \"\"\"\"\"\"\n",
    "q7 = \"\\\\\"\n",
    "q8 = '''\n[[[[\n'''\n",
    "q9 = \"\"\"\\\n  \"\"\"\n",
    "q10 = 'a' # ' \" [[[[\n",
    "\"[.[.[\" = 1\n",
    "'{.{.{' = 1\n",
    "# \" [[[[\n",
    "# ''' {{{{\n",
    "# \"\"\"\r\n",
    "q11 = \"[[[[\r\n",
    "q12 = \"x\n",
    "q13 = 'x\n",
    "q14 = \"\"\"x\n",
    "q15 = '''x\n",
    "q16 = \"\\\n",
    "q17 = \"\\x\"\n",
    "q18 = \"a\" \"b\n",
    "q19 = '''''\n",
    "q20 = \"\"\"\"\"\n",
    "\"\"\"q\"\"\" = 1\n",
    "= \"\n",
    "]]]]}}}}\n",
    "\r",
    "\u{feff}\u{85}\u{2028}\0\n",
];

/// A dotted key of this many parts.
fn path(random: &mut Random, parts: usize) -> String {
    let dot = random.one_of(&[".", ".", ".", " . "]);
    let key = random.one_of(&KEYS);
    (0..parts).map(|_| if random.one_in(20) { random.one_of(&KEYS) } else { key }).collect::<Vec<_>>().join(dot)
}

/// How an array opens, before what stands in it.
const OPENINGS: [&str; 8] = ["[", "[", "[", "[1, ", "['[', ", "[ # \"[\n", "['''[\n''', ", "[\"\"\"\\\"[\"\"\", "];

/// A value in arrays and inline tables.
fn nested(random: &mut Random, most: Most) -> String {
    let ways = random.one_of(&[&[0][..], &[1], &[0, 1], &[0, 1, 2]]);
    let brackets = if random.one_in(3) { random.below(most.brackets + 1) } else { most.brackets };
    let (mut opening, mut closing) = (String::new(), Vec::new());
    for _ in 0..brackets {
        match random.one_of(ways) {
            0 => {
                opening.push_str(random.one_of(&OPENINGS));
                closing.push(random.one_of(&["]", "]", "]", ", 1]", ",]"]));
            }
            way => {
                let parts = if way == 1 { most.parts } else { 1 + random.below(most.parts) };
                opening.push_str(&format!("{{{} = ", path(random, parts)));
                closing.push(random.one_of(&["}", "}", "}", ", z = 2}", " }"]));
            }
        }
    }
    let values = ["1", "2", "'x'", "'[{'", "true", "1979-05-27", "\"[\\\"{\"", "1.5"];
    let inner = if random.one_in(15) { random.one_of(&["[", "{", "", "=", "."]) } else { random.one_of(&values) };
    // (at times they are not all closed)
    let closed = if random.one_in(12) { random.below(brackets + 1) } else { 0 };
    opening + inner + &closing[closed..].iter().rev().copied().collect::<String>()
}

/// A header, where there is one, and values below it, each under a key of its own.
fn block(random: &mut Random, most: Most, number: usize) -> String {
    let place = random.one_of(&PLACES);
    let below = most.parts.saturating_sub(place.split('.').count());
    let mut text = match random.below(6) {
        0 => String::new(),
        1 => format!("[{place}]\n"),
        2 if below > 0 => format!("[[{place}.{}]]\n", path(random, below)),
        3 => format!("[{}]\n", path(random, most.parts)),
        _ if below > 0 => format!("[{place}.t{number}{}]\n", format!(".{}", path(random, 1)).repeat(below - 1)),
        _ => format!("[{place}]\n"),
    };
    for letter in ["v", "w"].iter().take(1 + random.below(2)) {
        let parts = if random.one_in(3) { random.below(most.parts) } else { most.parts - 1 };
        let dot = if parts > 0 { "." } else { "" };
        text.push_str(&format!("{letter}{number}{dot}{} = {}\n", path(random, parts), nested(random, most)));
    }
    text
}

/// A long key above many tables, of which each has a header of its own where they are printed.
fn long_keys(random: &mut Random) -> String {
    let key = "k".repeat(random.one_of(&[10, 100, 1_000, 8_000]));
    let tables = random.one_of(&[1, 10, 100, 1_000]);
    // (this many bytes where the key is written for each table)
    let fewer = tables.min(20_000 / key.len() + 1);
    let place = random.one_of(&PLACES);
    let value = random.one_of(&["", "", "a = 1"]);
    match random.below(3) {
        0 => (0..fewer).map(|number| format!("[{place}.{key}.t{number}]\n{value}\n")).collect(),
        1 => format!("[{place}.{key}]\n") + &(0..tables).map(|n| format!("t{n}.u = {{{value}}}\n")).collect::<String>(),
        _ => format!("[[{place}.{key}.t]]\n{value}\n").repeat(fewer),
    }
}

/// Many values next to each other.
fn wide(random: &mut Random) -> String {
    let item = random.one_of(&["[],", "{},", "1,", "0.5,", "'x',", "[[]],", "{a={}},", "{a.b.c=1},"]);
    format!("[{}]\na = [{}]\n", random.one_of(&PLACES), item.repeat(random.one_of(&[10, 100, 1_000])))
}

/// Bytes that are put into others.
const PIECES: [&[u8]; 16] = [
    b"[",
    b"]",
    b"{",
    b"}",
    b".",
    b"=",
    b"\"",
    b"'",
    b"\n",
    b"#",
    b"\"\"\"",
    b"'''",
    b"\\",
    b"\xff",
    b"\xc3",
    b"[[[[[[[[",
];

/// Cuts the bytes off, or changes some of them.
fn damage(random: &mut Random, bytes: &mut Vec<u8>) {
    for _ in 0..1 + random.below(3) {
        let place = random.below(bytes.len() + 1);
        let end = (place + random.one_of(&[1, 2, 10, 100])).min(bytes.len());
        match random.below(6) {
            0 | 1 => bytes.truncate(place),
            2 => drop(bytes.drain(place..end)),
            3 => bytes.extend_from_within(place..end),
            4 => drop(bytes.splice(place..place, random.one_of(&PIECES).iter().copied())),
            _ => {
                if let Some(byte) = bytes.get_mut(place) {
                    *byte ^= 1 << random.below(8);
                }
            }
        }
    }
}

/// Faults that are found when all before them is there.
const FAULTS: [&str; 6] = ["z = 1\nz = 1\n", "[z]\n[z]\n", "[[z]]\n[z]\n", "z = \n", "[z\n", "z = '\n"];

/// A text.
pub fn text(random: &mut Random) -> Vec<u8> {
    let mut text = random.one_of(&STARTS).to_owned();
    let most = match random.below(5) {
        0 | 1 => Most::beyond_the_limit(random),
        2 | 3 => Most::near_the_depth(random),
        _ => Most::any(random),
    };
    let quotes = if random.one_in(3) { 3 } else { 1 };
    for number in 0..1 + random.below(3) {
        for _ in 0..random.below(quotes) {
            text.push_str(random.one_of(&QUOTES));
        }
        let more = match random.below(10) {
            0..8 => block(random, most, number),
            8 => long_keys(random),
            _ => wide(random),
        };
        text.push_str(&more);
    }
    if random.one_in(5) {
        text.push_str(random.one_of(&FAULTS));
    }
    let mut bytes = text.into_bytes();
    if random.one_in(4) {
        damage(random, &mut bytes);
    }
    bytes
}

/// How many tables and arrays of a tagged table stand in one another: about as many as are read, and more.
const DEPTHS: [usize; 11] = [0, 1, 20, 124, 125, 126, 127, 128, 130, 1_000, 50_000];

/// The beginning of an array of one value, and that of a table of one key.
const FRONTS: [&[u8]; 2] = [b"\x07\x01", b"\x08\x01\x01a"];

/// A table, as tagged bytes.
pub fn table(random: &mut Random) -> Vec<u8> {
    let before: &[u8] = match random.below(4) {
        0 => b"\x08\x01\x07package\x08\x02\x08metadata",
        1 => b"\x08\x01\x09workspace\x08\x01\x08metadata",
        2 => b"\x08\x02\x07package\x08\x01\x04name\x01\x01p\x07profile\x08\x01\x03dev\x08\x01\x05debug",
        _ => b"\x08\x01\x01x",
    };
    let after: &[u8] = if before.ends_with(b"metadata") && before[3] == b'p' { b"\x04name\x01\x01p" } else { b"" };
    let fronts = random.one_of(&[&FRONTS[..1], &FRONTS[1..], &FRONTS]);
    let mut bytes = before.to_vec();
    for _ in 0..random.one_of(&DEPTHS) {
        bytes.extend(random.one_of(fronts));
    }
    let inner: &[u8] =
        random.one_of(&[&b"\x05"[..], b"\x01\x01x", b"\x02\x80\x01", b"\x07\x00", b"\x08\x00", b"\x06\x00\x00\x00"]);
    bytes.extend(inner);
    bytes.extend(after);
    if random.one_in(4) {
        damage(random, &mut bytes);
    }
    bytes
}
