//! The same steps by this library and by another crate, by turns, as __init__.py says:
//!
//!     speed time TURNS STEP,.. FILE ..    steps on manifests, each of which stands in its folder
//!     speed once STEP CALLS FILE          a step by itself
//!
//! Manifests that one of the two refuses are left out. What a step answers is on how many it was taken.
mod driver;

use driver::{once, print_times};
use original::Manifest as Original;
use proved::Manifest as Typed;
use std::hint::black_box;
use std::path::{Path, PathBuf};
use std::time::{Duration, Instant};
use std::{env, fs};

/// How long one turn of a step on bytes takes at least, and how many manifests one of a step on what was read is taken on.
const TURN: Duration = Duration::from_millis(5);
const READ: usize = 200;

/// What a call of the library answers, as `bindings/c/cargo_manifest.h` has it.
#[repr(C)]
struct Answer {
    status: u8,
    cause: u8,
    length: usize,
    start: usize,
    end: usize,
}

/// A request for the table of a text, as the header has it; all that it does not need is 0.
#[repr(C)]
struct Request {
    bytes: [usize; 2],
    root: [usize; 2],
    folders: [usize; 2],
    most: usize,
    numbers: [u8; 4],
}

extern "C" {
    fn manifest_run(request: Request, out: *mut u8, out_length: usize) -> Answer;
    fn manifest_document(bytes: *const u8, length: usize, most: usize, out: *mut u8, out_length: usize) -> Answer;
}

/// The library's call alone, without room for what it makes: it reads the text, and says how long its table would be.
fn table_alone(bytes: &[u8]) -> usize {
    let mut out = 0;
    let bytes = [bytes.as_ptr() as usize, bytes.len()];
    let request = Request { bytes, root: [0; 2], folders: [0; 2], most: usize::MAX, numbers: [0, 1, 0, 0] };
    // SAFETY: both pointers are of as many bytes as is said.
    let answer = unsafe { manifest_run(request, &mut out, 0) };
    assert!(answer.status == 0, "a table");
    answer.length
}

/// What the toolchain's `toml` makes of the text, and how long its bytes would be, whatever it means.
fn toml_alone(bytes: &[u8]) -> usize {
    let mut out = 0;
    // SAFETY: both pointers are of as many bytes as is said.
    let answer = unsafe { manifest_document(bytes.as_ptr(), bytes.len(), usize::MAX, &mut out, 0) };
    assert!(answer.status == 0, "a document");
    answer.length
}

/// What the other crate prints. Its printer may need values before tables, which not each manifest has; then it goes by
/// way of a value.
fn printed(manifest: &Original) -> Option<String> {
    let by_value = || toml::to_string(&toml::Value::try_from(manifest).ok()?).ok();
    toml::to_string(manifest).ok().or_else(by_value)
}

/// Lets what was made be seen, so that it is made.
fn shown<T>(made: T) -> bool {
    black_box(&made);
    true
}

/// A manifest that both read: its text, its file, and what both read of it.
struct Given {
    text: Vec<u8>,
    file: PathBuf,
    typed: Typed,
    original: Original,
}

impl Given {
    fn of(file: &str) -> Option<Self> {
        let text = fs::read(file).ok()?;
        let (typed, original) = (Typed::from_slice(&text).ok()?, Original::from_slice(&text).ok()?);
        // (the calls that keep metadata refuse a float in it)
        proved::calls::canonical(&text).ok()?;
        Some(Self { text, file: PathBuf::from(file), typed, original })
    }

    fn is_completed(&self) -> bool {
        let (mut typed, mut original) = (self.typed.clone(), self.original.clone());
        typed.complete_from_path(&self.file).is_ok() && original.complete_from_path(&self.file).is_ok()
    }

    fn is_printed(&self) -> bool {
        printed(&self.original).is_some()
    }
}

/// What a step does: with the bytes of a manifest, of which it answers a number above 0; or so often with what was read of
/// each of these, of which it answers the time.
#[derive(Clone, Copy)]
enum Does {
    Bytes(fn(&[u8]) -> usize),
    Read(fn(&[&Given], usize) -> Duration),
}

/// A step: its word, on which manifests it is taken, and what it does.
type Step = (&'static str, fn(&Given) -> bool, Does);

const STEPS: [Step; 13] = [
    ("typed", |_| true, Does::Bytes(|bytes| Typed::from_slice(bytes).is_ok_and(shown).into())),
    ("original", |_| true, Does::Bytes(|bytes| Original::from_slice(bytes).is_ok_and(shown).into())),
    ("table", |_| true, Does::Bytes(table_alone)),
    ("document", |_| true, Does::Bytes(toml_alone)),
    ("faults", |_| true, Does::Bytes(|bytes| proved::faults(bytes).is_ok_and(shown).into())),
    (
        "typed-text",
        Given::is_printed,
        Does::Bytes(|bytes| Typed::from_slice(bytes).and_then(|made| made.to_toml_string()).expect("a text").len()),
    ),
    (
        "original-text",
        Given::is_printed,
        Does::Bytes(|bytes| printed(&Original::from_slice(bytes).expect("a manifest")).expect("a text").len()),
    ),
    ("canonical", Given::is_printed, Does::Bytes(|bytes| proved::calls::canonical(bytes).expect("a text").len())),
    (
        "typed-completed",
        Given::is_completed,
        Does::Read(|all, calls| {
            taken(
                all,
                calls,
                |one| (one.typed.clone(), &*one.file),
                |(made, file)| made.complete_from_path(file).is_ok(),
            )
        }),
    ),
    (
        "original-completed",
        Given::is_completed,
        Does::Read(|all, calls| {
            taken(
                all,
                calls,
                |one| (one.original.clone(), &*one.file),
                |(made, file)| made.complete_from_path(file).is_ok(),
            )
        }),
    ),
    (
        "typed-written",
        Given::is_printed,
        Does::Read(|all, calls| taken(all, calls, |one| &one.typed, |made| made.to_toml_string().is_ok_and(shown))),
    ),
    (
        "original-written",
        Given::is_printed,
        Does::Read(|all, calls| taken(all, calls, |one| &one.original, |made| printed(made).is_some_and(shown))),
    ),
    ("nothing", |_| true, Does::Bytes(<[u8]>::len)),
];

/// The time of this many calls on what is made of each of these before. What a call makes is dropped in it, what it is given
/// is not.
fn taken<'a, T, U>(
    all: &[&'a Given],
    calls: usize,
    before: impl Fn(&'a Given) -> T,
    step: impl Fn(&mut T) -> U,
) -> Duration {
    let mut given: Vec<T> = all.iter().cycle().take(all.len() * calls).map(|one| before(one)).collect();
    let began = Instant::now();
    for one in &mut given {
        drop(black_box(step(black_box(one))));
    }
    began.elapsed()
}

impl Does {
    fn taken(self, all: &[&Given], calls: usize) -> Duration {
        match self {
            Does::Bytes(step) => taken(all, calls, |one| &*one.text, |text| step(text)),
            Does::Read(step) => step(all, calls),
        }
    }

    /// How many calls on each of these make a turn.
    fn calls(self, all: &[&Given]) -> usize {
        match self {
            Does::Bytes(_) => {
                let mut doubled = std::iter::successors(Some(1), |calls| Some(calls * 2));
                doubled.find(|calls| self.taken(all, *calls) >= TURN).expect("a number")
            }
            Does::Read(_) => READ.div_ceil(all.len()),
        }
    }
}

fn step_of(word: &str) -> Step {
    STEPS.into_iter().find(|step| step.0 == word).expect("a step")
}

/// Takes steps by turns, each on the manifests that it is for, and prints what it takes on one of them in the mean.
fn time(turns: usize, words: &str, files: &[&str]) {
    let all: Vec<Given> = files.iter().filter_map(|file| Given::of(file)).collect();
    let for_step = |word| {
        let (word, is_for, does) = step_of(word);
        (word, does, all.iter().filter(|one| is_for(one)).collect::<Vec<_>>())
    };
    let steps: Vec<_> = words.split(',').map(for_step).filter(|(_, _, all)| !all.is_empty()).collect();
    let calls: Vec<usize> = steps.iter().map(|(_, does, all)| does.calls(all)).collect();
    let mut times = vec![Vec::new(); steps.len()];
    for _ in 0..turns {
        for (((_, does, all), &calls), times) in steps.iter().zip(&calls).zip(&mut times) {
            times.push(does.taken(all, calls).as_nanos() as f64 / (calls * all.len()) as f64);
        }
    }
    for ((word, _, all), times) in steps.iter().zip(&mut times) {
        print_times(word, times, all.len());
    }
}

fn take_one(word: &str, calls: u32, file: &Path) -> Option<()> {
    let bytes = fs::read(file).ok()?;
    match step_of(word).2 {
        Does::Bytes(step) => once(calls, || step(black_box(&bytes))),
        Does::Read(_) => None,
    }
}

fn main() {
    let words: Vec<String> = env::args().skip(1).collect();
    let number = |word: &str| word.parse().expect("a number");
    match *words.iter().map(String::as_str).collect::<Vec<_>>() {
        ["time", turns, steps, ref files @ ..] => time(number(turns) as usize, steps, files),
        ["once", step, calls, file] => {
            take_one(step, number(calls), Path::new(file)).expect("a step that accepts the file")
        }
        _ => panic!("the words are wrong"),
    }
}
