//! The steps of `crate.c`, by the Rust crate `cargo-manifest`.
//!
//!     speed time FILE CALLS TURNS              toml alone, from_slice, and from_slice with a text
//!     speed complete FILE NAMES CALLS TURNS    a completion, with `src/bin` listing the lines of NAMES
//!     speed once STEP CALLS FILE [NAMES]       a step by itself
mod driver;

use driver::{once, print_times};
use original::{AbstractFilesystem, Error, Manifest, Value};
use std::collections::{BTreeMap, BTreeSet};
use std::hint::black_box;
use std::path::Path;
use std::process::ExitCode;
use std::time::Instant;
use std::{env, fs, io};

/// A filesystem in memory: the names at each path.
struct Listings {
    listed: BTreeMap<String, BTreeSet<Box<str>>>,
}

impl Listings {
    /// Listings of a package whose `src/bin` has these names, one a line.
    fn of_binaries(names: &str) -> Listings {
        let binaries = names.lines().map(Box::from).collect();
        let mut listed = BTreeMap::new();
        listed.insert("src/bin".to_string(), binaries);
        listed.insert(".".to_string(), BTreeSet::new());
        Listings { listed }
    }
}

impl AbstractFilesystem for Listings {
    fn file_names_in<T: AsRef<Path>>(&self, path: T) -> io::Result<BTreeSet<Box<str>>> {
        let names = path.as_ref().to_str().and_then(|path| self.listed.get(path));
        names.cloned().ok_or_else(|| io::ErrorKind::NotFound.into())
    }
}

/// A step: it answers a number that is 0 where it is refused.
type Step<'a> = Box<dyn Fn() -> usize + 'a>;

fn toml_alone(bytes: &[u8]) -> usize {
    let read = std::str::from_utf8(bytes).ok().and_then(|text| toml::from_str::<Value>(text).ok());
    read.as_ref().and_then(Value::as_table).map_or(0, |table| table.len())
}

fn read(bytes: &[u8]) -> usize {
    usize::from(Manifest::from_slice(bytes).is_ok())
}

/// The text of a manifest: by `toml` at once, or, where that refuses a value after a table, by way of `toml`'s value.
fn text(manifest: &Manifest, at_once: bool) -> Option<String> {
    if at_once {
        toml::to_string(manifest).ok()
    } else {
        Value::try_from(manifest).ok().and_then(|value| toml::to_string(&value).ok())
    }
}

fn rewrite(bytes: &[u8], at_once: bool) -> usize {
    let text = Manifest::from_slice(bytes).ok().and_then(|manifest| text(&manifest, at_once));
    text.map_or(0, |text| text.len())
}

/// Makes the listings and reads the manifest, and completes it where that is asked for: the number of its binaries, or of
/// the names.
fn complete(bytes: &[u8], names: &[u8], completes: bool) -> Result<usize, Error> {
    let listings = Listings::of_binaries(std::str::from_utf8(names)?);
    let mut manifest = Manifest::from_slice(bytes)?;
    if completes {
        manifest.complete_from_abstract_filesystem(&listings)?;
        Ok(manifest.bin.len())
    } else {
        Ok(listings.listed["src/bin"].len())
    }
}

/// Takes the steps in turns, and prints their times. None where one is refused.
fn take(steps: &[(&str, Step)], calls: u32, turns: usize) -> Option<()> {
    let mut taken = vec![(Vec::with_capacity(turns), 0); steps.len()];
    for _ in 0..turns {
        for ((_, step), (times, answer)) in steps.iter().zip(&mut taken) {
            let began = Instant::now();
            for _ in 0..calls {
                *answer = black_box(step());
                (*answer > 0).then_some(())?;
            }
            times.push(began.elapsed().as_secs_f64() * 1e9 / f64::from(calls));
        }
    }
    for ((name, _), (mut times, answer)) in steps.iter().zip(taken) {
        print_times(name, &mut times, answer);
    }
    Some(())
}

/// The steps of reading and writing.
fn time(file: &str, calls: u32, turns: usize) -> Option<()> {
    let bytes = fs::read(file).ok()?;
    let manifest = Manifest::from_slice(&bytes).ok()?;
    let at_once = text(&manifest, true).is_some();
    drop(manifest);
    let steps: [(&str, Step); 3] = [
        ("toml", Box::new(|| toml_alone(black_box(&bytes)))),
        ("from_slice", Box::new(|| read(black_box(&bytes)))),
        ("text", Box::new(|| rewrite(black_box(&bytes), at_once))),
    ];
    take(&steps, calls, turns)
}

/// The steps of completing.
fn time_completion(file: &str, names: &str, calls: u32, turns: usize) -> Option<()> {
    let (bytes, names) = (fs::read(file).ok()?, fs::read(names).ok()?);
    let steps: [(&str, Step); 2] = [
        ("prepared", Box::new(|| complete(black_box(&bytes), &names, false).unwrap_or(0))),
        ("completed", Box::new(|| complete(black_box(&bytes), &names, true).unwrap_or(0))),
    ];
    take(&steps, calls, turns)
}

/// One step by itself.
fn take_one(step: &str, calls: u32, file: &str, names: Option<&str>) -> Option<()> {
    let bytes = fs::read(file).ok()?;
    let names = names.map_or(Some(Vec::new()), |names| fs::read(names).ok())?;
    let at_once = step == "text" && text(&Manifest::from_slice(&bytes).ok()?, true).is_some();
    once(calls, || match step {
        "nothing" => bytes.len(),
        "toml" => toml_alone(&bytes),
        "from_slice" => read(&bytes),
        "text" => rewrite(&bytes, at_once),
        "prepared" => complete(&bytes, &names, false).unwrap_or(0),
        "completed" => complete(&bytes, &names, true).unwrap_or(0),
        _ => 0,
    })
}

fn main() -> ExitCode {
    let words: Vec<String> = env::args().skip(1).collect();
    let words: Vec<&str> = words.iter().map(String::as_str).collect();
    let number = |word: &str| word.parse().unwrap_or(0).clamp(1, 1_000_000);
    let ran = match words[..] {
        ["time", file, calls, turns] => time(file, number(calls), number(turns) as usize),
        ["complete", file, names, calls, turns] => time_completion(file, names, number(calls), number(turns) as usize),
        ["once", step, calls, file] => take_one(step, number(calls), file, None),
        ["once", step, calls, file, names] => take_one(step, number(calls), file, Some(names)),
        _ => None,
    };
    if ran.is_none() {
        eprintln!("speed (Rust): refused: {}", words.join(" "));
        return ExitCode::FAILURE;
    }
    ExitCode::SUCCESS
}
