//! Values of one text set by this library and by `toml_edit`, by turns, as `timing/__init__.py` has it:
//!
//!     speed LIBRARY FILE TURNS PATH ..    LIBRARY: the shared library; PATH: keys that are bare, with points between them
//!
//! The steps are `reading`, which is the library's `manifest_document`; `ours`, which is `manifest_edited`; and `toml_edit`,
//! which parses the text, sets the values and prints the document. What a step answers is how many bytes its text has.
#[allow(dead_code)] // (of it the times alone are used)
mod driver;

use driver::print_times;
use std::env;
use std::ffi::{c_char, c_int, c_void, CString};
use std::fs;
use std::hint::black_box;
use std::mem::transmute;
use std::time::{Duration, Instant};
use toml_edit::{Document, Value};

/// How long one turn of a step takes at least.
const TURN: Duration = Duration::from_millis(5);
const NEW: &str = "\"9.9.9\"";

/// What `bindings/c/cargo_manifest.h` has by these names.
#[repr(C)]
struct Answer {
    status: u8,
    cause: u8,
    length: usize,
    start: usize,
    end: usize,
}

#[repr(C)]
struct Bytes {
    at: *const u8,
    length: usize,
}

#[repr(C)]
struct Step {
    key: Bytes,
    index: usize,
    is_index: u8,
}

#[repr(C)]
struct Edit {
    path: *const Step,
    path_length: usize,
    text: Bytes,
    kind: u8,
}

type Reading = unsafe extern "C" fn(*const u8, usize, usize, *mut u8, usize) -> Answer;
type Editing = unsafe extern "C" fn(*const u8, usize, *const Edit, usize, u8, usize, *mut u8, usize) -> Answer;

extern "C" {
    fn dlopen(file: *const c_char, flags: c_int) -> *mut c_void;
    fn dlsym(library: *mut c_void, name: *const c_char) -> *mut c_void;
}

/// The address of a call of the library.
fn call(library: &str, name: &str) -> *mut c_void {
    let (library, name) = (CString::new(library).expect("a path"), CString::new(name).expect("a name"));
    // SAFETY: both texts end with a zero byte; 2 is RTLD_NOW.
    let found = unsafe { dlsym(dlopen(library.as_ptr(), 2), name.as_ptr()) };
    assert!(!found.is_null(), "the library has the call");
    found
}

fn bytes(text: &str) -> Bytes {
    Bytes { at: text.as_ptr(), length: text.len() }
}

/// How many bytes the table of the text would have, which is read and not written.
fn reading(document: Reading, text: &str) -> usize {
    let mut out = 0;
    // SAFETY: the pointers are of as many bytes as is said.
    let answer = unsafe { document(text.as_ptr(), text.len(), usize::MAX, &mut out, 0) };
    assert!(answer.status == 0, "a document");
    answer.length
}

/// The text with these values set by the library.
fn ours(edited: Editing, text: &str, paths: &[Vec<&str>]) -> Vec<u8> {
    let steps: Vec<Vec<Step>> = paths
        .iter()
        .map(|path| path.iter().map(|key| Step { key: bytes(key), index: 0, is_index: 0 }).collect())
        .collect();
    let edits: Vec<Edit> = steps
        .iter()
        .map(|path| Edit { path: path.as_ptr(), path_length: path.len(), text: bytes(NEW), kind: 0 })
        .collect();
    let mut out = vec![0; text.len() + paths.len() * NEW.len()];
    let (start, room) = (out.as_mut_ptr(), out.len());
    // SAFETY: the pointers are of as many values as is said, and outlive the call.
    let answer = unsafe { edited(text.as_ptr(), text.len(), edits.as_ptr(), edits.len(), 0, usize::MAX, start, room) };
    assert!(answer.status == 0 && answer.length <= room, "an edited text");
    out.truncate(answer.length);
    out
}

/// The same by `toml_edit`, which has the place of a value keep the spaces before it and the comment after it.
fn theirs(text: &str, paths: &[Vec<&str>]) -> Vec<u8> {
    let mut document = text.parse::<Document>().expect("a document");
    for path in paths {
        let mut item = document.as_item_mut();
        for key in path {
            item = &mut item[*key];
        }
        let value = item.as_value_mut().expect("a value");
        let decor = value.decor().clone();
        *value = NEW.parse::<Value>().expect("a value");
        *value.decor_mut() = decor;
    }
    document.to_string().into_bytes()
}

/// How long a call of the step takes, of as many as take a turn.
fn turn(step: &dyn Fn() -> usize, calls: u32) -> f64 {
    let start = Instant::now();
    for _ in 0..calls {
        black_box(step());
    }
    start.elapsed().as_nanos() as f64 / f64::from(calls)
}

fn main() {
    let words: Vec<String> = env::args().skip(1).collect();
    let text = fs::read_to_string(&words[1]).expect("a file");
    let turns: usize = words[2].parse().expect("a number");
    let paths: Vec<Vec<&str>> = words[3..].iter().map(|path| path.split('.').collect()).collect();
    // SAFETY: the header declares both calls so.
    let (document, edited): (Reading, Editing) =
        unsafe { (transmute(call(&words[0], "manifest_document")), transmute(call(&words[0], "manifest_edited"))) };
    assert!(ours(edited, &text, &paths) == theirs(&text, &paths), "both make the same text");
    let steps: [(&str, Box<dyn Fn() -> usize>); 3] = [
        ("reading", Box::new(|| reading(document, &text))),
        ("ours", Box::new(|| ours(edited, &text, &paths).len())),
        ("toml_edit", Box::new(|| theirs(&text, &paths).len())),
    ];
    let calls = steps.each_ref().map(|(_, step)| (TURN.as_nanos() as f64 / turn(step, 1)).ceil() as u32);
    let mut times = [Vec::new(), Vec::new(), Vec::new()];
    for _ in 0..turns {
        for ((times, (_, step)), calls) in times.iter_mut().zip(&steps).zip(calls) {
            times.push(turn(step, calls));
        }
    }
    for (times, (name, step)) in times.iter_mut().zip(&steps) {
        print_times(name, times, step());
    }
}
