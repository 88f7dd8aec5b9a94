//! Each call of the library, but those for lines, places, edits and diagnostics, on inputs that are made to take much stack, time or
//! memory (`inputs`), in a thread with 128 KiB of stack, which has to be enough for all of them, and with no more memory than
//! `docs/LIBRARY.md` says.
//!
//! `MANIFEST_HOSTILE` says how many inputs there are, 2,000 where it is not set, `MANIFEST_HOSTILE_FROM` the number of the
//! first, and `MANIFEST_HOSTILE_STACK` how many KiB the stack has; `scripts/try/hostile --library FOLDER` has 200,000
//! inputs. An input whose thread runs out of its stack is named as that thread.

mod inputs;

use cargo_manifest as _; // the archive is linked by it
use inputs::{heap, Random};
use std::collections::BTreeMap;
use std::sync::atomic::{AtomicU64, Ordering};
use std::sync::Mutex;
use std::{env, ptr, thread};

/// How many KiB of stack a call may take, with what the test takes itself.
const STACK: u64 = 128;
/// How much memory a call may have at once: for each byte that is passed in (a name of a folder counts as 16 more), for each
/// byte that it may give, and in addition.
const EACH: usize = 768;
const PRINTED: usize = 64;
const MORE: usize = 64 << 10;
/// How many threads there are at once.
const AT_ONCE: usize = 2;
/// How long a text may be.
const MOST: usize = 1 << 20;

/// `struct manifest_answer` of `bindings/c/cargo_manifest.h`.
#[repr(C)]
#[derive(Clone, Copy, Debug, PartialEq, Eq)]
struct Answer {
    status: u8,
    cause: u8,
    length: usize,
    start: usize,
    end: usize,
}

/// `struct manifest_bytes` and `struct manifest_names`.
#[repr(C)]
struct Slice<T> {
    at: *const T,
    length: usize,
}

impl<T> Slice<T> {
    fn of(items: &[T]) -> Slice<T> {
        Slice { at: items.as_ptr(), length: items.len() }
    }
}

/// `struct manifest_folder`.
#[repr(C)]
struct Folder {
    path: Slice<u8>,
    names: Slice<Slice<u8>>,
    fault: u8,
}

/// `struct manifest_request`.
#[repr(C)]
struct Request {
    bytes: Slice<u8>,
    root: Slice<u8>,
    folders: Slice<Folder>,
    most: usize,
    input: u8,
    output: u8,
    has_root: u8,
    has_folders: u8,
}

type OnText = unsafe extern "C" fn(*const u8, usize, usize, *mut u8, usize) -> Answer;

extern "C" {
    fn manifest_run(request: Request, out: *mut u8, room: usize) -> Answer;
    fn manifest_table_without_metadata(
        bytes: *const u8,
        length: usize,
        most: usize,
        out: *mut u8,
        room: usize,
    ) -> Answer;
    fn manifest_document(bytes: *const u8, length: usize, most: usize, out: *mut u8, room: usize) -> Answer;
    fn manifest_findings(bytes: *const u8, length: usize, most: usize, out: *mut u8, room: usize) -> Answer;
}

/// A call: of a text alone, or a request with a root, with folders, with both or with neither.
#[derive(Clone, Copy)]
enum Call {
    OnText(OnText),
    Run { has_root: bool, has_folders: bool },
}

/// A call with its name, and whether it takes tagged tables, and whether it gives one.
type Export = (&'static str, bool, bool, Call);

const fn run(has_root: bool, has_folders: bool) -> Call {
    Call::Run { has_root, has_folders }
}

const EXPORTS: [Export; 19] = [
    ("canonical", false, false, run(false, false)),
    ("completed", false, false, run(false, true)),
    ("resolved", false, false, run(true, false)),
    ("resolved_completed", false, false, run(true, true)),
    ("table", false, true, run(false, false)),
    ("completed_table", false, true, run(false, true)),
    ("resolved_table", false, true, run(true, false)),
    ("resolved_completed_table", false, true, run(true, true)),
    ("canonical of a table", true, false, run(false, false)),
    ("completed of a table", true, false, run(false, true)),
    ("resolved of tables", true, false, run(true, false)),
    ("resolved_completed of tables", true, false, run(true, true)),
    ("table of a table", true, true, run(false, false)),
    ("completed_table of a table", true, true, run(false, true)),
    ("resolved_table of tables", true, true, run(true, false)),
    ("resolved_completed_table of tables", true, true, run(true, true)),
    ("table_without_metadata", false, true, Call::OnText(manifest_table_without_metadata)),
    ("document", false, true, Call::OnText(manifest_document)),
    ("findings", false, true, Call::OnText(manifest_findings)),
];

/// What is passed to an export.
struct Given<'a> {
    bytes: &'a [u8],
    root: &'a [u8],
    folders: &'a [Folder],
}

impl Given<'_> {
    /// How many bytes are passed in, and 16 for each name of a folder.
    fn size(&self) -> usize {
        let names = |folder: &Folder| 32 + folder.path.length + 32 * folder.names.length;
        self.bytes.len() + self.root.len() + self.folders.iter().map(names).sum::<usize>()
    }
}

/// The answer of a call, which may give this many bytes, with room for all or none of them. It has no more memory than it may.
fn answer(export: &Export, given: &Given<'_>, most: usize, out: &mut [u8]) -> Answer {
    let mut answer = None;
    let memory = heap::most_while(|| answer = Some(answered(export, given, most, out)));
    let bound = PRINTED.saturating_mul(most).saturating_add(EACH * given.size() + MORE);
    assert!(memory <= bound, "{memory} bytes of memory, where {} are passed in and {most} may be given", given.size());
    answer.expect("the call has returned")
}

/// The same, whatever memory it has.
fn answered(export: &Export, given: &Given<'_>, most: usize, out: &mut [u8]) -> Answer {
    let &(_, takes_table, gives_table, call) = export;
    let (room, out) = (out.len(), if out.is_empty() { ptr::null_mut() } else { out.as_mut_ptr() });
    // SAFETY: all pointers are of slices that live through the call and do not overlap, with their lengths.
    unsafe {
        match call {
            Call::OnText(call) => call(given.bytes.as_ptr(), given.bytes.len(), most, out, room),
            Call::Run { has_root, has_folders } => {
                let (bytes, root, folders) = (Slice::of(given.bytes), Slice::of(given.root), Slice::of(given.folders));
                let (input, output) = (takes_table as u8, gives_table as u8);
                let (has_root, has_folders) = (has_root as u8, has_folders as u8);
                manifest_run(Request { bytes, root, folders, most, input, output, has_root, has_folders }, out, room)
            }
        }
    }
}

/// Whether an export may answer this status, where there is memory.
fn is_due(status: u8, export: &Export) -> bool {
    let &(name, takes_table, gives_table, call) = export;
    let (has_root, has_folders) = match call {
        Call::OnText(_) => (false, false),
        Call::Run { has_root, has_folders } => (has_root, has_folders),
    };
    match status {
        0 | 15 | 32 => true,
        1 | 4 => !takes_table,
        2 => name != "document" && name != "findings",
        3 | 5 | 8 => has_folders,
        7 => takes_table && !gives_table,
        14 => takes_table,
        9..=13 | 18 | 31 => has_root,
        17 | 20 => has_root && !takes_table,
        30 => has_root && takes_table,
        _ => false,
    }
}

/// The parts of an answer are those that its status has.
fn check_parts(answer: Answer, given: &Given<'_>) {
    let Answer { status, cause, length, start, end } = answer;
    match status {
        2 | 18 => assert!((1..8).contains(&cause) && length > 0),
        3 => assert!((1..=3).contains(&cause) && length == 0),
        _ => assert_eq!(cause, 0),
    }
    let whole = if status == 1 { given.bytes.len() } else { given.root.len() };
    match status {
        1 | 17 => assert!(start <= end && end <= whole && length > 0),
        _ => assert_eq!((start, end), (0, 0)),
    }
    if let 4 | 8 | 9 | 12..=15 | 20 | 30.. = status {
        assert_eq!(length, 0);
    }
}

/// The answer where this many bytes may be given: what was refused before the length is looked at is refused as it was;
/// else it is the same, where the text is short, or it says that the text is too long. Of a table it is the exact
/// length that counts.
fn check_limit(whole: Answer, limited: Answer, most: usize, gives_table: bool) {
    let too_long = Answer { status: 32, cause: 0, length: 0, start: 0, end: 0 };
    if whole.status == 7 {
        assert!(limited == whole || limited == too_long, "{limited:?}");
    } else if whole.status != 0 {
        assert_eq!(limited, whole);
    } else if whole.length > most {
        assert_eq!(limited, too_long);
    } else {
        assert!(limited == whole || limited == too_long && !gives_table, "{limited:?}");
    }
}

/// A canonical text is its own canonical text; but one of a table that is more than 80 deep may be refused.
fn check_text(text: &[u8]) {
    assert!(std::str::from_utf8(text).is_ok());
    let given = Given { bytes: text, root: &[], folders: &[] };
    let mut again = vec![0; text.len()];
    let answer = answer(&EXPORTS[0], &given, usize::MAX, &mut again);
    let says = |header: &[u8]| text.split(|byte| *byte == b'\n').any(|line| line.starts_with(header));
    match answer.status {
        // (of what has neither a package nor a workspace, as a table may, the text is that of an old header without a name)
        2 => assert!(!says(b"[package") && !says(b"[workspace")),
        // (each level but the first ones has a bracket or a dot)
        1 | 15 => assert!(text.iter().filter(|byte| b"[{.".contains(byte)).count() > 77),
        status => assert!(status == 0 && answer.length == text.len() && again == text, "{status}"),
    }
}

/// What an export answers to what it is given, by all that has to hold of it.
fn try_export(export: &Export, given: &Given<'_>, random: &mut Random) -> u8 {
    let (name, _, gives_table, _) = export;
    let mut out = vec![0; 1 << 16];
    let whole = answer(export, given, MOST, &mut out);
    assert!(is_due(whole.status, export), "{name}: {whole:?}");
    check_parts(whole, given);
    if whole.length > out.len() {
        out.resize(whole.length, 0);
        assert_eq!(answer(export, given, MOST, &mut out), whole, "{name}");
    }
    if whole.status == 0 && !gives_table {
        check_text(&out[..whole.length]);
    }
    // (each step of the paths of what is found stands once)
    assert!(*name != "findings" || whole.length <= 10 * given.bytes.len() + 64, "{whole:?}");
    // (most refusals come of what is done before)
    if whole.status == 0 || random.one_in(4) {
        let most = match random.below(3) {
            0 => random.below(whole.length + 1),
            1 => whole.length,
            _ => whole.length.saturating_sub(1),
        };
        check_limit(whole, answer(export, given, most, &mut []), most, *gives_table);
    }
    whole.status
}

/// Roots that are read.
const SHORT_TEXT: &[u8] = b"[workspace.package]\nversion = '1'\n";
const SHORT_TABLE: &[u8] = b"\x08\x01\x09workspace\x08\x01\x07members\x07\x00";

/// All calls on one input.
fn try_all(number: u64) -> Vec<u8> {
    let mut random = Random::new(number);
    let (text, other) = (inputs::text(&mut random), inputs::text(&mut random));
    let (table, other_table) = (inputs::table(&mut random), inputs::table(&mut random));
    let names = [Slice::of(b"a.rs"), Slice::of(b"lib.rs"), Slice::of(b"main.rs")];
    let folder =
        |path: &'static str, names| Folder { path: Slice::of(path.as_bytes()), names: Slice::of(names), fault: 0 };
    let all = [folder(".", &names[..0]), folder("src", &names), folder("src/bin", &names[..2])];
    let folders = if random.one_in(10) { &all[1..] } else { &all };
    let mut statuses = Vec::new();
    for export in &EXPORTS {
        let (bytes, root, short) =
            if export.1 { (&table, &other_table, SHORT_TABLE) } else { (&text, &other, SHORT_TEXT) };
        // (a hostile root is mostly refused)
        let root = if random.one_in(3) { short } else { root };
        statuses.push(try_export(export, &Given { bytes, root, folders }, &mut random));
    }
    statuses
}

/// A number that the environment names.
fn named(name: &str, otherwise: u64) -> u64 {
    env::var(name).map_or(otherwise, |text| text.parse().expect("a number"))
}

/// All calls on this many inputs, each in a thread of its own, which reports what does not hold: how often each status
/// was answered, and how many inputs failed.
fn answers(first: u64, count: u64, stack: usize) -> (BTreeMap<u8, u64>, u64) {
    let (next, all) = (AtomicU64::new(first), Mutex::new((BTreeMap::new(), 0)));
    let work = || loop {
        let number = next.fetch_add(1, Ordering::Relaxed);
        if number >= first + count {
            break;
        }
        let thread = thread::Builder::new().name(format!("input {number}")).stack_size(stack);
        let answered = thread.spawn(move || try_all(number)).expect("a thread").join();
        let (counts, failed) = &mut *all.lock().expect("no panic");
        match answered {
            Ok(statuses) => statuses.into_iter().for_each(|status| *counts.entry(status).or_default() += 1),
            Err(_) => *failed += 1,
        }
    };
    thread::scope(|scope| (0..AT_ONCE).for_each(|_| drop(scope.spawn(work))));
    all.into_inner().expect("no panic")
}

#[test]
fn each_call_is_answered_on_a_small_stack() {
    let (first, count) = (named("MANIFEST_HOSTILE_FROM", 1), named("MANIFEST_HOSTILE", 2_000));
    let stack = named("MANIFEST_HOSTILE_STACK", STACK) << 10;
    let (counts, failed) = answers(first, count, stack as usize);
    println!("{} inputs passed, {failed} failed; the statuses are {counts:?}", count - failed);
    assert_eq!(failed, 0);
    // each way to refuse is met, and some inputs are read
    if count >= 2_000 {
        for status in [0, 1, 2, 3, 4, 7, 9, 14, 15, 17, 18, 20, 30, 31, 32] {
            assert!(counts.contains_key(&status), "no input has the status {status}");
        }
    }
}
