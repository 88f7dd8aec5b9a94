//! What only this crate sees: memory for the answer, memory that is refused, and how the declarations lie in memory.

use super::checking::{CheckRequest, GivenMember, GivenPackage};
use super::declared::{manifest_run, room_for, room_for_table, Answer, Input, Output, Request, ANY};
use super::editing::{GivenEdit, GivenStep};
use super::folders::{Folder, Slice};
use super::heap::refusals::{blocks, with_refused};
use super::{
    canonical, findings, refusals, resolved_completed, resolved_completed_table, table, unfound_targets, ListingError,
    Listings, Refusal,
};
use crate::value::{decoded, Value};
use std::fmt::Debug;
use std::mem::{offset_of, size_of};
use std::thread;

const FIVE: [&[u8]; 5] = [
    b"[package]\nname = 'foo'\nversion = '1.0.0'\n",
    b"",
    b"\xff",
    b"[package]\nname = 'p'\nauthors = [true]\n",
    b"[package\nname = 'p'",
];

/// The answer of a call with this many bytes of `out`, all of which are set to 0xAA before.
fn call(bytes: &[u8], room: usize) -> (Answer, Vec<u8>) {
    let mut out = vec![0xAA; room + 8];
    // SAFETY: both pointers are of slices that live through the call and do not overlap; `room` is at most the length.
    let answer = unsafe { manifest_run(Request::of(Input::Text, Output::Text, bytes, ANY), out.as_mut_ptr(), room) };
    (answer, out)
}

#[test]
fn the_text_is_put_whole_or_not_at_all() {
    for bytes in FIVE {
        let (wanted, text) = call(bytes, 256);
        let text = &text[..wanted.length];
        for room in 0..=wanted.length + 1 {
            let (answer, out) = call(bytes, room);
            assert_eq!(answer, wanted);
            let put = if room < wanted.length { 0 } else { wanted.length };
            assert_eq!(out[..put], text[..put]);
            assert!(out[put..].iter().all(|byte| *byte == 0xAA), "{room} bytes for {}", wanted.length);
        }
    }
}

#[test]
fn room_is_no_more_than_there_are_numbers() {
    assert_eq!((room_for(100, 3), room_for_table(800)), (840, 1_156));
    for most in [usize::MAX / 64, usize::MAX / 2 + 1, usize::MAX] {
        assert!(room_for(most, 0) > most / 2 && room_for(0, most) > most / 2 && room_for(most, most) > most / 2);
        assert!(room_for_table(most) >= most);
    }
}

/// Refuses each request for memory of a call in turn: it says that no memory is left, or answers as expected, and gives
/// all blocks back.
fn are_refused<T: Debug + PartialEq>(run: impl Fn() -> Result<T, Refusal>, wanted: &Result<T, Refusal>) {
    let held = blocks();
    let mut granted = 0;
    loop {
        let (answer, was_refused) = with_refused(granted, &run);
        assert_eq!(blocks(), held, "a block is not given back where request {granted} is refused");
        if !was_refused {
            assert_eq!(answer, *wanted);
            break;
        }
        let is_memory = matches!(answer, Err(Refusal::Memory | Refusal::Io(ListingError::OutOfMemory)));
        assert!(answer == *wanted || is_memory, "{granted}: {answer:?}");
        granted += 1;
    }
    assert!(granted > 0);
}

#[test]
fn each_growth_is_refused() {
    let manifests: [&[u8]; 3] = [
        b"[package]\nname = 'p'\n[dependencies]\na = '1'\nb = { path = 'b', features = ['c', 'd'] }\n",
        b"[package]\nname = 'p'\n[target.'cfg(unix)'.dependencies]\na = 1\n",
        b"[package\n",
    ];
    for bytes in manifests {
        are_refused(|| canonical(bytes), &canonical(bytes));
        are_refused(|| table(bytes), &table(bytes));
        are_refused(|| findings(bytes), &findings(bytes));
    }
}

#[test]
fn each_growth_of_a_completion_is_refused() {
    let mut listings = Listings::new();
    listings.put("src", ["lib.rs", "main.rs"]);
    listings.put("tests", ["a.rs", "b.rs"]);
    listings.put(".", ["build.rs"]);
    let member = b"[package]\nname = 'p'\nversion.workspace = true\n[dependencies]\na.workspace = true\n";
    let root = b"[workspace.package]\nversion = '1.0.0'\n[workspace.dependencies]\na = '1'\n";
    let text = || resolved_completed(member, root, &listings);
    assert!(text().is_ok(), "{:?}", text());
    are_refused(text, &text());
    let table = || resolved_completed_table(member, root, &listings);
    assert!(table().is_ok(), "{:?}", table());
    are_refused(table, &table());
    let refused = || refusals(member, b"[workspace.dependencies]\na.workspace = true\n");
    assert!(refused().is_ok_and(|all| all.len() == 2), "{:?}", refused());
    are_refused(refused, &refused());
    let unfound = || unfound_targets(b"lib.name = 'l'\n[package]\nname = 'p'\n[[bench]]\nname = 'c'\n", &listings);
    assert!(unfound().is_ok_and(|all| all.len() == 1), "{:?}", unfound());
    are_refused(unfound, &unfound());
}

/// A hundred thousand tables in one another, around an array.
fn deep_tables() -> Vec<u8> {
    let mut bytes = [8, 1, 1, b'a'].repeat(100_000);
    bytes.extend([7, 2, 4, 7, 0]);
    bytes
}

#[test]
fn a_deep_table_is_decoded_on_a_small_stack() {
    let run = || {
        let mut value = decoded(&deep_tables()).unwrap();
        // (it is taken apart by a loop, since dropping goes as deep)
        let mut depth = 0;
        while let Value::Table(mut members) = value {
            value = members.remove("a").unwrap();
            depth += 1;
        }
        let inner = Value::Array(vec![Value::Boolean(false), Value::Array(Vec::new())]);
        assert_eq!((depth, value), (100_000, inner));
        assert_eq!(decoded(&deep_tables()[..400_001]), None);
    };
    thread::Builder::new().stack_size(256 << 10).spawn(run).unwrap().join().unwrap();
}

/// `scripts/library` compares the line with that of C's side.
#[test]
fn layout() {
    println!(
        "answer: {}, status {}, cause {}, length {}, start {}, end {}",
        size_of::<Answer>(),
        offset_of!(Answer, status),
        offset_of!(Answer, cause),
        offset_of!(Answer, length),
        offset_of!(Answer, start),
        offset_of!(Answer, end),
    );
    println!(
        "folder: {}, path {}, names {}, fault {}",
        size_of::<Folder>(),
        offset_of!(Folder, path),
        offset_of!(Folder, names),
        offset_of!(Folder, fault),
    );
    let slices = [
        ("bytes", size_of::<Slice<u8>>()),
        ("names", size_of::<Slice<Slice<u8>>>()),
        ("folders", size_of::<Slice<Folder>>()),
        ("path", size_of::<Slice<GivenStep>>()),
        ("indexes", size_of::<Slice<usize>>()),
        ("members", size_of::<Slice<GivenMember>>()),
        ("packages", size_of::<Slice<GivenPackage>>()),
    ];
    for (name, size) in slices {
        println!("{name}: {size}, at {}, length {}", offset_of!(Slice<u8>, at), offset_of!(Slice<u8>, length));
    }
    println!(
        "step: {}, key {}, index {}, is_index {}",
        size_of::<GivenStep>(),
        offset_of!(GivenStep, key),
        offset_of!(GivenStep, index),
        offset_of!(GivenStep, is_index),
    );
    println!(
        "edit: {}, path {}, text {}, kind {}",
        size_of::<GivenEdit>(),
        offset_of!(GivenEdit, path),
        offset_of!(GivenEdit, text),
        offset_of!(GivenEdit, kind),
    );
    println!(
        "request: {}, bytes {}, root {}, folders {}, most {}, input {}, output {}, has_root {}, has_folders {}",
        size_of::<Request>(),
        offset_of!(Request, bytes),
        offset_of!(Request, root),
        offset_of!(Request, folders),
        offset_of!(Request, most),
        offset_of!(Request, input),
        offset_of!(Request, output),
        offset_of!(Request, has_root),
        offset_of!(Request, has_folders),
    );
    println!(
        "member: {}, path {}, bytes {}, patterns {}, has_manifest {}",
        size_of::<GivenMember>(),
        offset_of!(GivenMember, path),
        offset_of!(GivenMember, bytes),
        offset_of!(GivenMember, patterns),
        offset_of!(GivenMember, has_manifest),
    );
    println!(
        "package: {}, path {}, name {}, has_name {}",
        size_of::<GivenPackage>(),
        offset_of!(GivenPackage, path),
        offset_of!(GivenPackage, name),
        offset_of!(GivenPackage, has_name),
    );
    println!("{}", layout_of_check());
}

/// The line of the request of a check.
fn layout_of_check() -> String {
    let size = size_of::<CheckRequest>();
    let places = [
        ("bytes", offset_of!(CheckRequest, bytes)),
        ("root", offset_of!(CheckRequest, root)),
        ("config", offset_of!(CheckRequest, config)),
        ("folders", offset_of!(CheckRequest, folders)),
        ("members", offset_of!(CheckRequest, members)),
        ("packages", offset_of!(CheckRequest, packages)),
        ("most", offset_of!(CheckRequest, most)),
        ("has_root", offset_of!(CheckRequest, has_root)),
        ("is_listed", offset_of!(CheckRequest, is_listed)),
        ("has_config", offset_of!(CheckRequest, has_config)),
        ("has_folders", offset_of!(CheckRequest, has_folders)),
        ("has_members", offset_of!(CheckRequest, has_members)),
        ("has_packages", offset_of!(CheckRequest, has_packages)),
        ("publishes", offset_of!(CheckRequest, publishes)),
    ];
    places.iter().fold(format!("check_request: {size}"), |line, (name, place)| format!("{line}, {name} {place}"))
}
