//! The tagged bytes of diagnostics, written here once more as `docs/LIBRARY.md` says it, and certain suggestions that are made.

use super::read::decoded;
use super::{fixed, Diagnostic, File, Label, Level, Suggestion};
use crate::found::{KeyPath, Place};
use crate::value::tests::bytes_of;
use crate::value::Value;
use crate::{Replacement, Step};

fn array(items: impl IntoIterator<Item = Value>) -> Value {
    Value::Array(items.into_iter().collect())
}

fn range(from: u8, to: u8) -> Value {
    array([from.into(), to.into()])
}

fn nothing() -> Value {
    array([])
}

/// The nine parts of a diagnostic that has everything.
fn parts() -> Vec<Value> {
    let labels = [
        array([0.into(), 0.into(), range(1, 3), "here".into()]),
        array([1.into(), 0.into(), nothing(), "there".into()]),
        array([2.into(), 300.into(), range(0, 200), "in a member".into()]),
    ];
    let replaced = array([array([4.into(), 5.into(), "x".into()]), array([7.into(), 7.into(), "".into()])]);
    let suggestions =
        [array(["write it".into(), true.into(), replaced]), array(["think of it".into(), false.into(), nothing()])];
    vec![
        "unknown-feature".into(),
        1.into(),
        "what is wrong".into(),
        array(["features".into(), "default".into(), 2.into()]),
        range(4, 9),
        array([range(4, 9), nothing(), range(0, 2)]),
        array(labels),
        array(["one".into(), "two".into()]),
        array(suggestions),
    ]
}

/// The diagnostics of these parts.
fn read(parts: Vec<Value>) -> Option<Vec<Diagnostic>> {
    decoded(&bytes_of(&array([array(parts)])))
}

#[test]
fn each_part_is_read() {
    let replacement = |range, text: &str| Replacement { range, text: text.into() };
    let diagnostic = Diagnostic {
        code: "unknown-feature".into(),
        level: Level::Warning,
        message: "what is wrong".into(),
        path: KeyPath::from([Step::from("features"), Step::from("default"), Step::from(2)]),
        range: Some(4..9),
        place: Place { value: Some(4..9), key: None, header: Some(0..2) },
        labels: vec![
            Label { file: File::Manifest, range: Some(1..3), text: "here".into() },
            Label { file: File::Root, range: None, text: "there".into() },
            Label { file: File::Member(300), range: Some(0..200), text: "in a member".into() },
        ],
        notes: vec!["one".into(), "two".into()],
        suggestions: vec![
            Suggestion {
                text: "write it".into(),
                is_certain: true,
                replacements: vec![replacement(4..5, "x"), replacement(7..7, "")],
            },
            Suggestion { text: "think of it".into(), is_certain: false, replacements: Vec::new() },
        ],
    };
    assert_eq!(read(parts()), Some(vec![diagnostic.clone()]));
    assert_eq!(diagnostic.to_string(), "warning[unknown-feature]: what is wrong");
    assert_eq!(diagnostic.path.to_string(), "features.default[2]");
}

#[test]
fn what_is_about_the_whole_text() {
    let mut whole = parts();
    for part in whole.iter_mut().skip(3) {
        *part = nothing();
    }
    let found = read(whole).expect("a diagnostic");
    assert_eq!((found[0].span(), &found[0].place, found[0].line_column(b"a")), (None, &Place::default(), None));
    assert_eq!(decoded(&bytes_of(&nothing())), Some(Vec::new()));
}

#[test]
fn other_bytes_are_none() {
    for part in 0..9 {
        let mut wrong = parts();
        wrong[part] = false.into();
        assert_eq!(read(wrong), None, "{part}");
        let mut fewer = parts();
        fewer.remove(part);
        assert_eq!(read(fewer), None, "{part}");
    }
    let with = |part: usize, value: Value| {
        let mut wrong = parts();
        wrong[part] = value;
        read(wrong)
    };
    assert_eq!(with(1, 3.into()), None);
    assert_eq!(with(4, array([1.into()])), None);
    assert_eq!(with(5, array([nothing(), nothing()])), None);
    assert_eq!(with(6, array([array([3.into(), 0.into(), nothing(), "".into()])])), None);
    assert_eq!(with(6, array([array([0.into(), 1.into(), nothing(), "".into()])])), None);
    assert_eq!(with(8, array([array(["".into(), 1.into(), nothing()])])), None);
    let mut bytes = bytes_of(&array([array(parts())]));
    for length in 0..bytes.len() {
        assert_eq!(decoded(&bytes[..length]), None, "{length}");
    }
    bytes.push(0);
    assert_eq!(decoded(&bytes), None);
}

#[test]
fn lines_and_columns() {
    let place = |bytes: &[u8], from: u8| {
        let mut at = parts();
        at[4] = range(from, from);
        read(at).expect("a diagnostic")[0].line_column(bytes)
    };
    assert_eq!(place("a\n'\u{e9}' = 1".as_bytes(), 7), Some((2, 5)));
    assert_eq!(place("\u{feff}a = 1\nb".as_bytes(), 3), Some((1, 1)));
    assert_eq!(place("\u{feff}a = 1\nb".as_bytes(), 9), Some((2, 1)));
    assert_eq!(place(b"ab\xff", 2), Some((1, 3)));
}

/// A diagnostic with a suggestion that replaces these ranges.
fn suggesting(is_certain: bool, replaced: &[(usize, usize, &str)]) -> Diagnostic {
    let of = |(from, to, text): &(usize, usize, &str)| Replacement { range: *from..*to, text: (*text).into() };
    let replacements = replaced.iter().map(of).collect();
    let mut diagnostic = read(parts()).expect("a diagnostic").remove(0);
    diagnostic.suggestions = vec![Suggestion { text: String::new(), is_certain, replacements }];
    diagnostic
}

#[test]
fn suggestions_are_made() {
    let made = |all: &[Diagnostic]| String::from_utf8(fixed(b"0123456789", all)).expect("a text");
    assert_eq!(made(&[]), "0123456789");
    assert_eq!(made(&[suggesting(true, &[(2, 4, "ab")]), suggesting(true, &[(0, 1, "")])]), "1ab456789");
    assert_eq!(made(&[suggesting(true, &[(1, 2, "a"), (5, 5, "b")]), suggesting(true, &[(7, 8, "c")])]), "0a234b56c89");
    assert_eq!(made(&[suggesting(false, &[(2, 4, "ab")])]), "0123456789");
    assert_eq!(made(&[suggesting(true, &[])]), "0123456789");
    // of two that touch or overlap, the first one is made
    assert_eq!(made(&[suggesting(true, &[(2, 4, "b")]), suggesting(true, &[(1, 3, "a")])]), "0a3456789");
    assert_eq!(made(&[suggesting(true, &[(2, 2, "a")]), suggesting(true, &[(2, 2, "b")])]), "01a23456789");
    assert_eq!(made(&[suggesting(true, &[(1, 2, "a"), (8, 9, "b")]), suggesting(true, &[(4, 5, "c")])]), "0a234567b9");
    assert_eq!(made(&[suggesting(true, &[(1, 2, "a")]), suggesting(true, &[(2, 3, "b")])]), "0a23456789");
    // what is of other bytes is not made
    assert_eq!(made(&[suggesting(true, &[(9, 11, "a")])]), "0123456789");
    assert_eq!(made(&[suggesting(true, &[(5, 6, "a"), (3, 4, "b")])]), "0123456789");
}
