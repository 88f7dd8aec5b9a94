//! Trees of what is found, written here once more as `docs/LIBRARY.md` says it, and paths that share their steps.

use super::tree::{decoded, decoded_refusals, decoded_targets};
use super::{Fault, Finding, KeyPath, Place, UnfoundTarget, Unresolved, UnresolvedCause, UnusedKey};
use crate::calls;
use crate::codec::Step;
use crate::value::tests::{bytes_of, Random};
use crate::value::Value;
use crate::Cause;
use std::collections::hash_map::DefaultHasher;
use std::hash::{Hash, Hasher};
use std::thread;

fn array(items: impl IntoIterator<Item = Value>) -> Value {
    Value::Array(items.into_iter().collect())
}

/// A part of a fault, or of what is ignored, with this cause.
fn fault(what: u8, cause: u8) -> Value {
    array([what.into(), cause.into()])
}

/// The same with the cause that a text is not one of these.
fn not_a_choice(what: u8, choices: &[&str]) -> Value {
    array([what.into(), 4.into(), choices.iter().copied().collect()])
}

fn unused(key: &str) -> Value {
    array([2.into(), key.into()])
}

fn below(step: impl Into<Value>, parts: impl IntoIterator<Item = Value>) -> Value {
    array([3.into(), step.into(), array(parts)])
}

/// Parts of each kind.
fn tree() -> Value {
    let editions = ["2015", "2018", "2021", "2024"];
    let authors = below("authors", [below(0, [fault(0, 1)]), below(300, [fault(0, 1)])]);
    let package = [below("name", [fault(0, 2)]), below("edition", [not_a_choice(0, &editions)]), authors];
    let badges = [below("gitlab", [fault(1, 1)]), below("x", [not_a_choice(1, &[])]), unused("a.b")];
    let lib = [below("edition", [not_a_choice(0, &editions)])];
    array([below("package", package), below("lib", lib), below("badges", badges), unused(""), fault(0, 7)])
}

/// The bytes of a tree, of which no finding has a place.
fn without_places(tree: &Value) -> Vec<u8> {
    bytes_of(&array([tree.clone(), array([])]))
}

/// The findings of a tree.
fn found(tree: &Value) -> Vec<Finding> {
    decoded(&without_places(tree)).expect("a tree")
}

fn key(key: &str) -> Step {
    Step::Key(key.into())
}

fn fault_at(steps: impl IntoIterator<Item = Step>, cause: Cause, choices: &[&str]) -> Fault {
    let choices = choices.iter().map(ToString::to_string).collect();
    Fault { path: steps.into_iter().collect(), cause, choices, place: Place::default() }
}

#[test]
fn a_tree_is_read_in_its_order() {
    let editions = ["2015", "2018", "2021", "2024"];
    let authors = |index| [key("package"), key("authors"), Step::Index(index)];
    let wanted = [
        Finding::Fault(fault_at([key("package"), key("name")], Cause::Missing, &[])),
        Finding::Fault(fault_at([key("package"), key("edition")], Cause::NotAChoice, &editions)),
        Finding::Fault(fault_at(authors(0), Cause::WrongKind, &[])),
        Finding::Fault(fault_at(authors(300), Cause::WrongKind, &[])),
        Finding::Fault(fault_at([key("lib"), key("edition")], Cause::NotAChoice, &editions)),
        Finding::Ignored(fault_at([key("badges"), key("gitlab")], Cause::WrongKind, &[])),
        Finding::Ignored(fault_at([key("badges"), key("x")], Cause::NotAChoice, &[])),
        Finding::Unused(UnusedKey::new([key("badges"), key("a.b")].into_iter().collect())),
        Finding::Unused(UnusedKey::new([key("")].into_iter().collect())),
        Finding::Fault(fault_at([], Cause::HoldsFloat, &[])),
    ];
    assert_eq!(found(&tree()), wanted);
    assert_eq!(found(&array([])), []);
}

#[test]
fn the_example_of_the_page() {
    let bytes =
        b"\x07\x02\x07\x01\x07\x03\x02\x03\x01\x07package\x07\x02\x07\x03\x02\x03\x01\x04name\x07\x01\x07\x02\x02\x00\x02\x01\
                  \x07\x02\x02\x02\x01\x06edtion\
                  \x07\x02\
                  \x07\x03\x07\x02\x02\x11\x02\x12\x07\x02\x02\x0a\x02\x0e\x07\x02\x02\x00\x02\x09\
                  \x07\x03\x07\x02\x02\x1c\x02\x22\x07\x02\x02\x13\x02\x19\x07\x02\x02\x00\x02\x09";
    let text = "[package]\nname = 1\nedtion = '2021'";
    let found = decoded(bytes).expect("a tree");
    let lines: Vec<_> = found.iter().map(ToString::to_string).collect();
    assert_eq!(lines, ["invalid type for `package.name`: expected a string", "unused manifest key: package.edtion"]);
    let ranges = |place: &Place| [&place.value, &place.key, &place.header].map(|range| &text[range.clone().unwrap()]);
    assert_eq!(ranges(found[0].place()), ["1", "name", "[package]"]);
    assert_eq!(ranges(found[1].place()), ["'2021'", "edtion", "[package]"]);
    assert_eq!(calls::findings(text.as_bytes()), Ok(found));
}

/// There is a place for each finding or none at all, and each has three ranges.
#[test]
fn places_that_are_none_are_refused() {
    let none = || array([]);
    let range = || array([1.into(), 2.into()]);
    let place = |value: &Value| array([value.clone(), range(), none()]);
    let read = |places: Vec<Value>| decoded(&bytes_of(&array([array([fault(0, 1), unused("a")]), array(places)])));
    let found = read(vec![place(&range()), place(&none())]).expect("two places");
    assert_eq!(found[0].place(), &Place { value: Some(1..2), key: Some(1..2), header: None });
    assert_eq!(found[1].place(), &Place { value: None, key: Some(1..2), header: None });
    assert_eq!(read(vec![]).map(|found| found[0].place().clone()), Some(Place::default()));
    let number = || Value::from(1);
    let wrong = [number(), array([number()]), array([number(), number(), number()]), array([number(), (-1).into()])];
    for value in wrong {
        assert_eq!(read(vec![place(&range()), place(&value)]), None, "{value:?}");
    }
    assert_eq!(read(vec![place(&range())]), None);
    assert_eq!(read(vec![place(&range()), place(&range()), place(&range())]), None);
    assert_eq!(read(vec![place(&range()), array([range(), range()])]), None);
    assert_eq!(decoded(&bytes_of(&array([array([])]))), None);
    assert_eq!(decoded(&bytes_of(&array([array([]), array([]), array([])]))), None);
}

#[test]
fn bytes_that_are_no_tree_are_refused() {
    let bytes = without_places(&tree());
    for end in 0..bytes.len() {
        assert_eq!(decoded(&bytes[..end]), None, "{end}");
    }
    assert_eq!(decoded(&[&bytes[..], &[0]].concat()), None);
    let number = Value::from(1);
    let parts = [
        number.clone(),
        array([]),
        array([number.clone()]),
        array(["1".into(), number.clone()]),
        array([number.clone(), "1".into()]),
        fault(0, 0),
        fault(0, 9),
        fault(0, 4),
        fault(1, 4),
        fault(4, 1),
        array([0.into(), (256 + 1).into()]),
        array([0.into(), 1.into(), array([])]),
        array([0.into(), 4.into(), number.clone()]),
        array([0.into(), 4.into(), array([number.clone()])]),
        array([0.into(), 4.into(), array([]), number.clone()]),
        array([2.into(), number.clone()]),
        array([2.into(), "a".into(), number.clone()]),
        array([3.into(), "a".into()]),
        array([3.into(), "a".into(), number.clone()]),
        array([3.into(), "a".into(), array([]), number.clone()]),
        below(-1, [unused("a")]),
        below(true, [unused("a")]),
        below("a", [number]),
    ];
    for part in parts {
        assert_eq!(decoded(&without_places(&array([part.clone()]))), None, "{part:?}");
    }
    assert_eq!(decoded(&bytes_of(&"a".into())), None);
    assert_eq!(decoded(&without_places(&"a".into())), None);
    // (no room is made for more than there is)
    assert_eq!(decoded(&[&[7, 2, 7][..], &[255; 9], &[1]].concat()), None);
    assert_eq!(decoded(&[&[7, 2, 7, 1, 7, 3, 2, 0, 2, 4, 7][..], &[255; 9], &[1]].concat()), None);
}

/// A refusal, by its status and its text.
fn refusal(status: u8, text: &str) -> Value {
    array([0.into(), status.into(), text.into()])
}

/// The bytes of refusals, and of a range for each in the member.
fn refused(parts: Value, places: impl IntoIterator<Item = (u8, u8)>) -> Vec<u8> {
    let range = |(start, end): (u8, u8)| array([array([start.into(), end.into()]), array([]), array([])]);
    bytes_of(&array([parts, array(places.into_iter().map(range)), array([])]))
}

#[test]
fn refusals_are_read_in_their_order() {
    let cause = UnresolvedCause::NotInWorkspace("version".into());
    let version = below("package", [below("version", [refusal(10, "version")])]);
    let lints = below("lints", [refusal(12, ""), refusal(13, "")]);
    let needs = below("dependencies", [below("b", [refusal(11, "b")])]);
    let places = [(1, 2), (3, 4), (5, 6), (7, 8)];
    let bytes = refused(array([version, needs, lints]), places);
    let found = decoded_refusals(&bytes).expect("refusals");
    let of = |steps: &[&str], cause, (start, end): (usize, usize)| Unresolved {
        path: steps.iter().map(|step| key(step)).collect(),
        cause,
        place: Place { value: Some(start..end), ..Place::default() },
        root_place: Place::default(),
    };
    let wanted = [
        of(&["package", "version"], cause, (1, 2)),
        of(&["dependencies", "b"], UnresolvedCause::InheritedInWorkspace("b".into()), (3, 4)),
        of(&["lints"], UnresolvedCause::MixedLints, (5, 6)),
        of(&["lints"], UnresolvedCause::ToolNamedWorkspace, (7, 8)),
    ];
    assert_eq!(found, wanted);
    for end in 0..bytes.len() {
        assert_eq!(decoded_refusals(&bytes[..end]), None, "{end}");
    }
    assert_eq!(decoded_refusals(&[&bytes[..], &[0]].concat()), None);
    assert_eq!(decoded_refusals(&refused(array([]), [])), Some(vec![]));
    let wrong = [refusal(9, ""), refusal(14, ""), refusal(12, "a"), refusal(13, "a"), fault(0, 10), unused("a")];
    for part in wrong {
        assert_eq!(decoded_refusals(&refused(array([part.clone()]), [])), None, "{part:?}");
    }
    assert_eq!(decoded_refusals(&refused(array([refusal(10, "a")]), [(1, 2), (3, 4)])), None);
}

#[test]
fn unfound_targets_are_read_in_their_order() {
    let place = || array([array([1.into(), 2.into()]), array([]), array([])]);
    let paths = || array([array(["lib".into()]), array(["bin".into(), 300.into()])]);
    let bytes = bytes_of(&array([paths(), array([place(), place()])]));
    let of = |steps: Vec<Step>| UnfoundTarget {
        path: steps.into_iter().collect(),
        place: Place { value: Some(1..2), ..Place::default() },
    };
    assert_eq!(decoded_targets(&bytes), Some(vec![of(vec![key("lib")]), of(vec![key("bin"), Step::Index(300)])]));
    for end in 0..bytes.len() {
        assert_eq!(decoded_targets(&bytes[..end]), None, "{end}");
    }
    let lines = |places: Value| decoded_targets(&bytes_of(&array([paths(), places]))).map(|all| all.len());
    assert_eq!(lines(array([])), Some(2));
    assert_eq!(lines(array([place()])), None);
    assert_eq!(lines(array([place(), place(), place()])), None);
    assert_eq!(decoded_targets(&bytes_of(&array([array([array([true.into()])]), array([])]))), None);
    assert_eq!(decoded_targets(&bytes_of(&array([array([]), array([]), array([])]))), None);
}

#[test]
fn damaged_bytes_are_refused_or_a_tree() {
    let bytes = without_places(&tree());
    let mut random = Random(0x0f1e_2d3c_4b5a_6978);
    let read = |bytes: &[u8]| decoded(bytes).is_some_and(|found| !format!("{found:?}").is_empty());
    let damaged = (0..20_000).map(|_| {
        let mut bytes = bytes.clone();
        random.damage(&mut bytes);
        bytes
    });
    let read = damaged.filter(|bytes| read(bytes)).count();
    assert!(read > 100 && read < 19_000, "{read}");
}

fn path_of(finding: &Finding) -> &KeyPath {
    match finding {
        Finding::Fault(fault) | Finding::Ignored(fault) => &fault.path,
        Finding::Unused(key) => &key.path,
    }
}

/// A key of 20,000 bytes above 20,000 faults stands in memory once, and so do the words of a choice.
#[test]
fn what_is_shared_is_kept_once() {
    let long = "k".repeat(20_000);
    let faults = (0..20_000).map(|index| below(index, [fault(0, 7)]));
    let choices = [not_a_choice(0, &["x"]), not_a_choice(0, &["x"])];
    let found = found(&array([below(long.as_str(), faults.chain([unused("a")])), below("lib", choices)]));
    assert_eq!(found.len(), 20_003);
    let mut paths: Vec<_> = found.iter().map(path_of).collect();
    assert!(std::ptr::eq(paths[0].steps()[0], paths[20_000].steps()[0]));
    assert_eq!(paths[0].steps(), [&Step::Key(long), &Step::Index(0)]);
    let [.., Finding::Fault(one), Finding::Fault(other)] = &found[..] else { panic!() };
    assert!(std::ptr::eq(&*one.choices, &*other.choices));
    // (steps that two paths share are not compared byte by byte)
    paths.reverse();
    paths.sort();
    assert!(paths.is_sorted());
}

/// A hundred thousand steps in one another, and a fault at each.
#[test]
fn a_deep_tree_is_read_and_dropped_on_a_small_stack() {
    let run = || {
        let mut bytes = vec![7, 2, 7, 1];
        (0..100_000).for_each(|_| bytes.extend([7, 3, 2, 3, 1, 1, b'a', 7, 2, 7, 2, 2, 0, 2, 1]));
        bytes.extend([7, 2, 2, 2, 1, 1, b'b', 7, 0]);
        let mut found = decoded(&bytes).expect("a tree");
        let Some(Finding::Unused(UnusedKey { path, .. })) = found.pop() else { panic!() };
        assert_eq!((found.len(), path.steps().len()), (100_000, 100_001));
        let copy: KeyPath = path.steps().into_iter().cloned().collect();
        assert!(copy == path && copy.split_last().unwrap().0 < &path && path.to_string().len() == 200_001);
        drop(path);
        drop(found);
        assert_eq!(copy.steps().len(), 100_001);
        assert_eq!(decoded(&bytes[..bytes.len() - 1]), None);
    };
    thread::Builder::new().stack_size(256 << 10).spawn(run).unwrap().join().unwrap();
}

fn hash_of<T: Hash>(value: &T) -> u64 {
    let mut hasher = DefaultHasher::new();
    value.hash(&mut hasher);
    hasher.finish()
}

/// Paths are compared, hashed and printed as their steps are.
#[test]
fn paths_are_compared_as_lists_of_their_steps() {
    let mut random = Random(0x1234_5678_9abc_def1);
    let step = |random: &mut Random| match random.below(4) {
        0 => Step::Index(random.below(2)),
        way => key(["a", "b", ""][way - 1]),
    };
    let mut paths = vec![KeyPath::default()];
    for _ in 0..200 {
        // (half of them share the steps of another path)
        let outer = paths[random.below(paths.len())].clone();
        let outer = if random.below(2) == 0 { outer } else { outer.steps().into_iter().cloned().collect() };
        paths.push(outer.below(step(&mut random)));
    }
    for path in &paths {
        assert_eq!(format!("{path:?}"), format!("KeyPath {{ steps: {:?} }}", path.steps()));
        for other in &paths {
            let (steps, others) = (path.steps(), other.steps());
            assert_eq!(path.cmp(other), steps.cmp(&others));
            assert_eq!(path == other, steps == others);
            assert_eq!(path.partial_cmp(other), Some(path.cmp(other)));
            assert!(path != other || hash_of(path) == hash_of(other));
        }
    }
    assert_eq!(KeyPath::default().to_string(), "(top)");
    assert_eq!(KeyPath::default().split_last(), None);
}
