//! The crate as its users call it.

use cargo_manifest::calls::{canonical, completed, resolved, resolved_completed, table};
use cargo_manifest::calls::{completed_table, resolved_completed_table, resolved_table};
use cargo_manifest::calls::{AtMost, Cause, ListingError, Listings, Part, Refusal};
use cargo_manifest::{Date, Datetime, Offset, Time, Value};
use std::fs;
use std::io::{Error as IoError, ErrorKind};
use std::path::PathBuf;
use std::thread;

const MEMBER: &[u8] = b"[package]\nname = 'p-q'\nversion.workspace = true\nedition = '2021'\n";
const ROOT: &[u8] = b"[workspace.package]\nversion = '2.0.0'\n";
const RESOLVED: &str = "[package]\nedition = \"2021\"\nname = \"p-q\"\nversion = \"2.0.0\"\n";
const LIBRARY: &str = "[lib]\ncrate-type = [\"lib\"]\nedition = \"2021\"\nname = \"p_q\"\npath = \"src/lib.rs\"\n\
                       required-features = []\n\n";

fn schema(cause: Cause, path: &str) -> Refusal {
    Refusal::Schema { part: Part::Manifest, cause, path: path.into() }
}

fn five_answers() {
    let text = "[package]\nname = \"foo\"\nversion = \"1.0.0\"\n";
    assert_eq!(canonical(text.as_bytes()).as_deref(), Ok(text));
    assert_eq!(canonical(b""), Err(schema(Cause::Missing, "name")));
    assert_eq!(canonical(b"\xff"), Err(Refusal::Utf8(Part::Manifest)));
    let wrong = canonical(b"[package]\nname = 'p'\nauthors = [true]\n");
    assert_eq!(wrong, Err(schema(Cause::WrongKind, "package.authors[0]")));
    match canonical(b"[package\nname = 'p'") {
        Err(Refusal::Toml { part: Part::Manifest, range, .. }) => assert_eq!(range.start, 8),
        other => panic!("{other:?}"),
    }
}

#[test]
fn each_kind_of_answer() {
    five_answers();
}

#[test]
fn the_place_of_no_toml_lies_within_the_bytes() {
    let text = "[package]\nname = 'é'\nauthors = [\"\\u00e9\", 'x']\n[a.'b c']\nd = {e = 1979-05-27T07:32:00Z}\n";
    let mut refused = 0;
    for end in 0..=text.len() {
        for tail in ["", "[", "\"\n", "= =", "\n\u{0}"] {
            let bytes = [&text.as_bytes()[..end], tail.as_bytes()].concat();
            if let Err(Refusal::Toml { range, .. }) = canonical(&bytes) {
                assert!(range.start <= range.end && range.end <= bytes.len(), "{range:?} of {bytes:?}");
                refused += 1;
            }
        }
    }
    assert!(refused > 100);
}

#[test]
fn what_is_answered_may_go_to_other_threads() {
    fn goes<T: Send + Sync + 'static>() {}
    fn is_an_error<E: std::error::Error + Send + Sync + 'static>() {}
    goes::<Value>();
    goes::<Listings>();
    is_an_error::<Refusal>();
}

#[test]
fn from_four_threads() {
    thread::scope(|scope| {
        for _ in 0..4 {
            scope.spawn(|| (0..500).for_each(|_| five_answers()));
        }
    });
}

#[test]
fn an_error_prints_its_cause_and_key_path() {
    let error = canonical(b"[package]\nname = 'p'\nauthors = [true]\n").unwrap_err();
    assert_eq!(error.to_string(), "schema: wrong kind at package.authors[0]");
}

#[test]
fn a_key_path_of_100_kilobytes() {
    let key = "x".repeat(100_000);
    let text = format!("[package]\nname = 'p'\n[target.{key}.dependencies]\na = 1\n");
    let wanted = schema(Cause::WrongKind, &format!("target.{key}.dependencies.a"));
    assert_eq!(canonical(text.as_bytes()), Err(wanted));
}

/// The answer of a small stack to metadata that nests this deep.
fn nested(depth: usize) -> Result<String, Refusal> {
    let (open, close) = ("[".repeat(depth), "]".repeat(depth));
    let text = format!("[package]\nname = 'p'\n[package.metadata]\na = {open}{close}\n");
    let run = move || canonical(text.as_bytes());
    thread::Builder::new().stack_size(128 << 10).spawn(run).unwrap().join().unwrap()
}

#[test]
fn nesting_on_a_small_stack() {
    assert!(nested(20).unwrap().contains(&format!("a = {}{}", "[".repeat(20), "]".repeat(20))));
    // more than 80 brackets in one another are not read, and of many more that is reported before they are
    assert!(matches!(nested(100), Err(Refusal::Toml { .. })));
    for depth in [1_000, 1_000_000] {
        assert_eq!(nested(depth), Err(Refusal::TooDeep(Part::Manifest)), "{depth}");
    }
}

fn with_library() -> Listings {
    let mut listings = Listings::new();
    listings.put("src", ["other.rs", "lib.rs"]);
    listings.put(".", ["Cargo.toml"]);
    listings
}

#[test]
fn resolved_and_completed() {
    assert_eq!(resolved(MEMBER, ROOT).as_deref(), Ok(RESOLVED));
    let both = resolved_completed(MEMBER, ROOT, &with_library());
    assert_eq!(both, Ok(format!("{LIBRARY}{RESOLVED}")));
    let alone = completed(b"[package]\nname = 'p-q'\nedition = '2021'\n", &with_library()).unwrap();
    assert_eq!(alone, format!("{LIBRARY}[package]\nedition = \"2021\"\nname = \"p-q\"\n"));
}

#[test]
fn what_the_root_refuses() {
    assert_eq!(resolved(MEMBER, MEMBER), Err(Refusal::NoWorkspace));
    let missing = Refusal::Schema { part: Part::Root, cause: Cause::Missing, path: "name".into() };
    assert_eq!(resolved(MEMBER, b""), Err(missing));
    assert_eq!(resolved(MEMBER, b"\xff"), Err(Refusal::Utf8(Part::Root)));
    let empty = resolved(MEMBER, b"[workspace]\n");
    assert!(matches!(empty, Err(Refusal::NotInWorkspace(_))), "{empty:?}");
    match resolved(MEMBER, b"[workspace") {
        Err(Refusal::Toml { part: Part::Root, range, .. }) => assert_eq!(range.start, 10),
        other => panic!("{other:?}"),
    }
}

#[test]
fn what_listings_refuse() {
    for fault in [ListingError::OutOfMemory, ListingError::Other] {
        let mut listings = with_library();
        listings.put_error("src", fault);
        assert_eq!(completed(b"[package]\nname = 'p'\n", &listings), Err(Refusal::Io(fault)));
    }
    // `.` is asked, and is not there
    assert_eq!(completed(b"[package]\nname = 'p'\n", &Listings::new()), Err(Refusal::Io(ListingError::NotFound)));
    let none = completed(b"[package]\nname = 'p'\nedition = '2021'\n[lib]\n", &Listings::new());
    let text = "can't find library, rename file to `src/lib.rs` or specify lib.path";
    assert_eq!(none, Err(Refusal::Other(text.into())));
}

#[test]
fn folders_that_are_not_asked_for_change_nothing() {
    let mut more = with_library();
    more.put("docs", ["lib.rs", "main.rs"]);
    more.put_error("src/bin/main.rs/deeper", ListingError::OutOfMemory);
    assert_eq!(resolved_completed(MEMBER, ROOT, &more), resolved_completed(MEMBER, ROOT, &with_library()));
}

#[test]
fn listings_by_a_closure() {
    let listings = Listings::gather(|path| match path {
        "src/bin" => Ok(vec!["b.rs".into(), "a".into()]),
        "src/bin/a" => Ok(vec!["main.rs".into()]),
        "." => Ok(vec!["build.rs".into()]),
        _ => Err(IoError::from(ErrorKind::NotFound)),
    });
    let text = completed(b"[package]\nname = 'p'\nedition = '2021'\n", &listings).unwrap();
    for line in ["path = \"src/bin/a/main.rs\"", "path = \"src/bin/b.rs\"", "build = \"build.rs\""] {
        assert!(text.lines().any(|is| is == line), "{line} in {text}");
    }
}

#[test]
fn listings_of_a_folder() {
    let folder = PathBuf::from(env!("CARGO_TARGET_TMPDIR")).join("listings");
    let _ = fs::remove_dir_all(&folder);
    fs::create_dir_all(folder.join("src/bin/tool")).unwrap();
    for path in ["src/lib.rs", "src/bin/tool/main.rs"] {
        fs::write(folder.join(path), "").unwrap();
    }
    let text = completed(b"[package]\nname = 'p-q'\nedition = '2021'\n", &Listings::of_folder(&folder)).unwrap();
    for line in ["path = \"src/bin/tool/main.rs\"", "path = \"src/lib.rs\""] {
        assert!(text.lines().any(|is| is == line), "{line} in {text}");
    }
}

/// A table of these members.
fn table_of<const N: usize>(members: [(&str, Value); N]) -> Value {
    Value::Table(members.into_iter().map(|(key, value)| (key.to_string(), value)).collect())
}

#[test]
fn the_table_by_values() {
    let text = "[package]\nname = 'p'\nautobins = false\nkeywords = ['a', 'b']\n[package.metadata]\n\
                zero = 0\nlarge = 9223372036854775807\nsmall = -9223372036854775808\nless = -1\ngroups = 16384\n\
                at = 1979-05-27T07:32:00.999999999-08:00\nutc = 1979-05-27T07:32:00Z\nday = 1979-05-27\nnoon = 12:00:00\n\
                none = []\nempty = {}\n";
    let date = Some(Date { year: 1979, month: 5, day: 27 });
    let time = |hour, minute, nanosecond| Some(Time { hour, minute, second: Some(0), nanosecond });
    let datetime = |date, time, offset| Value::Datetime(Datetime { date, time, offset });
    let metadata = table_of([
        ("zero", Value::Integer(0)),
        ("large", Value::Integer(i64::MAX)),
        ("small", Value::Integer(i64::MIN)),
        ("less", Value::Integer(-1)),
        ("groups", Value::Integer(16384)),
        ("at", datetime(date, time(7, 32, Some(999_999_999)), Some(Offset::Minutes(-480)))),
        ("utc", datetime(date, time(7, 32, None), Some(Offset::Z))),
        ("day", datetime(date, None, None)),
        ("noon", datetime(None, time(12, 0, None), None)),
        ("none", Value::Array(Vec::new())),
        ("empty", table_of([])),
    ]);
    let words = ["a", "b"].map(|word| Value::String(word.into()));
    let package = table_of([
        ("name", Value::String("p".into())),
        ("autobins", Value::Boolean(false)),
        ("keywords", Value::Array(words.into())),
        ("metadata", metadata),
    ]);
    assert_eq!(table(text.as_bytes()), Ok(table_of([("package", package)])));
    assert_eq!(table(b""), Err(schema(Cause::Missing, "name")));
}

#[test]
fn the_tables_of_the_other_calls() {
    let member = b"[package]\nname = 'p-q'\nedition.workspace = true\n";
    let root = b"[workspace.package]\nedition = '2021'\n";
    let mut listings = Listings::new();
    listings.put("src", ["lib.rs"]);
    listings.put(".", ["build.rs"]);
    let text = |text: &str| Value::String(text.into());
    let inherits = || table_of([("workspace", Value::Boolean(true))]);
    let library = |more: &[(&str, Value)]| {
        let all = [
            ("crate-type", Value::Array(vec![text("lib")])),
            ("name", text("p_q")),
            ("path", text("src/lib.rs")),
            ("required-features", Value::Array(Vec::new())),
        ];
        Value::Table(all.iter().chain(more).map(|(key, value)| (key.to_string(), value.clone())).collect())
    };
    let package = |edition, build| {
        let all = [("name", text("p-q")), ("edition", edition)];
        Value::Table(all.into_iter().chain(build).map(|(key, value)| (key.to_string(), value)).collect())
    };
    let build = || Some(("build", text("build.rs")));
    let edition = || text("2021");
    assert_eq!(resolved_table(member, root), Ok(table_of([("package", package(edition(), None))])));
    assert_eq!(
        completed_table(member, &listings),
        Ok(table_of([("lib", library(&[])), ("package", package(inherits(), build()))]))
    );
    assert_eq!(
        resolved_completed_table(member, root, &listings),
        Ok(table_of([("lib", library(&[("edition", edition())])), ("package", package(edition(), build()))]))
    );
    assert_eq!(completed_table(b"", &listings), Err(schema(Cause::Missing, "name")));
    assert_eq!(resolved_table(member, member), Err(Refusal::NoWorkspace));
    let missed = Err(Refusal::Io(ListingError::NotFound));
    assert_eq!(resolved_completed_table(member, root, &Listings::new()), missed);
}

/// What each call answers to these, as text where that is what it gives, in at most this many bytes.
fn each(most: usize, bytes: &[u8], root: &[u8]) -> [Result<String, Refusal>; 8] {
    let (call, listings) = (AtMost(most), with_library());
    let debug = |value: Result<Value, Refusal>| value.map(|value| format!("{value:?}"));
    [
        call.canonical(bytes),
        call.completed(bytes, &listings),
        call.resolved(bytes, root),
        call.resolved_completed(bytes, root, &listings),
        debug(call.table(bytes)),
        debug(call.completed_table(bytes, &listings)),
        debug(call.resolved_table(bytes, root)),
        debug(call.resolved_completed_table(bytes, root, &listings)),
    ]
}

#[test]
fn a_bound_on_what_is_answered() {
    let listings = with_library();
    let unbound = [
        canonical(MEMBER),
        completed(MEMBER, &listings),
        resolved(MEMBER, ROOT),
        resolved_completed(MEMBER, ROOT, &listings),
    ];
    assert_eq!(each(usize::MAX, MEMBER, ROOT)[..4], unbound);
    assert_eq!(each(1 << 12, MEMBER, ROOT), each(usize::MAX, MEMBER, ROOT));
    for most in [0, 32] {
        assert_eq!(each(most, MEMBER, ROOT), [const { Err(Refusal::TooLong) }; 8]);
    }
    for (which, text) in unbound.iter().enumerate() {
        let most = text.as_ref().unwrap().len() - 1;
        assert_eq!(each(most, MEMBER, ROOT)[which], Err(Refusal::TooLong));
    }
    // what refuses before is reported whatever the bound is
    for (bytes, root) in [(&b""[..], ROOT), (b"\xff", ROOT), (b"[package", ROOT), (MEMBER, b"[workspace]\nmembers = 1")]
    {
        assert_eq!(each(0, bytes, root)[3], each(usize::MAX, bytes, root)[3]);
        assert!(each(0, bytes, root)[3] != Err(Refusal::TooLong));
    }
}

#[test]
fn the_bound_on_a_table_is_that_on_its_tagged_bytes() {
    // 8 1 7 `package` 8 1 4 `name` 1 1 `p`
    let text = b"[package]\nname = 'p'\n";
    assert_eq!(AtMost(20).table(text), table(text));
    assert_eq!(AtMost(19).table(text), Err(Refusal::TooLong));
}

#[test]
fn a_long_key_above_many_tables_is_bounded() {
    let tables: String = (0..1_000).map(|number| format!("t{number} = {{}}\n")).collect();
    let below = |key: &str| format!("[package]\nname = 'p'\n[package.metadata.{key}]\n{tables}").into_bytes();
    let (long, short) = (below(&"k".repeat(1_000)), below("k"));
    // the header of each table has the key again
    assert!(long.len() < 16_000 && canonical(&long).unwrap().len() > 1_000_000);
    assert_eq!(AtMost(1 << 16).canonical(&long), Err(Refusal::TooLong));
    assert!(AtMost(1 << 16).canonical(&short).is_ok() && AtMost(1 << 16).table(&long).is_ok());
}

#[test]
fn what_is_inherited_is_counted_before_it_is_refused() {
    let root = b"[workspace.dependencies]\na = '1.0.0'\n";
    let member = b"[package]\nname = 'p'\nversion.workspace = true\n[dependencies]\na.workspace = true\n";
    // (the five bytes of the version, and two more)
    assert_eq!(AtMost(6).resolved(member, root), Err(Refusal::TooLong));
    assert_eq!(AtMost(7).resolved(member, root), Err(Refusal::NotInWorkspace("version".into())));
}

#[test]
fn what_nests_too_deep() {
    // brackets that are open at one place, dots of a key and of a header, a header and a key that make 129 tables in one
    // another, and 113 below a header of an array of tables
    let brackets = format!("a = {}", "[".repeat(510));
    let dots = format!("a{} = 1", ".a".repeat(170));
    let header = format!("[a{}]", ".a".repeat(170));
    let table = format!("[a{}]\na{} = 1", ".a".repeat(79), ".a".repeat(49));
    let array = format!("[[a{}]]\na{} = 1", ".a".repeat(79), ".a".repeat(33));
    for deep in [brackets, dots, header, table, array].map(String::into_bytes) {
        assert_eq!(each(usize::MAX, &deep, ROOT), [const { Err(Refusal::TooDeep(Part::Manifest)) }; 8]);
        let of_root = each(usize::MAX, MEMBER, &deep);
        for which in [2, 3, 6, 7] {
            assert_eq!(of_root[which], Err(Refusal::TooDeep(Part::Root)));
        }
    }
    assert_eq!(Refusal::TooDeep(Part::Root).to_string(), "root: too deep");
    assert_eq!(Refusal::TooLong.to_string(), "too long");
}
