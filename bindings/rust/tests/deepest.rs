//! What nests as deep as the library gives it, in a thread with little stack: it is read, copied, compared, printed, written and
//! dropped there, in a debug build too.

use cargo_manifest::calls::{table, Part, Refusal, DEPTH_LIMIT};
use cargo_manifest::{Error, Manifest, Value};
use std::thread;

const STACK: usize = 512 << 10;

/// A header, where there is one, the number of parts of a key, and a value: what a document says of its metadata.
fn document(header: usize, key: usize, opening: &str, value: &str, closing: &str) -> String {
    let header = ".a".repeat(header);
    format!(
        "[package]\nname = 'p'\n[package.metadata{header}]\na{} = {opening}{value}{closing}\n",
        ".a".repeat(key - 1)
    )
}

/// Documents with 128 arrays and tables in one another in the whole table, if the key has no part more: by dotted keys, and by
/// brackets of each kind. Of dots and brackets there may be 80 each, and less of both.
fn documents(more: usize, value: &str) -> [String; 5] {
    let inline = "{a.a = ".repeat(46) + &"{a = ".repeat(34);
    let both = "{a.a = [".repeat(34) + &"{a.a = ".repeat(12);
    [
        document(77, 50 + more, "", value, ""),
        document(61, 63 + more, "[[[", value, "]]]"),
        document(17, 19 + more, &"{a.a.a.a.a.a.a.a.a.a.a.a = [".repeat(7), value, &"]}".repeat(7)),
        document(0, 1 + more, &inline, value, &"}".repeat(80)),
        document(0, 1 + more, &both, value, &("}".repeat(12) + &"]}".repeat(34))),
    ]
}

/// How deep arrays and tables of one value each stand in one another, in the whole table.
fn depth(mut value: &Value) -> usize {
    let mut depth = 0;
    loop {
        value = match value {
            Value::Table(members) if members.contains_key("package") => &members["package"]["metadata"],
            Value::Table(members) => &members["a"],
            Value::Array(items) => &items[0],
            _ => return depth,
        };
        depth += 1;
    }
}

fn on_little_stack(run: impl FnOnce() + Send + 'static) {
    thread::Builder::new().stack_size(STACK).spawn(run).unwrap().join().unwrap();
}

#[test]
fn the_deepest_values() {
    on_little_stack(|| {
        for text in documents(0, "'x'") {
            let value = table(text.as_bytes()).unwrap_or_else(|refusal| panic!("{refusal}: {text}"));
            assert_eq!(depth(&value), DEPTH_LIMIT);
            let copy = value.clone();
            assert!(copy == value);
            assert_eq!(format!("{copy:?}").matches("String(\"x\")").count(), 1);
            assert_eq!(format!("{value:#?}").matches("String(").count(), 2);
            assert!(copy.to_string().contains("\"x\""));
            drop(copy);
            assert!(!value["package"].is_array() && value.get("x").is_none());
        }
    });
}

#[test]
fn the_deepest_manifests() {
    on_little_stack(|| {
        for text in documents(0, "'x'").into_iter().chain(documents(0, "0.5")) {
            let manifest: Manifest = text.parse().unwrap();
            let copy = manifest.clone();
            assert!(copy == manifest);
            assert!(format!("{copy:?}{copy:#?}").contains("metadata: Some("));
            let written = manifest.to_toml_string().unwrap();
            let value = manifest.to_value().unwrap();
            assert_eq!(depth(&value), DEPTH_LIMIT);
            assert!(Manifest::from_value(value).is_ok_and(|again| again == manifest) || text.contains("0.5"));
            // (a header of more than 80 parts is written, and not read)
            assert!(written.parse::<Manifest>().map_or(true, |again| again == manifest));
            let mut resolved = copy.clone();
            let root: Manifest = "[workspace]\n".parse().unwrap();
            resolved.resolve(&root.workspace.unwrap()).unwrap();
            assert!(resolved == copy);
        }
    });
}

#[test]
fn what_is_one_deeper_is_refused() {
    for value in ["'x'", "0.5"] {
        for text in documents(1, value) {
            assert_eq!(table(text.as_bytes()), Err(Refusal::TooDeep(Part::Manifest)), "{text}");
            assert!(matches!(text.parse::<Manifest>(), Err(Error::Parse(_))));
        }
    }
}
