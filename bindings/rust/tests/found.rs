//! What is found in documents: faults, what is ignored, and the keys that nothing reads.

mod stored;

use cargo_manifest::calls::{findings, AtMost, Part, Refusal};
use cargo_manifest::{
    faults, ignored, unused_keys, Cause, Error, Fault, Finding, KeyPath, Manifest, Place, Step, UnusedKey,
};

/// Documents, and what is found in them, line by line.
const DOCUMENTS: &[(&str, &str)] = &[
    ("[package]\nname = 'p'", ""),
    ("", "missing field `name`\n"),
    (
        "[package]\nname = 1\nedtion = '2021'\nauthors = [1, 'a', 2]\nedition = '2020'\n[dependecies.a]\nb = 1",
        "invalid type for `package.name`: expected a string\n\
         `package.edition` is none of `2015`, `2018`, `2021`, `2024`\n\
         invalid type for `package.authors[0]`: expected a string\n\
         invalid type for `package.authors[2]`: expected a string\n\
         unused manifest key: package.edtion\nunused manifest key: dependecies\n",
    ),
    (
        "[package]\nname = 'p'\n[dependencies.a]\ndefault-features = true\ndefault_features = 1\nversion = 1",
        "invalid type for `dependencies.a.version`: expected a string\n\
         `dependencies.a.default-features` is given twice, as `default-features` and as `default_features`\n",
    ),
    (
        "[package]\nname = 'p'\nversion = { workspace = true, x = 1 }\n[badges]\ngitlab = { branch = 1, foo = 2 }",
        "unused manifest key: package.version.x\nignored: missing field `badges.gitlab.repository`\n\
         ignored: invalid type for `badges.gitlab.branch`: expected a string\nunused manifest key: badges.gitlab.foo\n",
    ),
    (
        "[package]\nname = 'p'\nmetadata = { a = [0.5, 1, [2.5]] }\n[profile.dev]\ncodegen-units = 65536\nlto = nan\n\
         package = [1]\n[lints]\nworkspace = false\nrust.a = 1\nrust.b.priority = 128",
        "invalid type for `profile.dev.lto`: expected a value without a float\n\
         invalid value for `profile.dev.codegen-units`: expected an integer from 0 to 65535\n\
         invalid type for `profile.dev.package`: expected a table\n\
         invalid value for `lints.workspace`: expected `true`\n\
         invalid type for `lints.rust.a`: expected one of the strings `forbid`, `deny`, `warn`, `allow`, or a table\n\
         missing field `lints.rust.b.level`\n\
         invalid value for `lints.rust.b.priority`: expected an integer from -128 to 127\n",
    ),
    (
        "package.name = 'p'\n[target.'cfg(unix)'.dependencies]\n\"a\\\"é\" = 1\n'' = 2\n\"\\t\\\\\" = 3",
        "invalid type for `target.\"cfg(unix)\".dependencies.\"\"`: expected a string or a table\n\
         invalid type for `target.\"cfg(unix)\".dependencies.\"\\u0009\\\\\"`: expected a string or a table\n\
         invalid type for `target.\"cfg(unix)\".dependencies.\"a\\\"é\"`: expected a string or a table\n",
    ),
];

/// The keys of a document that nothing reads, and what Cargo makes of them: by the table of `docs/CARGO.md`.
const UNUSED: &str = "
    [package]
    name = 'p'
    version = { workspace = true, public = 1 }
    metabuild = 'a'
    replace = 1
    [project]
    [replace]
    [hints]
    mostly-unused = true
    [dependencies]
    a = { version = '1', artifact = 'bin', filename = 'x' }
    b = { workspace = true, public = true, version = '1' }
    [target.x.build_dependencies]
    c = { path = 'c', base = 'd' }
    [lib]
    doc-scrape-examples = false
    [profile.dev]
    dir-name = 'x'
    [lints.rust]
    unexpected_cfgs = { level = 'warn', check-cfg = [] }
    other = { level = 'warn', check-cfg = [] }
    [workspace.package]
    badges = {}
    [workspace.lints.rust]
    unexpected_cfgs = { level = 'warn', check-cfg = [] }
";
const IN_CARGO: &str = "\
    package.metabuild (Cargo reads it with an unstable feature)
    package.replace
    workspace.package.badges (Cargo ignores it since 1.80)
    workspace.lints.rust.unexpected_cfgs.check-cfg (Cargo reads it since 1.80)
    dependencies.a.artifact (Cargo reads it with an unstable feature)
    dependencies.a.filename
    dependencies.b.public (Cargo reads it with an unstable feature)
    dependencies.b.version
    hints (Cargo reads it since 1.90)
    lib.doc-scrape-examples (Cargo reads it since 1.67)
    lints.rust.other.check-cfg
    lints.rust.unexpected_cfgs.check-cfg (Cargo reads it since 1.80)
    package.version.public
    profile.dev.dir-name (Cargo refuses it)
    project (Cargo reads it, but it is deprecated)
    replace (Cargo reads it, but it is deprecated)
    target.x.build_dependencies.c.base (Cargo reads it with an unstable feature)
";

#[test]
fn what_cargo_makes_of_unused_keys() {
    let sorted = |lines: Vec<String>| {
        let mut lines = lines;
        lines.sort();
        lines
    };
    let said = unused_keys(UNUSED.as_bytes()).unwrap().iter().map(ToString::to_string).collect();
    let due = IN_CARGO.lines().map(|line| format!("unused manifest key: {}", line.trim_start())).collect();
    assert_eq!(sorted(said), sorted(due));
}

/// A line for each of these.
fn lines<T: ToString>(all: &[T]) -> String {
    all.iter().map(|each| each.to_string() + "\n").collect()
}

#[test]
fn everything_is_found_in_order() {
    for (document, wanted) in DOCUMENTS {
        assert_eq!(lines(&findings(document.as_bytes()).unwrap()), *wanted, "{document}");
    }
}

fn path(steps: &[&str]) -> KeyPath {
    let step = |text: &&str| match text.parse() {
        Ok(index) => Step::Index(index),
        Err(_) => Step::Key(text.to_string()),
    };
    steps.iter().map(step).collect()
}

/// A key that Cargo does not know either.
fn unused(steps: &[&str]) -> UnusedKey {
    UnusedKey { path: path(steps), in_cargo: None, place: Place::default() }
}

fn fault(steps: &[&str], cause: Cause, choices: &[&str]) -> Fault {
    let choices = choices.iter().map(ToString::to_string).collect();
    Fault { path: path(steps), cause, choices, place: Place::default() }
}

/// Faults without their places.
fn without_places(faults: Vec<Fault>) -> Vec<Fault> {
    faults.into_iter().map(|fault| Fault { place: Place::default(), ..fault }).collect()
}

#[test]
fn each_part_of_a_finding() {
    let text = b"package.name = 'p'\npackage.authors = [true]\nx.y = 1\n[badges]\ngitlab = 1\n";
    let wrong = |steps: &[&str]| fault(steps, Cause::WrongKind, &[]);
    let at = |value, key, header| Place { value, key, header };
    let author = Fault { place: at(Some(38..42), None, None), ..wrong(&["package", "authors", "0"]) };
    let badge = Fault { place: at(Some(70..71), Some(61..67), Some(52..60)), ..wrong(&["badges", "gitlab"]) };
    let key = UnusedKey { place: at(None, Some(44..45), None), ..unused(&["x"]) };
    let all = [Finding::Fault(author.clone()), Finding::Ignored(badge.clone()), Finding::Unused(key.clone())];
    assert_eq!(findings(text).unwrap(), all);
    assert_eq!(faults(text).unwrap(), [author]);
    assert_eq!(ignored(text).unwrap(), [badge]);
    assert_eq!(unused_keys(text).unwrap(), [key]);
    assert_eq!(path(&[]).to_string(), "(top)");
}

/// The words of each choice are those of `docs/KEYS.md`, wherever it stands.
#[test]
fn a_text_that_is_not_a_choice_has_the_choices() {
    let text = b"[package]\nname = 'p'\nedition = '2020'\nresolver = ''\n[workspace.package]\nedition = ''\n[[bin]]\n\
                 edition = '2015 '\n[lints.rust]\na = 'x'\nb = { level = 'Warn' }\n[profile.dev]\nstrip = 'all'\n\
                 [badges.maintenance]\nstatus = 'new'";
    let (editions, levels) = (["2015", "2018", "2021", "2024"], ["forbid", "deny", "warn", "allow"]);
    let wanted: [(&[&str], &[&str]); 7] = [
        (&["package", "edition"], &editions),
        (&["package", "resolver"], &["1", "2", "3"]),
        (&["workspace", "package", "edition"], &editions),
        (&["bin", "0", "edition"], &editions),
        (&["profile", "dev", "strip"], &["none", "symbols", "debuginfo"]),
        (&["lints", "rust", "a"], &levels),
        (&["lints", "rust", "b", "level"], &levels),
    ];
    let wanted = wanted.map(|(steps, choices)| fault(steps, Cause::NotAChoice, choices));
    assert_eq!(without_places(faults(text).unwrap()), wanted);
    let words =
        ["none", "actively-developed", "passively-maintained", "as-is", "experimental", "looking-for-maintainer"];
    let status = [&words[..], &["deprecated"]].concat();
    let wanted = fault(&["badges", "maintenance", "status"], Cause::NotAChoice, &status);
    assert_eq!(without_places(ignored(text).unwrap()), [wanted]);
}

/// What is found takes no more than some times the document, however long the keys above it are, and however many.
#[test]
fn what_is_found_is_no_longer_than_some_times_the_document() {
    let long = "k".repeat(20_000);
    let many: String = (0..20_000).map(|number| format!("a{number} = 1\n")).collect();
    let text = format!("package.name = 'p'\n[target.{long}]\n{many}");
    let found = AtMost(5 * text.len()).findings(text.as_bytes()).unwrap();
    let keys = unused_keys(text.as_bytes()).unwrap();
    assert_eq!((found.len(), keys.len()), (20_000, 20_000));
    let keys: Vec<_> = keys.into_iter().map(|key| key.path).collect();
    assert!(keys.is_sorted() && keys.iter().all(|key| std::ptr::eq(key.steps()[1], keys[0].steps()[1])));
    assert_eq!(keys[0], path(&["target", &long, "a0"]));

    let floats = "0.5, ".repeat(20_000);
    let text =
        format!("[package]\nname = 'p'\n[profile.a.package{}]\na{} = [{floats}]", ".a".repeat(75), ".a".repeat(23));
    let found = AtMost(10 * text.len()).findings(text.as_bytes()).unwrap();
    assert_eq!((found.len(), faults(text.as_bytes()).unwrap().len()), (20_000, 20_000));
    let Some(Finding::Fault(last)) = found.last() else { panic!() };
    assert_eq!((last.path.steps().len(), last.cause), (103, Cause::HoldsFloat));
    assert!(last.to_string().ends_with(".a.a.a[19999]`: expected a value without a float"));
}

/// Each refusal is that of the other calls.
#[test]
fn what_is_no_document_is_refused() {
    assert_eq!(findings(b"\xff"), Err(Refusal::Utf8(Part::Manifest)));
    assert!(matches!(findings(b"[package"), Err(Refusal::Toml { part: Part::Manifest, .. })));
    let deep = format!("a = {}", "[".repeat(510));
    assert_eq!(findings(deep.as_bytes()), Err(Refusal::TooDeep(Part::Manifest)));
    for text in [&b"\xff"[..], b"[package\nname = 1", deep.as_bytes()] {
        let wanted = Manifest::from_slice(text).unwrap_err().to_string();
        let said = [faults(text).err(), ignored(text).err(), unused_keys(text).err()];
        assert_eq!(said.map(|error| error.unwrap().to_string()), [(); 3].map(|()| wanted.clone()));
    }
}

#[test]
fn the_bound_is_that_on_the_tagged_bytes() {
    // 7 2 7 1 7 3 2 3 1 4 `name` 7 1 7 2 2 0 2 2 7 1 7 3 7 0 7 0 7 0
    assert_eq!(AtMost(32).findings(b""), findings(b""));
    assert_eq!(AtMost(31).findings(b""), Err(Refusal::TooLong));
    let many: String = (0..1_000).map(|number| format!("{number} = 1\n")).collect();
    assert_eq!(unused_keys(format!("name = 'p'\n{many}").as_bytes()).unwrap().len(), 1_000);
}

/// A float in metadata is no fault, and is kept.
#[test]
fn a_float_in_metadata() {
    for header in ["", "[package]", "[project]"] {
        let text = format!("{header}\nname = 'p'\nmetadata = [{{ a = 0.5 }}]\n");
        assert_eq!(findings(text.as_bytes()).unwrap(), []);
        assert!(text.parse::<Manifest>().is_ok());
    }
    let text = b"package.name = 'p'\n[workspace]\nmetadata = inf\n[profile.metadata]\ndebug = 0.5";
    assert_eq!(
        lines(&faults(text).unwrap()),
        "invalid type for `profile.metadata.debug`: expected a value without a float\n"
    );
}

/// There are faults exactly where a text is refused, and the first one is that with which it is refused. Where there is none,
/// what is written has nothing that is ignored, and no key that nothing reads.
fn agrees_with_reading(text: &str) -> bool {
    let all = match faults(text.as_bytes()) {
        Ok(all) => all,
        Err(_) => {
            assert!(text.parse::<Manifest>().is_err());
            return false;
        }
    };
    match text.parse::<Manifest>() {
        Ok(manifest) => {
            assert_eq!(all, [], "{text}");
            let written = manifest.to_toml_string().unwrap();
            let again = findings(written.as_bytes()).unwrap();
            assert_eq!(again, [], "{written}");
            assert!(written.parse::<Manifest>().is_ok(), "{written}");
        }
        Err(Error::Parse(error)) => {
            let first = all.first().unwrap_or_else(|| panic!("no fault of {text}"));
            let said = (Some(first.cause), Some(first.path.to_string()));
            assert_eq!(said, (error.cause(), error.key_path().map(ToOwned::to_owned)), "{text}");
        }
        Err(other) => panic!("{other}"),
    }
    !all.is_empty()
}

#[test]
fn faults_are_those_of_reading() {
    let inputs = ["manifests.jsonl", "completions.jsonl"].into_iter().flat_map(stored::lines);
    let texts: Vec<String> = inputs
        .flat_map(|line| [stored::strings(&line, "input"), stored::strings(&line, "manifest")].concat())
        .collect();
    let refused = texts.iter().filter(|text| agrees_with_reading(text)).count();
    assert!(texts.is_empty() || refused > 50, "{refused}");
    for (document, _) in DOCUMENTS {
        agrees_with_reading(document);
    }
}
