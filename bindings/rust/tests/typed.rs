//! Typed manifests: what is read, written and asked.

mod stored;

use cargo_manifest::{canonical, Badges, Cause, Date, Datetime, Dependency, DependencyDetail, Edition, Error};
use cargo_manifest::{
    InheritedDependencyDetail, Lint, LintConfig, LintLevel, Maintenance, MaintenanceStatus, Manifest,
};
use cargo_manifest::{
    MaybeInherited, MaybeInheritedLintsSet, Package, ParseError, Product, Profile, Profiles, Publish,
};
use cargo_manifest::{Resolver, StringOrBool, StripSetting, Target, True, Value, Workspace, WorkspacePackage};
use std::collections::BTreeMap;
use std::io;

/// The manifests that the stored inputs are, with the inputs.
fn manifests() -> Vec<(String, Manifest)> {
    let inputs = stored::lines("manifests.jsonl").into_iter().flat_map(|line| stored::strings(&line, "input"));
    inputs.filter_map(|input| input.parse().ok().map(|manifest| (input, manifest))).collect()
}

#[test]
fn each_stored_manifest_is_written_and_read_back() {
    let all = manifests();
    assert!(all.is_empty() || all.len() > 250, "{}", all.len());
    for (input, manifest) in all {
        let text = manifest.to_toml_string().unwrap();
        assert_eq!(text, canonical(input.as_bytes()).unwrap());
        assert_eq!(text.parse::<Manifest>().unwrap(), manifest, "{input}");
        let value = manifest.to_value().unwrap();
        assert_eq!(value, cargo_manifest::calls::table(input.as_bytes()).unwrap());
        assert_eq!(Manifest::from_value(value).unwrap(), manifest, "{input}");
    }
}

/// The reader of values, by its second spellings, free keys and old headers, next to the proved one.
#[test]
fn a_document_as_a_value_is_the_same_manifest() {
    let text = "name = 'a'\n[dev_dependencies]\nb = { version = '1', default_features = false, free = 1 }\n\
                [profile.own]\nopt_level = 's'\nstrip = 'symbols'\n[badges]\ncodecov = 1\nmaintenance = {}\n\
                [lints.clippy]\nall = { level = 'deny' }\n[[bin]]\nproc_macro = true\n[metadata]\nk = [{}]\n";
    let table = |members: &[(&str, Value)]| Value::from_iter(members.iter().cloned());
    let texts = |text: &str| Value::from(text);
    let value = table(&[
        ("name", texts("a")),
        (
            "dev_dependencies",
            table(&[("b", table(&[("version", texts("1")), ("default_features", false.into()), ("free", 1.into())]))]),
        ),
        ("profile", table(&[("own", table(&[("opt_level", texts("s")), ("strip", texts("symbols"))]))])),
        ("badges", table(&[("codecov", 1.into()), ("maintenance", table(&[]))])),
        ("lints", table(&[("clippy", table(&[("all", table(&[("level", texts("deny"))]))]))])),
        ("bin", vec![table(&[("proc_macro", true.into())])].into()),
        ("metadata", table(&[("k", vec![table(&[])].into())])),
    ]);
    assert_eq!(Manifest::from_value(value).unwrap(), text.parse().unwrap());
}

/// Numbers that look random, the same each time.
struct Numbers(u64);

impl Numbers {
    fn below(&mut self, end: usize) -> usize {
        self.0 ^= self.0 << 13;
        self.0 ^= self.0 >> 7;
        self.0 ^= self.0 << 17;
        (self.0 % end as u64) as usize
    }

    fn text(&mut self) -> String {
        ["", "a", "1.2", "é\u{80}\u{7f}", "a\"b\\c\n\t\r\u{0}", "'''", "\"\"\"", "[package]\n"][self.below(8)].into()
    }

    fn texts(&mut self) -> Vec<String> {
        (0..self.below(3)).map(|_| self.text()).collect()
    }

    fn dependency(&mut self) -> Dependency {
        let features = self.texts();
        match self.below(3) {
            0 => Dependency::Simple(self.text()),
            1 => Dependency::Inherited(InheritedDependencyDetail {
                features: Some(features),
                default_features: Some(true),
                ..Default::default()
            }),
            _ => Dependency::Detailed(DependencyDetail {
                git: Some(self.text()),
                features: Some(features),
                ..Default::default()
            }),
        }
    }

    fn value(&mut self) -> Value {
        match self.below(7) {
            0 => self.text().into(),
            1 => i64::MIN.into(),
            2 => Value::Array(vec![i64::MAX.into(), self.value()]),
            3 => true.into(),
            4 => Value::from_iter([(self.text(), self.value())]),
            5 => Datetime { date: Some(Date { year: 1979, month: 5, day: 27 }), time: None, offset: None }.into(),
            _ => Value::Array(vec![]),
        }
    }

    fn workspace(&mut self) -> Workspace {
        let readme = Some(StringOrBool::String(self.text()));
        Workspace {
            members: self.texts(),
            default_members: None,
            exclude: Some(self.texts()),
            resolver: Some(Resolver::V3),
            dependencies: None,
            package: Some(WorkspacePackage { readme, ..Default::default() }),
            metadata: Some(self.value()),
            lints: None,
        }
    }

    fn profile(&mut self) -> Profile {
        let text = "[profile.dev]\n[package]\nname = 'a'\n".parse::<Manifest>().unwrap();
        let mut profile = text.profile.unwrap().dev.unwrap();
        profile.debug = Some(self.value());
        profile.codegen_units = Some(65_535);
        profile.strip =
            Some([StripSetting::None, StripSetting::Debuginfo, StripSetting::Symbols][self.below(3)].clone());
        profile.package.insert(self.text(), self.value());
        profile
    }
}

/// Changes one field.
fn change(manifest: &mut Manifest, numbers: &mut Numbers) {
    let package = manifest.package.get_or_insert_with(|| Package::new("a".into(), "1.0.0".into()));
    match numbers.below(16) {
        0 => package.name = numbers.text(),
        1 => package.edition = Some(MaybeInherited::Local(Edition::E2024)),
        2 => package.authors = Some(MaybeInherited::inherited()),
        3 => package.metadata = Some(numbers.value()),
        4 => package.publish = Some(MaybeInherited::Local(Publish::Registry(numbers.texts()))),
        5 => package.readme = Some(MaybeInherited::Local(StringOrBool::Bool(false))),
        6 => manifest.bin.push(Product { path: Some(numbers.text()), harness: false, ..Product::default() }),
        7 => manifest.lib = Some(Product { crate_type: Some(numbers.texts()), proc_macro: true, ..Product::default() }),
        8 => drop(manifest.features.get_or_insert_with(BTreeMap::new).insert(numbers.text(), numbers.texts())),
        9 => {
            let maintenance = Maintenance { status: MaintenanceStatus::LookingForMaintainer };
            manifest.badges = Some(Badges { maintenance, ..Badges::default() });
        }
        other => change_deep(manifest, other, numbers),
    }
}

/// The same for a field with tables in it.
fn change_deep(manifest: &mut Manifest, which: usize, numbers: &mut Numbers) {
    match which {
        10 => manifest.workspace = Some(numbers.workspace()),
        11 => {
            let profiles = manifest.profile.get_or_insert_with(Profiles::default);
            profiles.custom.insert(numbers.text(), numbers.profile());
        }
        12 => {
            let lint = Lint::Config(LintConfig { level: LintLevel::Forbid, priority: -128 });
            let lints = BTreeMap::from([(numbers.text(), BTreeMap::from([(numbers.text(), lint)]))]);
            manifest.lints = Some(MaybeInheritedLintsSet { workspace: Some(True), lints });
        }
        13 => {
            let dependencies = BTreeMap::from([(numbers.text(), numbers.dependency())]);
            let (dev_dependencies, build_dependencies) = (BTreeMap::new(), BTreeMap::new());
            let target = Target { dependencies, dev_dependencies, build_dependencies };
            manifest.target.get_or_insert_with(BTreeMap::new).insert(numbers.text(), target);
        }
        14 => {
            let dependencies = manifest.dependencies.get_or_insert_with(BTreeMap::new);
            dependencies.insert(numbers.text(), numbers.dependency());
        }
        _ => {
            let sources = manifest.patch.get_or_insert_with(BTreeMap::new);
            sources.entry(numbers.text()).or_default().insert(numbers.text(), numbers.dependency());
        }
    }
}

#[test]
fn a_manifest_that_is_changed_is_written_and_read_back() {
    let mut numbers = Numbers(0x9e37_79b9_7f4a_7c15);
    for _ in 0..300 {
        let mut manifest = Manifest::default();
        for _ in 0..=numbers.below(6) {
            change(&mut manifest, &mut numbers);
            let text = manifest.to_toml_string().unwrap();
            assert_eq!(text.parse::<Manifest>().unwrap(), manifest, "{text}");
        }
    }
}

/// What is refused of a manifest that is changed.
fn unwritten(change: impl Fn(&mut Manifest)) -> String {
    let mut manifest: Manifest = "[package]\nname = 'a'\n[profile.dev]\n[lints.rust]\n".parse().unwrap();
    change(&mut manifest);
    match manifest.to_toml_string() {
        Err(Error::Other(text)) => text,
        other => panic!("{other:?}"),
    }
}

#[test]
fn what_no_table_holds_is_not_written() {
    for name in ["release", "dev", "test", "bench", "doc"] {
        let text = unwritten(|manifest| {
            let profiles = manifest.profile.as_mut().unwrap();
            let dev = profiles.dev.clone().unwrap();
            profiles.custom.insert(name.into(), dev);
        });
        assert!(text.contains(&format!("`{name}`")), "{text}");
    }
    let tool =
        unwritten(|manifest| drop(manifest.lints.as_mut().unwrap().lints.insert("workspace".into(), BTreeMap::new())));
    assert!(tool.contains("`workspace`"), "{tool}");
    let debug =
        |manifest: &mut Manifest, value| manifest.profile.as_mut().unwrap().dev.as_mut().unwrap().debug = Some(value);
    assert!(unwritten(|manifest| debug(manifest, vec![1.5].into())).contains("float"));
    let thirteenth = Datetime { date: Some(Date { year: 1979, month: 13, day: 1 }), time: None, offset: None };
    assert!(unwritten(|manifest| debug(manifest, thirteenth.into())).contains("date-time"));
}

#[test]
fn metadata_with_a_float_is_written_after_the_text() {
    let mut manifest: Manifest = "[package]\nname = 'a'\n[workspace]\n".parse().unwrap();
    let metadata = [("x", Value::from(0.5)), ("y z", vec![f64::INFINITY, -0.0].into()), ("n", f64::NAN.into())];
    manifest.package.as_mut().unwrap().metadata = Some(Value::from_iter(metadata));
    manifest.workspace.as_mut().unwrap().metadata = Some(Value::Float(1e300));
    let wanted = "[package]\nname = \"a\"\n\n[workspace]\nmetadata = 1e300\nmembers = []\n\n\
                  [package.metadata]\nn = nan\nx = 0.5\n\"y z\" = [inf, -0.0]\n";
    assert_eq!(manifest.to_toml_string().unwrap(), wanted);
}

fn parse_error(text: &[u8]) -> ParseError {
    match Manifest::from_slice(text) {
        Err(Error::Parse(error)) => error,
        other => panic!("{other:?}"),
    }
}

#[test]
fn errors_say_what_is_wrong_where_and_what_is_expected() {
    for (text, message) in [
        ("", "missing field `name`"),
        ("[project]\nname = 1", "invalid type for `project.name`: expected a string"),
        ("[package]\n", "missing field `package.name`"),
        ("[package]\nname = 'a'\nedition = '2022'", "`package.edition` is none of `2015`, `2018`, `2021`, `2024`"),
        (
            "[package]\nname = 'a'\n[profile.x]\ncodegen-units = 65536",
            "invalid value for `profile.x.codegen-units`: expected an integer from 0 to 65535",
        ),
        (
            "[package]\nname = 'a'\n[profile.x]\ndebug = [1.5]",
            "invalid type for `profile.x.debug[0]`: expected a value without a float",
        ),
        ("[package]\nname = 'a'\n[lints]\nworkspace = false", "invalid value for `lints.workspace`: expected `true`"),
        (
            "[package]\nname = 'a'\n[target.'cfg(unix)'.dependencies]\n'b c' = 1",
            "invalid type for `target.\"cfg(unix)\".dependencies.\"b c\"`: expected a string or a table",
        ),
        (
            "[package]\nname = 'a'\n[lib]\nproc-macro = true\nproc_macro = true",
            "`lib.proc-macro` is given twice, as `proc-macro` and as `proc_macro`",
        ),
        ("[package]\nname = 'a'\nreadme = 1", "invalid type for `package.readme`: expected a string or a boolean"),
        ("[package]\nname = 'a'\npublish = [1]", "invalid type for `package.publish[0]`: expected a string"),
    ] {
        let error = parse_error(text.as_bytes());
        assert_eq!(error.to_string(), message);
        assert_eq!((error.span(), error.line_column(text.as_bytes())), (None, None));
    }
    let error = parse_error(b"[package]\nname = 'a'\nedition = 1");
    assert_eq!((error.cause(), error.key_path()), (Some(Cause::WrongKind), Some("package.edition")));
}

#[test]
fn what_nests_too_deep() {
    let text = format!("[package]\nname = 'p'\nmetadata = {}", "[".repeat(600));
    let error = parse_error(text.as_bytes());
    assert_eq!(error.to_string(), "nested too deep: the limit is 128 arrays and tables within one another");
    assert_eq!((error.span(), error.line_column(text.as_bytes())), (None, None));
    assert_eq!((error.key_path(), error.cause()), (None, None));
    // what is made of values is refused where it is written
    let with = |metadata| {
        let mut manifest: Manifest = "[package]\nname = 'p'\nedition = '2021'\n".parse().unwrap();
        manifest.package.as_mut().unwrap().metadata = Some(metadata);
        manifest
    };
    let is_too_deep = |error: &Error| matches!(error, Error::Other(text) if text.starts_with("nested too deep: "));
    for inner in [Value::from(1), Value::from(1.5)] {
        let around = |count: usize| (0..count).fold(inner.clone(), |value, _| vec![value].into());
        // (that of the package and 127 arrays)
        assert!(with(around(127)).to_toml_string().is_ok());
        assert!(is_too_deep(&with(around(128)).to_toml_string().unwrap_err()));
    }
}

#[test]
fn errors_of_other_kinds() {
    let text = "[package]\nname = 'é' =\n".as_bytes();
    let error = parse_error(text);
    assert_eq!((error.line_column(text), error.key_path(), error.cause()), (Some((2, 12)), None, None));
    assert!(error.message().ends_with(" at line 2 column 12"), "{error}");
    assert!(matches!(Manifest::from_slice(b"a\xff"), Err(Error::Utf8(error)) if error.valid_up_to() == 1));
    assert!(
        matches!(Manifest::from_path("/no/such/Cargo.toml"), Err(Error::Io(error)) if error.kind() == io::ErrorKind::NotFound)
    );
    let copy = Error::Io(io::Error::new(io::ErrorKind::TimedOut, "late")).clone();
    assert!(matches!(&copy, Error::Io(error) if error.kind() == io::ErrorKind::TimedOut));
    assert_eq!(copy.to_string(), "late");
}

#[test]
fn what_is_shared_between_threads() {
    fn goes<T: Send + Sync + 'static>() {}
    fn is_error<E: std::error::Error + Send + Sync + Clone + 'static>() {}
    goes::<Manifest>();
    goes::<Value>();
    is_error::<Error>();
    std::thread::scope(|scope| {
        for _ in 0..4 {
            scope.spawn(|| {
                for (input, manifest) in manifests().into_iter().take(40) {
                    assert_eq!(manifest.to_toml_string().unwrap(), canonical(input.as_bytes()).unwrap());
                }
            });
        }
    });
}
