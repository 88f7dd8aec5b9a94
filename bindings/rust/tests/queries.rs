//! What single values are asked.

use cargo_manifest::{Dependency, DependencyDetail, Edition, InheritedDependencyDetail, Lint, LintConfig, LintLevel};
use cargo_manifest::{Manifest, MaybeInherited, MaybeInheritedLintsSet, Package, Product, Publish, Resolver};
use cargo_manifest::{StripSetting, Target, True, Value, Workspace};
use std::collections::{BTreeMap, HashMap};

/// The dependency of a key.
fn dependency(text: &str) -> Dependency {
    let manifest: Manifest = format!("[package]\nname = 'p'\n[dependencies]\nd = {text}\n").parse().unwrap();
    manifest.dependencies.unwrap()["d"].clone()
}

#[test]
fn dependencies() {
    let simple = dependency("'1.2'");
    assert_eq!((simple.req(), simple.req_features().len(), simple.optional()), ("1.2", 0, false));
    assert_eq!((simple.detail(), simple.package(), simple.git(), simple.is_crates_io()), (None, None, None, true));
    let detailed = dependency("{ git = 'https://x', package = 'e', features = ['f'], optional = true }");
    assert_eq!((detailed.req(), detailed.req_features(), detailed.optional()), ("*", &["f".to_string()][..], true));
    assert_eq!((detailed.package(), detailed.git(), detailed.is_crates_io()), (Some("e"), Some("https://x"), false));
    assert_eq!(detailed.detail().unwrap().version, None);
    let inherited = dependency("{ workspace = true, features = ['g'], optional = true, default-features = false }");
    assert_eq!((inherited.req(), inherited.req_features(), inherited.optional()), ("*", &["g".to_string()][..], true));
    assert_eq!((inherited.detail(), inherited.package(), inherited.is_crates_io()), (None, None, false));
    let of_workspace = InheritedDependencyDetail {
        workspace: True,
        features: Some(vec!["g".into()]),
        optional: Some(true),
        default_features: Some(false),
    };
    assert_eq!(inherited, Dependency::Inherited(of_workspace));
}

#[test]
fn where_a_dependency_comes_from() {
    for key in ["registry", "registry-index", "path", "git", "branch", "tag", "rev"] {
        assert!(!dependency(&format!("{{ version = '1', {key} = 'x' }}")).is_crates_io(), "{key}");
    }
    assert!(dependency("{ version = '1', package = 'e', features = [], optional = true }").is_crates_io());
}

#[test]
fn a_dependency_is_simplified() {
    assert_eq!(dependency("{ version = '1' }").simplify(), Dependency::Simple("1".into()));
    assert_eq!(dependency("{ version = '1', free = 2 }").simplify(), Dependency::Simple("1".into()));
    assert_eq!(dependency("'1'").simplify(), Dependency::Simple("1".into()));
    for text in ["{ version = '1', optional = false }", "{ version = '1', features = [] }", "{}", "{ path = 'p' }"] {
        assert_eq!(dependency(text).simplify(), dependency(text));
    }
    assert_eq!(dependency("{ workspace = true }").simplify(), Dependency::Inherited(Default::default()));
    assert_eq!(dependency("{}"), Dependency::Detailed(DependencyDetail::default()));
}

#[test]
fn what_may_be_inherited() {
    const INHERITED: MaybeInherited<u8> = MaybeInherited::Inherited { workspace: True };
    const BY_REFERENCE: MaybeInherited<&u8> = INHERITED.as_ref();
    assert_eq!(BY_REFERENCE, MaybeInherited::inherited());
    assert_eq!(INHERITED.as_local(), None);
    assert_eq!(MaybeInherited::Local(1).as_ref(), MaybeInherited::Local(&1));
    assert_eq!(MaybeInherited::Local(1).as_local(), Some(1));
}

#[test]
fn a_package() {
    let mut package: Package = Package::new("p".into(), "1.2.3".into());
    assert_eq!((package.name.as_str(), package.version()), ("p", MaybeInherited::Local("1.2.3")));
    package.version = None;
    assert_eq!(package.version(), MaybeInherited::Local("0.0.0"));
    package.version = Some(MaybeInherited::inherited());
    assert_eq!(package.version(), MaybeInherited::inherited());
    let text = "[package]\nname = \"p\"\nversion.workspace = true\n";
    let manifest: Manifest = Manifest { package: Some(package), ..Manifest::default() };
    assert_eq!(manifest, text.parse().unwrap());
}

#[test]
fn publishing() {
    assert_eq!(Publish::default(), Publish::Flag(true));
    for (publish, is_to_any) in [
        (Publish::Flag(true), true),
        (Publish::Flag(false), false),
        (Publish::Registry(vec![]), false),
        (Publish::Registry(vec!["a".into()]), true),
    ] {
        assert_eq!((publish == is_to_any, is_to_any == publish, publish == !is_to_any), (true, true, false));
    }
}

#[test]
fn words() {
    let editions = [Edition::E2015, Edition::E2018, Edition::E2021, Edition::E2024];
    assert_eq!(editions.map(|edition| edition.as_str()), ["2015", "2018", "2021", "2024"]);
    let levels = [LintLevel::Forbid, LintLevel::Deny, LintLevel::Warn, LintLevel::Allow];
    assert_eq!(levels.map(|level| level.as_str()), ["forbid", "deny", "warn", "allow"]);
    assert_eq!((Edition::default(), Resolver::default()), (Edition::E2015, Resolver::V1));
}

#[test]
fn lints() {
    let config = Lint::Config(LintConfig { level: LintLevel::Warn, priority: -1 });
    assert_eq!((config.level(), config.priority()), (LintLevel::Warn, -1));
    assert_eq!((Lint::Level(LintLevel::Deny).level(), Lint::Level(LintLevel::Deny).priority()), (LintLevel::Deny, 0));
    let own = MaybeInheritedLintsSet { workspace: None, lints: BTreeMap::new() };
    assert!(!own.is_inherited());
    assert!(MaybeInheritedLintsSet { workspace: Some(True), ..own }.is_inherited());
}

#[test]
fn strip() {
    let strip = |value: Value| StripSetting::try_from(value).map_err(|error| error.to_string());
    assert_eq!(strip(false.into()), Ok(StripSetting::None));
    assert_eq!(strip(true.into()), Ok(StripSetting::Symbols));
    assert_eq!(strip("debuginfo".into()), Ok(StripSetting::Debuginfo));
    assert_eq!(strip("none".into()), Ok(StripSetting::None));
    assert_eq!(strip("symbols".into()), Ok(StripSetting::Symbols));
    assert_eq!(strip("all".into()).unwrap_err(), "`all` is none of `none`, `symbols`, `debuginfo`");
    assert_eq!(strip("".into()).unwrap_err(), "`` is none of `none`, `symbols`, `debuginfo`");
    let wanted = "invalid type for `strip`: expected a boolean, or one of the strings `none`, `symbols`, `debuginfo`";
    assert_eq!(strip(1.into()).unwrap_err(), wanted);
    assert!(StripSetting::None < StripSetting::Debuginfo && StripSetting::Debuginfo < StripSetting::Symbols);
}

/// docs/KEYS.md, Defaults.
#[test]
fn defaults() {
    let product = Product::default();
    assert_eq!([product.test, product.doctest, product.bench, product.doc, product.harness], [true; 5]);
    assert_eq!(([product.plugin, product.proc_macro], product.edition), ([false; 2], Some(Edition::E2015)));
    assert_eq!(
        (product.path, product.name, product.crate_type, product.required_features.len()),
        (None, None, None, 0)
    );
    let workspace: Workspace<()> = Workspace::default();
    assert_eq!((workspace.members.len(), workspace.resolver), (0, None));
    let manifest: Manifest = Manifest::default();
    assert!(manifest.package.is_none() && manifest.workspace.is_none() && manifest.lib.is_none());
    let target: Manifest = "[package]\nname = 'p'\n[target.x]\n".parse().unwrap();
    let empty = Target {
        dependencies: BTreeMap::new(),
        dev_dependencies: BTreeMap::new(),
        build_dependencies: BTreeMap::new(),
    };
    assert_eq!(target.target.unwrap()["x"], empty);
}

#[test]
fn documents_as_values() {
    // (no manifest, and with a float)
    let text = "a = [0.5, 1979-05-27]\n[[b.c]]\nd = 'x'\n[[b.c]]\n[e]\n";
    let value: Value = text.parse().unwrap();
    assert_eq!((value["a"][0].as_float(), value["b"]["c"][0]["d"].as_str()), (Some(0.5), Some("x")));
    assert_eq!(
        (value["b"]["c"].as_array().map(Vec::len), value["e"].as_table().map(BTreeMap::len)),
        (Some(2), Some(0))
    );
    // (as `toml` 0.5 prints it)
    assert_eq!(value.to_string(), "a = [0.5, 1979-05-27]\n[[b.c]]\nd = \"x\"\n\n[[b.c]]\n\n[e]\n");
    assert_eq!("".parse(), Ok(Value::Table(BTreeMap::new())));

    let error = "a = 1\nb = \n".parse::<Value>().unwrap_err();
    assert_eq!((error.line_column(b"a = 1\nb = \n"), error.key_path()), (Some((2, 5)), None));
    let key = ["a"; 70].join(".");
    let error = format!("[{key}]\n{key} = 1\n").parse::<Value>().unwrap_err();
    assert_eq!((error.span(), error.key_path(), error.cause()), (None, None, None));
    assert!(error.message().contains("128"), "{error}");
}

#[test]
fn values_of_maps() {
    let table = Value::from(HashMap::from([("k", 1), ("j", 2)]));
    assert_eq!(table, Value::from(BTreeMap::from([("j".to_owned(), 2), ("k".to_owned(), 1)])));
    // tables that stand in no table of their own are printed in one line, which is read back
    let mixed = Value::from_iter([("a", vec![Value::from_iter([("x", 1)]), Value::from(2)])]);
    assert_eq!(mixed.to_string(), "a = [{ x = 1 }, 2]\n");
    assert_eq!(mixed.to_string().parse(), Ok(mixed));
}
