//! The feature `serde`: what every type is read from and written as, in JSON and by the crate `toml`.
#![cfg(all(feature = "serde", feature = "toml"))]

use cargo_manifest::{
    Badge, Badges, Dependency, DependencyDetail, Edition, Lint, LintLevel, Manifest, MaybeInherited, Package,
};
use cargo_manifest::{Product, Profile, Profiles, Publish, StripSetting, True, Value, Workspace, WorkspacePackage};
use serde_json::json;
use std::fs;

/// The texts of the stored answers. There are none where the crate stands without the repository.
fn inputs() -> Vec<String> {
    let path = concat!(env!("CARGO_MANIFEST_DIR"), "/../../tests/rust-answers/manifests.jsonl");
    let Ok(lines) = fs::read_to_string(path) else { return Vec::new() };
    lines
        .lines()
        .map(|line| serde_json::from_str::<serde_json::Value>(line).unwrap()["input"].as_str().unwrap().into())
        .collect()
}

#[test]
fn each_stored_manifest_is_read_back_from_json_and_from_a_value() {
    let mut read = 0;
    for input in inputs() {
        let Ok(manifest) = Manifest::from_slice(input.as_bytes()) else { continue };
        let json = serde_json::to_string(&manifest).unwrap();
        let value = Value::try_from(&manifest).unwrap();
        assert_eq!(value, manifest.to_value().unwrap());
        assert_eq!(Manifest::from_value(value.clone()).unwrap(), manifest);
        assert_eq!(value.try_into::<Manifest>().unwrap(), manifest);
        let holds_datetime = json.contains("$__toml_private_datetime");
        assert!(holds_datetime || serde_json::from_str::<Manifest>(&json).unwrap() == manifest, "{json}");
        read += 1;
    }
    assert!(read == 0 || read > 250, "{read}");
}

#[test]
fn a_text_that_is_read_by_toml_is_the_same_manifest() {
    let mut read = 0;
    for input in inputs() {
        let Ok(manifest) = Manifest::from_slice(input.as_bytes()) else { continue };
        let Ok(by_toml) = toml::from_str::<Manifest>(&input) else { continue };
        if manifest.package.is_some() == by_toml.package.is_some() {
            assert_eq!(by_toml, manifest, "{input}");
            read += 1;
        }
    }
    assert!(read == 0 || read > 200, "{read}");
}

#[test]
fn rows_in_json() {
    let dependency: Dependency = serde_json::from_value(json!({ "version": "1", "default_features": false })).unwrap();
    let detail = DependencyDetail { version: Some("1".into()), default_features: Some(false), ..Default::default() };
    assert_eq!(dependency, Dependency::Detailed(detail));
    let written = json!({ "version": "1", "default-features": false, "registry-index": null });
    assert_eq!(serde_json::to_value(&dependency).unwrap(), written);
    let inherited: MaybeInherited<Edition> = serde_json::from_value(json!({ "workspace": true })).unwrap();
    assert_eq!(inherited, MaybeInherited::Inherited { workspace: True });
    assert_eq!(serde_json::to_value(&inherited).unwrap(), json!({ "workspace": true }));
    let local: MaybeInherited<Edition> = serde_json::from_value(json!("2021")).unwrap();
    assert_eq!(local, MaybeInherited::Local(Edition::E2021));
    assert_eq!(serde_json::from_value::<Lint>(json!("deny")).unwrap(), Lint::Level(LintLevel::Deny));
    assert_eq!(serde_json::from_value::<Publish>(json!(["mine"])).unwrap(), Publish::Registry(vec!["mine".into()]));
    assert_eq!(serde_json::from_value::<StripSetting>(json!("symbols")).unwrap(), StripSetting::Symbols);
    assert_eq!(serde_json::to_value(StripSetting::Symbols).unwrap(), json!(true));
}

/// The keys of an object that are `null`, in order.
fn nulls(value: impl serde::Serialize) -> Vec<String> {
    let value = serde_json::to_value(value).unwrap();
    let members = value.as_object().unwrap().iter();
    members.filter(|(_, value)| value.is_null()).map(|(key, _)| key.clone()).collect()
}

/// The options that the crate `cargo-manifest` 0.20.0 has no `skip_serializing_if` for.
#[test]
fn what_is_null_in_json() {
    let badge: Badge = serde_json::from_value(json!({ "repository": "r" })).unwrap();
    assert_eq!(nulls(badge), ["id", "project-name", "service"]);
    let of_badges = [
        "appveyor",
        "circle-ci",
        "codecov",
        "coveralls",
        "gitlab",
        "is-it-maintained-issue-resolution",
        "is-it-maintained-open-issues",
        "travis-ci",
    ];
    assert_eq!(nulls(Badges::default()), of_badges);
    assert_eq!(nulls(DependencyDetail::default()), ["registry-index"]);
    assert_eq!(nulls(Package::<Value>::new("a".into(), "1.0.0".into())), ["rust-version"]);
    assert_eq!(nulls(Product { edition: None, ..Product::default() }), ["edition", "name", "path"]);
    assert_eq!(nulls(Profiles::default()), ["bench", "dev", "doc", "release", "test"]);
    let profile: Profile = serde_json::from_value(json!({})).unwrap();
    let of_profile = [
        "build-override",
        "codegen-units",
        "debug",
        "debug-assertions",
        "incremental",
        "inherits",
        "lto",
        "opt-level",
        "overflow-checks",
        "panic",
        "rpath",
        "split-debuginfo",
        "strip",
    ];
    assert_eq!(nulls(profile), of_profile);
    assert_eq!(nulls(WorkspacePackage::default()), ["authors", "rust-version", "version"]);
    let manifest: Manifest = Manifest::default();
    assert!(nulls(Workspace::<u8>::default()).is_empty() && nulls(manifest).is_empty());
}

#[test]
fn a_null_is_a_key_that_is_absent() {
    let profile: Profile = serde_json::from_value(json!({ "rpath": null, "debug": 1 })).unwrap();
    assert_eq!((profile.rpath, profile.debug), (None, Some(Value::Integer(1))));
}

#[test]
fn a_misfit_says_where() {
    let of = |value: serde_json::Value| serde_json::from_value::<Manifest>(value).unwrap_err().to_string();
    let wrong = of(json!({ "package": { "name": "a", "authors": [true] } }));
    assert_eq!(wrong, "invalid type for `package.authors[0]`: expected a string");
    let both = of(json!({ "dependencies": { "a b": { "default-features": true, "default_features": true } } }));
    assert_eq!(
        both,
        "`dependencies.\"a b\".default-features` is given twice, as `default-features` and as `default_features`"
    );
    assert_eq!(of(json!({ "package": {} })), "missing field `package.name`");
    let choice = of(json!({ "package": { "name": "a", "resolver": "4" } }));
    assert_eq!(choice, "`package.resolver` is none of `1`, `2`, `3`");
}
