//! The features `serde` and `toml`: metadata of types of one's own, and values and errors of `toml`.
#![cfg(all(feature = "serde", feature = "toml"))]

use cargo_manifest::{Cause, DependencyDetail, Error, Manifest, Package, Value};
use serde::{Deserialize, Serialize};
use std::collections::BTreeMap;

#[derive(Debug, PartialEq, Deserialize, Serialize)]
struct Own {
    keep: Vec<u8>,
    #[serde(default, skip_serializing_if = "Option::is_none")]
    of: Option<Kind>,
}

#[derive(Debug, PartialEq, Deserialize, Serialize)]
#[serde(rename_all = "lowercase")]
enum Kind {
    Plain,
    Deep { depth: f32 },
}

#[test]
fn metadata_of_its_own_type() {
    let text = "[package]\nname = 'a'\n[package.metadata]\nkeep = [1, 2]\nof = 'plain'\n";
    let mut manifest = Manifest::<Own>::from_slice_with_metadata(text.as_bytes()).unwrap();
    let metadata = |manifest: &mut Manifest<Own>| manifest.package.as_mut().unwrap().metadata.take();
    let written = manifest.to_toml_string().unwrap();
    assert_eq!(written, "[package]\nname = \"a\"\n\n[package.metadata]\nkeep = [1, 2]\nof = \"plain\"\n");
    assert_eq!(metadata(&mut manifest), Some(Own { keep: vec![1, 2], of: Some(Kind::Plain) }));
}

#[test]
fn metadata_that_its_type_refuses() {
    let text = "[package]\nname = 'a'\n[package.metadata]\nkeep = [1, 300]\n";
    let Err(Error::Parse(error)) = Manifest::<Own>::from_slice_with_metadata(text.as_bytes()) else { panic!() };
    assert_eq!((error.cause(), error.key_path()), (Some(Cause::Metadata), Some("package.metadata")));
    assert!(error.message().starts_with("invalid metadata in `package.metadata`: "), "{error}");
    assert!(error.message().contains("300") && error.message().contains("`keep[1]`"), "{error}");
}

#[test]
fn a_float_is_written_behind_the_text() {
    let deep = Own { keep: vec![], of: Some(Kind::Deep { depth: 0.5 }) };
    let mut package: Package<Own> = Package::new("a".into(), "1.0.0".into());
    package.metadata = Some(deep);
    let manifest: Manifest<Own> = Manifest { package: Some(package), ..Manifest::default() };
    let text = manifest.to_toml_string().unwrap();
    let wanted = "[package]\nname = \"a\"\nversion = \"1.0.0\"\n\n[package.metadata]\nkeep = []\nof = { deep = { depth = 0.5 } }\n";
    assert_eq!(text, wanted);
    assert_eq!(toml::from_str::<Manifest<Own>>(&text).unwrap(), manifest);
}

const TEXT: &str = "a = 1979-05-27T07:32:00.5-07:00\nb = [1, 2.5, true, 'x']\nc = { d = 07:32:00 }\ne = 1979-05-27\n";

#[test]
fn values_of_toml() {
    let of_toml: toml::Value = toml::from_str(TEXT).unwrap();
    let value = Value::from(of_toml.clone());
    assert_eq!(value, TEXT.parse().unwrap());
    assert_eq!(toml::Value::from(value.clone()), of_toml);
    assert_eq!(toml::from_str::<Value>(&value.to_string()).unwrap(), value);
    assert_eq!(toml::from_str::<toml::Value>(&toml::to_string(&value).unwrap()).unwrap(), of_toml);
}

/// As with the versions of `toml` that no feature names.
#[test]
fn values_of_toml_by_serde() {
    let of_toml: toml::Value = toml::from_str(TEXT).unwrap();
    assert_eq!(Value::try_from(&of_toml).unwrap(), TEXT.parse().unwrap());
    // (some versions of `toml` make tables of date-times)
    let value: Value = "b = [1, 2.5, true, 'x']\n[c]\nd = -1\n".parse().unwrap();
    let of_toml: toml::Value = toml::from_str("c = { d = -1 }\nb = [1, 2.5, true, 'x']\n").unwrap();
    assert_eq!(toml::Value::try_from(&value).unwrap(), of_toml);
}

#[test]
fn what_is_nothing_is_no_key_of_toml() {
    let text = "[package]\nname = 'a'\n[lib]\nproc-macro = true\n[profile.dev]\nlto = true\n[badges.codecov]\nrepository = 'r'\n\
                branch = 'b'\n[workspace.package]\nedition = '2021'\n[dependencies]\nc = { path = '../c' }\n";
    let manifest: Manifest = text.parse().unwrap();
    let written = toml::to_string(&manifest).unwrap();
    assert!(
        !written.contains("null") && !written.contains("rust-version") && !written.contains("registry-index"),
        "{written}"
    );
    assert_eq!(toml::from_str::<Manifest>(&written).unwrap(), manifest);
    let value = toml::Value::try_from(&manifest).unwrap();
    assert_eq!(value["profile"], toml::from_str::<toml::Value>("dev = { lto = true, package = {} }").unwrap());
}

#[derive(Deserialize)]
struct More {
    #[serde(flatten)]
    detail: DependencyDetail,
    #[serde(flatten)]
    rest: BTreeMap<String, Value>,
}

/// A type that is flattened into another one takes its keys, by both spellings, and leaves the others.
#[test]
fn keys_of_a_flattened_type() {
    let more: More = toml::from_str("version = '1'\ndefault_features = false\nx = 1\n").unwrap();
    assert_eq!((more.detail.version.as_deref(), more.detail.default_features), (Some("1"), Some(false)));
    assert_eq!(more.rest, BTreeMap::from([("x".to_owned(), Value::Integer(1))]));
}

/// Errors of `toml` are the crate's errors, by `?`.
#[test]
fn errors_of_toml() {
    let read = |text: &str| -> Result<Manifest, Error> { Ok(toml::from_str(text)?) };
    let text = "[package]\nname = \n";
    let Err(Error::Parse(error)) = read(text) else { panic!() };
    let told = toml::from_str::<Manifest>(text).unwrap_err().to_string();
    assert_eq!(error.to_string(), told.trim_end());
    assert_eq!(error.line_column(text.as_bytes()), Some((2, 8)));
    assert_eq!((error.cause(), error.key_path()), (None, None));
    let Err(Error::Parse(error)) = read("[package]\nname = 1\n") else { panic!() };
    assert!(error.message().contains("package.name"), "{error}");
}

/// Errors of reading a type of one's own are the crate's errors too.
#[test]
fn errors_of_values() {
    let read = |value: Value| -> Result<Own, Error> { Ok(value.try_into()?) };
    assert_eq!(read(Value::from_iter([("keep", vec![1])])).unwrap(), Own { keep: vec![1], of: None });
    let Err(Error::Parse(error)) = read(Value::from_iter([("keep", vec![1, 300])])) else { panic!() };
    assert!(error.message().contains("300") && error.message().ends_with("at `keep[1]`"), "{error}");
    assert_eq!((error.span(), error.cause(), error.key_path()), (None, None, None));
}
