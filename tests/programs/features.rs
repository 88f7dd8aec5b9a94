//! Uses what serde and the crate `toml` make of the types: what is read as a type of one's own, what is written, and what passes
//! from values and errors of `toml` to those of the crate and back. What it makes is printed, a line for each.
//!
//! `features FOLDER`, where FOLDER is one in which it may make files.

use cargo_manifest::*;
use serde::de::DeserializeOwned;
use serde::{Deserialize, Serialize};
use std::collections::BTreeMap;
use std::env;
use std::fs;
use std::path::PathBuf;

#[derive(Clone, Debug, Deserialize, PartialEq, Serialize)]
struct Own {
    keep: Vec<u8>,
    #[serde(default)]
    named: Option<String>,
}

fn both<T: Serialize + DeserializeOwned>() {}

/// The types that serde reads and writes.
fn traits() {
    macro_rules! each {
        ($($type:ty),+ $(,)?) => {
            $(both::<$type>();)+
        };
    }
    each!(Manifest, Manifest<Own, Own>, Package, Package<Own>, Workspace, Workspace<Own>, WorkspacePackage, Profiles, Profile,
        StripSetting, Product, Target, Dependency, DependencyDetail, InheritedDependencyDetail, MaybeInherited<bool>, True,
        StringOrBool, Publish, Badge, Badges, Maintenance, MaintenanceStatus, Edition, Resolver, LintLevel, LintConfig, Lint,
        MaybeInheritedLintsSet, Value);
}

const TEXT: &str =
    "[package]\nname = 'a'\n[package.metadata]\nkeep = [1, 2]\n[workspace]\n[workspace.metadata]\nkeep = [3]\n\
                    named = 'w'\n";

/// What is passed on by `?` as an error of the crate.
fn read_by_toml<T: DeserializeOwned>(text: &str) -> Result<T, Error> {
    Ok(toml::from_str(text)?)
}

fn read_from_value<T: DeserializeOwned>(value: Value) -> Result<T, Error> {
    Ok(value.try_into()?)
}

fn read_by_deserializer<T: DeserializeOwned>(value: Value) -> Result<T, Error> {
    Ok(T::deserialize(value)?)
}

fn of_error<T>(read: Result<T, Error>) -> String {
    match read {
        Ok(_) => "read".to_string(),
        Err(Error::Parse(error)) => format!("refused: Parse {}", !error.to_string().is_empty()),
        Err(other) => format!("refused: {other}"),
    }
}

fn metadata_of_its_own(folder: &PathBuf) -> Vec<String> {
    let path = folder.join("Cargo.toml");
    fs::create_dir_all(folder).expect("a folder");
    fs::write(&path, TEXT).expect("a file");
    let manifest = Manifest::<Own>::from_slice_with_metadata(TEXT.as_bytes()).expect("a manifest");
    let both: Manifest<Own, Own> = read_by_toml(TEXT).expect("a manifest");
    let of_file = Manifest::<Own>::from_path_with_metadata(&path).expect("a manifest");
    let of_package = |package: Option<Package<Own>>| package.and_then(|package| package.metadata);
    let refused = Manifest::<Own>::from_slice_with_metadata(b"[package]\nname = 'a'\nmetadata = 1");
    vec![
        format!("{manifest:?}"),
        format!("{both:?}"),
        format!("{:?} {}", of_package(of_file.package), of_error(refused)),
        toml::to_string(&both).expect("a text"),
        toml::to_string(&manifest).expect("a text"),
        toml::Value::try_from(&both).expect("a value").to_string(),
    ]
}

fn values() -> Vec<String> {
    let own = Own { keep: vec![1, 255], named: Some("n".to_string()) };
    let value = Value::try_from(&own).expect("a value");
    let of_toml: toml::Value = toml::from_str(TEXT).expect("a value");
    let here = Value::from(of_toml.clone());
    let there = toml::Value::from(here.clone());
    let none = Value::try_from(Own { keep: vec![], named: None }).expect("a value");
    vec![
        format!("{value:?} {none:?} {:?}", value["keep"]),
        format!("{:?}", read_from_value::<Own>(value.clone()).expect("the same")),
        format!("{:?}", read_by_deserializer::<Own>(value).expect("the same")),
        format!(
            "{} {} {}",
            there == of_toml,
            here["package"]["metadata"]["keep"][1],
            format!("{here:?}") == format!("{there:?}")
        ),
        format!("{:?}", toml::from_str::<Value>(TEXT).expect("a value") == here),
        format!("{:?} {:?}", Value::try_from(1_u64 << 63).is_err(), Value::try_from(Edition::E2021).ok()),
    ]
}

fn refused() -> Vec<String> {
    vec![
        of_error(read_by_toml::<Manifest>("[package]\nname = 'a'")),
        of_error(read_by_toml::<Manifest>("[package")),
        of_error(read_by_toml::<Manifest>("[package]\nname = 1")),
        of_error(read_from_value::<Own>(Value::from(1))),
        of_error(read_by_deserializer::<Own>(Value::from(vec!["x"]))),
        of_error(read_from_value::<Package>(Value::from(1))),
    ]
}

/// What is read of what the types of words and of two shapes are written as.
fn written() -> Vec<String> {
    let manifest: Manifest = read_by_toml(
        "[package]\nname = 'a'\nedition.workspace = true\nbuild = false\npublish = ['r']\nresolver = '2'\n[lints.rust]\nx = 'deny'\n\
         y = { level = 'warn', priority = -1 }\n[profile.dev]\nstrip = 'symbols'\n[badges]\nmaintenance = { status = 'as-is' }\n",
    )
    .expect("a manifest");
    let text = toml::to_string(&manifest).unwrap_or_else(|_| "refused".to_string());
    vec![
        format!("{manifest:?}"),
        text,
        toml::Value::try_from(&manifest).map_or("refused".to_string(), |value| format!("{value:?}")),
    ]
}

/// Types of one's own that hold those of the crate in each way that serde has.
#[derive(Debug, Deserialize, Serialize)]
struct Flat {
    #[serde(flatten)]
    manifest: Manifest,
    extra: Option<i32>,
}

#[derive(Debug, Deserialize, Serialize)]
#[serde(tag = "kind")]
enum Tagged {
    Product(Product),
    Config(LintConfig),
}

#[derive(Debug, Deserialize, Serialize)]
#[serde(untagged)]
enum Either {
    Number(i32),
    Manifest(Box<Manifest>),
}

#[derive(Debug, Deserialize, Serialize)]
struct Parts {
    #[serde(flatten)]
    detail: DependencyDetail,
    edition: Option<Edition>,
    maybe: MaybeInherited<Edition>,
    #[serde(flatten)]
    rest: BTreeMap<String, Value>,
}

fn shapes() -> Vec<String> {
    fn both<T: DeserializeOwned + Serialize + std::fmt::Debug>(text: &str) -> String {
        match toml::from_str::<T>(text) {
            Ok(read) => format!("{read:?} {:?}", toml::to_string(&read).map_err(|_| "refused")),
            Err(_) => "refused".to_string(),
        }
    }
    vec![
        both::<Flat>("extra = 1\n[package]\nname = 'a'\n[dependencies]\nb = '1'\n"),
        both::<Flat>("[lib]\nname = 1\n"),
        both::<Tagged>("kind = 'Product'\nname = 'a'\n"),
        both::<Tagged>("kind = 'Config'\nlevel = 'deny'\n"),
        both::<Tagged>("kind = 'Config'\nlevel = 'all'\n"),
        both::<Either>("[package]\nname = 'a'\n"),
        both::<Parts>("version = '1'\nedition = '2021'\nmaybe = '2018'\nx = { y = 1.5 }\n"),
        both::<Parts>("maybe = { workspace = true }\n"),
        both::<BTreeMap<String, Target>>("x = {}\n"),
        both::<Workspace<String>>("metadata = 'x'\nmembers = ['m']\n"),
    ]
}

/// Values of all kinds, as types of Rust and from them.
fn kinds() -> Vec<String> {
    fn read<T: DeserializeOwned + std::fmt::Debug>(value: impl Into<Value>) -> String {
        value.into().try_into::<T>().map_or("refused".to_string(), |read| format!("{read:?}"))
    }
    fn made<T: Serialize>(of: T) -> String {
        Value::try_from(of).map_or("refused".to_string(), |made| format!("{made:?}"))
    }
    vec![
        [read::<u8>(3), read::<u8>(300), read::<Option<u8>>(3), read::<f64>(1), read::<i64>(1.0), read::<char>("x")]
            .join(" "),
        [read::<Edition>("2021"), read::<Resolver>("2"), read::<True>(true), read::<True>(false)].join(" "),
        [read::<StringOrBool>(true), read::<StripSetting>(true), read::<StripSetting>("all")].join(" "),
        [read::<Vec<(i64, String)>>(vec![vec![1]]), read::<(i64, i64)>(vec![1, 2]), read::<()>(1)].join(" "),
        [made(1.5_f32), made("x"), made('c'), made(b"ab"), made(Some(1)), made(None::<u8>)].join(" "),
        [made(u64::MAX), made(()), made((1, "a")), made(BTreeMap::from([(1, 2)])), made(&[Some(1), None][..])]
            .join(" "),
    ]
}

fn main() {
    traits();
    let folder = PathBuf::from(env::args().nth(1).expect("usage: features FOLDER"));
    let mut lines = metadata_of_its_own(&folder);
    lines.extend(values());
    lines.extend(refused());
    lines.extend(written());
    lines.extend(shapes());
    lines.extend(kinds());
    lines.iter().for_each(|line| println!("{line:?}"));
}
