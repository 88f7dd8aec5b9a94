//! Prints what `{:?}` says of whole manifests, a line for each.
//!
//! - `debug texts < CASES`: each text, read;
//! - `debug lists < CASES`: each text, read and completed over its files, which are listed in memory;
//! - `debug paths < CASES`: each text is the path of a file, which is read and completed over its folder;
//! - `debug queries < CASES`: what the types answer of themselves in each text, read;
//! - `debug defaults`: the values that the types have by themselves.
//!
//! A refusal is the line `refused: ` with the kind of the error and, where the crate's own words are no reader's, these words.

mod cases;
mod folders;

use cargo_manifest::*;
use cases::Case;
use folders::Folders;
use std::env;
use std::io::{self, BufWriter, Write};

/// A manifest, or why there is none.
fn said(read: Result<Manifest, Error>) -> String {
    match read {
        Ok(manifest) => {
            assert!(manifest.clone() == manifest, "a copy is equal");
            format!("{manifest:?}")
        }
        Err(Error::Parse(_)) => "refused: Parse".to_string(),
        Err(Error::Utf8(_)) => "refused: Utf8".to_string(),
        Err(Error::Io(fault)) => format!("refused: Io, {:?}", fault.kind()),
        Err(Error::Other(words)) => format!("refused: Other, {words}"),
    }
}

fn read(case: &Case) -> Result<Manifest, Error> {
    Manifest::from_slice(&case.text)
}

fn listed(case: &Case) -> Result<Manifest, Error> {
    let mut manifest = read(case)?;
    manifest.complete_from_abstract_filesystem(&Folders::of(&case.files))?;
    Ok(manifest)
}

fn found(case: &Case) -> Result<Manifest, Error> {
    Manifest::from_path(std::str::from_utf8(&case.text).expect("UTF-8"))
}

/// What a dependency answers of itself.
fn of_dependency(name: &str, dependency: &Dependency) -> String {
    format!(
        "{name:?}: {:?} {:?} {} {:?} {:?} {} {} {}",
        dependency.req(),
        dependency.req_features(),
        dependency.optional(),
        dependency.package(),
        dependency.git(),
        dependency.is_crates_io(),
        dependency.detail().is_some(),
        dependency.clone().simplify() == *dependency,
    )
}

fn of_lints(lints: &LintsSet) -> impl Iterator<Item = String> + '_ {
    let all = lints.iter().flat_map(|(tool, set)| set.iter().map(move |(name, lint)| (tool, name, lint)));
    all.map(|(tool, name, lint)| format!("{tool:?}.{name:?}: {} {}", lint.level().as_str(), lint.priority()))
}

fn of_package(package: &Package) -> String {
    let edition = match &package.edition {
        Some(MaybeInherited::Local(edition)) => edition.as_str(),
        Some(MaybeInherited::Inherited { .. }) => "inherited",
        None => "none",
    };
    let publish = package.publish.clone().and_then(MaybeInherited::as_local).unwrap_or_default();
    let build = package.build.as_ref().map(|build| *build == StringOrBool::Bool(true));
    format!("{:?} {edition} {} {} {build:?}", package.version(), publish == true, false == publish)
}

/// What the parts of a manifest answer of themselves.
fn of_manifest(manifest: &Manifest) -> String {
    let mut said = vec![format!(
        "{} {} {} {}",
        manifest.autobins(),
        manifest.autoexamples(),
        manifest.autotests(),
        manifest.autobenches()
    )];
    said.extend(manifest.package.as_ref().map(of_package));
    let mut sets: Vec<&DepsSet> = Vec::new();
    sets.extend(&manifest.dependencies);
    sets.extend(&manifest.dev_dependencies);
    sets.extend(&manifest.build_dependencies);
    sets.extend(manifest.workspace.as_ref().and_then(|workspace| workspace.dependencies.as_ref()));
    sets.extend(manifest.patch.iter().flat_map(|patch| patch.values()));
    for target in manifest.target.iter().flat_map(|targets| targets.values()) {
        sets.extend([&target.dependencies, &target.dev_dependencies, &target.build_dependencies]);
    }
    said.extend(sets.into_iter().flatten().map(|(name, dependency)| of_dependency(name, dependency)));
    if let Some(lints) = &manifest.lints {
        said.push(format!("inherited lints: {}", lints.is_inherited()));
        said.extend(of_lints(&lints.lints));
    }
    said.extend(manifest.workspace.iter().filter_map(|workspace| workspace.lints.as_ref()).flat_map(of_lints));
    said.join("; ")
}

fn asked(case: &Case) -> String {
    match read(case) {
        Ok(manifest) => of_manifest(&manifest),
        refused => said(refused),
    }
}

/// What `strip` is of a value.
fn strip(value: Value) -> String {
    format!("{:?}", StripSetting::try_from(value).map_err(|_| "refused"))
}

/// What the types have by themselves.
fn defaults() -> Vec<String> {
    let manifest: Manifest = Manifest::default();
    let package: Package = Package::new("a".to_string(), "1.0.0".to_string());
    let workspace: Workspace<String> = Workspace::default();
    vec![
        format!("{manifest:?}"),
        format!("{package:?}"),
        format!("{workspace:?}"),
        format!("{:?}", WorkspacePackage::default()),
        format!("{:?}", Profiles::default()),
        format!("{:?}", Product::default()),
        format!("{:?}", DependencyDetail::default()),
        format!("{:?}", InheritedDependencyDetail::default()),
        format!("{:?}", Badges::default()),
        format!("{:?} {:?}", Maintenance::default(), MaintenanceStatus::default()),
        format!("{:?} {:?} {:?}", Edition::default(), Resolver::default(), Publish::default()),
        format!("{:?}", MaybeInherited::<String>::inherited()),
        format!("{:?} {:?}", Lint::Level(LintLevel::Warn), StripSetting::Debuginfo),
        ["none", "debuginfo", "symbols", "", "None"].map(|word| strip(Value::String(word.to_string()))).join(" "),
        [Value::Boolean(true), Value::Boolean(false), Value::Integer(1), Value::Array(vec![])].map(strip).join(" "),
    ]
}

fn main() -> io::Result<()> {
    let word = env::args().nth(1).unwrap_or_default();
    let lines: Vec<String> = match word.as_str() {
        "texts" => cases::read().iter().map(|case| said(read(case))).collect(),
        "lists" => cases::read().iter().map(|case| said(listed(case))).collect(),
        "paths" => cases::read().iter().map(|case| said(found(case))).collect(),
        "queries" => cases::read().iter().map(asked).collect(),
        "defaults" => defaults(),
        _ => panic!("usage: debug texts | lists | paths | queries | defaults"),
    };
    let mut out = BufWriter::new(io::stdout());
    lines.iter().try_for_each(|line| writeln!(out, "{line}"))?;
    out.flush()
}
