//! A planner of builds reads the manifests of a workspace and makes skeletons of them, which keep only what dependencies need,
//! so that these can be built before any source is there. It prints the skeletons, and the files to make in place of sources.
//!
//! Standard input has cases. So many of them in a row as `MEMBERS` says are a workspace: its root is the first that has a
//! `[workspace]`, and every package is a member, in the folder of its number.

mod cases;
mod folders;

use cargo_manifest::{
    Dependency, DependencyDetail, DepsSet, Edition, Error, FeatureSet, InheritedDependencyDetail, Lint, LintLevel,
    Manifest, MaybeInherited, MaybeInheritedLintsSet, Package, PatchSet, Product, Profile, Profiles, StringOrBool,
    StripSetting, Target, TargetDepsSet, Value, Workspace, WorkspacePackage,
};
use cases::Case;
use folders::Folders;
use std::collections::{BTreeMap, BTreeSet};
use std::str::FromStr;

const MEMBERS: usize = 6;
const NO_VERSION: &str = "0.0.1";

/// A manifest of the workspace, with its folder.
struct Member {
    folder: String,
    manifest: Manifest,
}

fn member(number: usize, case: &Case) -> Result<Member, Error> {
    let mut manifest = Manifest::from_str(&String::from_utf8_lossy(&case.text))?;
    manifest.complete_from_abstract_filesystem(&Folders::of(&case.files))?;
    Ok(Member { folder: format!("member-{number}"), manifest })
}

/// The names of the packages of a workspace.
fn names(members: &[Member]) -> BTreeSet<String> {
    members.iter().filter_map(|member| member.manifest.package.as_ref()).map(|package| package.name.clone()).collect()
}

/// Takes the version from a dependency on a member, so that a new version of one builds nothing anew.
fn without_version(mut dependency: Dependency, name: &str, local: &BTreeSet<String>) -> Dependency {
    let is_local = local.contains(dependency.package().unwrap_or(name));
    match &mut dependency {
        Dependency::Detailed(detail) if detail.path.is_some() || is_local => {
            if let Some(version) = &mut detail.version {
                *version = NO_VERSION.to_string();
            }
        }
        Dependency::Simple(version) if is_local => {
            return Dependency::Detailed(DependencyDetail {
                version: Some(std::mem::take(version)),
                default_features: Some(true),
                ..DependencyDetail::default()
            });
        }
        _ => (),
    }
    dependency.simplify()
}

fn set_of(dependencies: &DepsSet, local: &BTreeSet<String>) -> DepsSet {
    let entry =
        |(name, dependency): (&String, &Dependency)| (name.clone(), without_version(dependency.clone(), name, local));
    dependencies.iter().map(entry).collect()
}

fn targets_of(targets: &TargetDepsSet, local: &BTreeSet<String>) -> TargetDepsSet {
    let entry = |(platform, target): (&String, &Target)| {
        let target = Target {
            dependencies: set_of(&target.dependencies, local),
            dev_dependencies: set_of(&target.dev_dependencies, local),
            build_dependencies: set_of(&target.build_dependencies, local),
        };
        (platform.clone(), target)
    };
    targets.iter().map(entry).collect()
}

/// The edition of a package: its own, or that of the workspace.
fn edition_of(package: &Package, shared: Option<&WorkspacePackage>) -> Option<Edition> {
    match package.edition {
        Some(MaybeInherited::Local(edition)) => Some(edition),
        Some(MaybeInherited::Inherited { .. }) => shared.and_then(|shared| shared.edition),
        None => None,
    }
}

fn package_of(package: &Package, shared: Option<&WorkspacePackage>) -> Package {
    Package {
        edition: edition_of(package, shared).map(MaybeInherited::Local),
        build: package.build.clone(),
        links: package.links.clone(),
        workspace: package.workspace.clone(),
        resolver: package.resolver,
        autolib: Some(false),
        autobins: Some(false),
        autoexamples: Some(false),
        autotests: Some(false),
        autobenches: Some(false),
        rust_version: match package.rust_version.clone().and_then(MaybeInherited::as_local) {
            Some(version) => Some(MaybeInherited::Local(version)),
            None => shared.and_then(|shared| shared.rust_version.clone()).map(MaybeInherited::Local),
        },
        ..Package::new(package.name.clone(), NO_VERSION.to_string())
    }
}

/// A target with what decides how it is built.
fn product_of(product: &Product) -> Product {
    Product {
        path: product.path.clone(),
        name: product.name.clone(),
        harness: product.harness,
        proc_macro: product.proc_macro,
        plugin: product.plugin,
        edition: product.edition,
        crate_type: product.crate_type.clone(),
        required_features: product.required_features.clone(),
        ..Product::default()
    }
}

/// The dependencies that are named in a set and inherit from the workspace.
fn inherited(dependencies: &DepsSet) -> impl Iterator<Item = &String> {
    dependencies.iter().filter(|(_, dependency)| matches!(dependency, Dependency::Inherited(_))).map(|(name, _)| name)
}

/// All sets of dependencies of a manifest.
fn sets(manifest: &Manifest) -> Vec<&DepsSet> {
    let mut sets = Vec::new();
    sets.extend(&manifest.dependencies);
    sets.extend(&manifest.dev_dependencies);
    sets.extend(&manifest.build_dependencies);
    for target in manifest.target.iter().flat_map(BTreeMap::values) {
        sets.extend([&target.dependencies, &target.dev_dependencies, &target.build_dependencies]);
    }
    sets
}

/// The workspace with those dependencies that a member inherits.
fn workspace_of(workspace: &Workspace, members: &[Member], local: &BTreeSet<String>) -> Workspace {
    let wanted: BTreeSet<&String> =
        members.iter().flat_map(|member| sets(&member.manifest)).flat_map(inherited).collect();
    let mut kept = workspace.clone();
    kept.members = members.iter().map(|member| member.folder.clone()).collect();
    kept.default_members = None;
    kept.metadata = None;
    kept.lints = None;
    if let Some(dependencies) = &mut kept.dependencies {
        dependencies.retain(|name, _| wanted.contains(name));
        *dependencies = set_of(dependencies, local);
    }
    if let Some(package) = &mut kept.package {
        package.version = package.version.as_ref().map(|_| NO_VERSION.to_string());
    }
    kept
}

/// What dependencies need of a profile: nothing of what is told of the workspace alone.
fn profile_of(profile: &Profile) -> Profile {
    Profile { split_debuginfo: None, incremental: profile.incremental.filter(|is_so| *is_so), ..profile.clone() }
}

fn profiles_of(profiles: &Profiles) -> Profiles {
    Profiles {
        release: profiles.release.as_ref().map(profile_of),
        dev: profiles.dev.as_ref().map(profile_of),
        custom: profiles.custom.iter().map(|(name, profile)| (name.clone(), profile_of(profile))).collect(),
        ..Profiles::default()
    }
}

fn patch_of(patch: &PatchSet, local: &BTreeSet<String>) -> PatchSet {
    patch.iter().map(|(source, dependencies)| (source.clone(), set_of(dependencies, local))).collect()
}

/// The features, without those that ask for nothing.
fn features_of(features: &FeatureSet) -> FeatureSet {
    features.iter().filter(|(_, asked)| !asked.is_empty()).map(|(name, asked)| (name.clone(), asked.clone())).collect()
}

/// Lints that let everything pass, by the tools that the manifest names.
fn lints_of(lints: &MaybeInheritedLintsSet) -> MaybeInheritedLintsSet {
    let tools = lints
        .lints
        .keys()
        .map(|tool| (tool.clone(), BTreeMap::from([("all".to_string(), Lint::Level(LintLevel::Allow))])));
    MaybeInheritedLintsSet { workspace: lints.workspace.clone(), lints: tools.collect() }
}

fn skeleton(member: &Member, members: &[Member], root: Option<&Workspace>, local: &BTreeSet<String>) -> Manifest {
    let manifest = &member.manifest;
    let shared = root.and_then(|root| root.package.as_ref());
    Manifest {
        package: manifest.package.as_ref().map(|package| package_of(package, shared)),
        cargo_features: manifest.cargo_features.clone(),
        workspace: manifest.workspace.as_ref().map(|workspace| workspace_of(workspace, members, local)),
        dependencies: manifest.dependencies.as_ref().map(|set| set_of(set, local)),
        dev_dependencies: manifest.dev_dependencies.as_ref().map(|set| set_of(set, local)),
        build_dependencies: manifest.build_dependencies.as_ref().map(|set| set_of(set, local)),
        target: manifest.target.as_ref().map(|targets| targets_of(targets, local)),
        features: manifest.features.as_ref().map(features_of),
        lib: manifest.lib.as_ref().map(product_of),
        bin: manifest.bin.iter().map(product_of).collect(),
        test: manifest.test.iter().map(product_of).collect(),
        bench: manifest.bench.iter().map(product_of).collect(),
        example: manifest.example.iter().map(product_of).collect(),
        profile: manifest.profile.as_ref().map(profiles_of),
        patch: manifest.patch.as_ref().map(|patch| patch_of(patch, local)),
        lints: manifest.lints.as_ref().map(lints_of),
        ..Manifest::default()
    }
}

/// The files to make in place of sources, each with what stands in it.
fn stubs(manifest: &Manifest) -> Vec<(String, &'static str)> {
    let mut files = Vec::new();
    let mut put = |product: &Product, text| files.extend(product.path.iter().map(|path| (path.clone(), text)));
    if let Some(library) = &manifest.lib {
        put(library, if library.proc_macro { "extern crate proc_macro;" } else { "" });
    }
    for product in manifest.bin.iter().chain(&manifest.example) {
        put(product, "fn main() {}");
    }
    for product in manifest.test.iter().chain(&manifest.bench) {
        put(product, if product.harness { "" } else { "fn main() {}" });
    }
    if let Some(StringOrBool::String(script)) = manifest.package.as_ref().and_then(|package| package.build.as_ref()) {
        files.push((script.clone(), "fn main() {}"));
    }
    files
}

/// A value as the planner shows it.
fn shown(value: &Value) -> String {
    match value {
        Value::String(text) => format!("{text:?}"),
        Value::Integer(number) => number.to_string(),
        Value::Boolean(is_so) => is_so.to_string(),
        Value::Array(items) => format!("[{}]", items.iter().map(shown).collect::<Vec<_>>().join(", ")),
        Value::Table(members) => {
            let members = members.iter().map(|(key, value)| format!("{key:?} = {}", shown(value)));
            format!("{{{}}}", members.collect::<Vec<_>>().join(", "))
        }
        other => format!("{} {other}", other.type_str()),
    }
}

fn print_inherited(name: &str, detail: &InheritedDependencyDetail) {
    let features = detail.features.as_deref().unwrap_or_default();
    println!("    {name:?} = of the workspace, {features:?}, optional {:?}", detail.optional);
}

fn print_set(title: &str, dependencies: &DepsSet) {
    if !dependencies.is_empty() {
        println!("  {title}");
    }
    for (name, dependency) in dependencies {
        match dependency {
            Dependency::Simple(version) => println!("    {name:?} = {version:?}"),
            Dependency::Inherited(detail) => print_inherited(name, detail),
            Dependency::Detailed(detail) => {
                let source = detail.path.as_ref().or(detail.git.as_ref()).or(detail.registry.as_ref());
                let place = detail.branch.as_ref().or(detail.tag.as_ref()).or(detail.rev.as_ref());
                println!(
                    "    {name:?} = {:?} of {source:?} at {place:?}, {:?}, optional {}, default {:?}, {:?}",
                    dependency.req(),
                    dependency.req_features(),
                    dependency.optional(),
                    detail.default_features,
                    detail.registry_index
                );
            }
        }
    }
}

fn print_profile(name: &str, profile: &Profile) {
    let strip = match &profile.strip {
        Some(StripSetting::None) => "nothing",
        Some(StripSetting::Debuginfo) => "debug",
        Some(StripSetting::Symbols) => "symbols",
        None => "-",
    };
    println!(
        "  profile {name:?}: opt-level {:?}, debug {:?}, lto {:?}, strip {strip}, panic {:?}, units {:?}, of {:?}",
        profile.opt_level.as_ref().map(shown),
        profile.debug.as_ref().map(shown),
        profile.lto.as_ref().map(shown),
        profile.panic,
        profile.codegen_units,
        profile.inherits
    );
    for (package, value) in &profile.package {
        println!("    {package:?}: {}", shown(value));
    }
    if let Some(Value::Table(scripts)) = &profile.build_override {
        println!("    scripts: {} settings, {:?}", scripts.len(), scripts.get("opt-level").and_then(Value::as_integer));
    }
}

fn print_products(manifest: &Manifest) {
    let found = [
        ("binaries", manifest.autobins()),
        ("examples", manifest.autoexamples()),
        ("tests", manifest.autotests()),
        ("benches", manifest.autobenches()),
    ];
    assert!(found.iter().all(|(_, is_found)| !is_found), "all of a skeleton is declared");
    let all = manifest.lib.iter().chain(&manifest.bin).chain(&manifest.example).chain(&manifest.test);
    for product in all.chain(&manifest.bench) {
        let edition = product.edition.as_ref().map_or("-", Edition::as_str);
        println!("  target {:?}, {edition}, {:?}, {:?}", product.name, product.crate_type, product.required_features);
    }
}

fn print_manifest(manifest: &Manifest) {
    if let Some(package) = &manifest.package {
        let MaybeInherited::Local(version) = package.version() else { panic!("a version") };
        println!(
            "  package {:?} {version}, {:?}, {:?}, {:?}",
            package.name, package.edition, package.build, package.links
        );
    }
    if let Some(workspace) = &manifest.workspace {
        println!("  workspace {:?} without {:?}, {:?}", workspace.members, workspace.exclude, workspace.resolver);
        workspace.dependencies.iter().for_each(|set| print_set("of the workspace", set));
    }
    let sets = [
        ("dependencies", &manifest.dependencies),
        ("of tests", &manifest.dev_dependencies),
        ("of the build", &manifest.build_dependencies),
    ];
    for (title, set) in sets {
        set.iter().for_each(|set| print_set(title, set));
    }
    for (platform, target) in manifest.target.iter().flatten() {
        print_set(&format!("{platform:?}"), &target.dependencies);
        print_set(&format!("{platform:?}, of tests"), &target.dev_dependencies);
        print_set(&format!("{platform:?}, of the build"), &target.build_dependencies);
    }
    for (source, dependencies) in manifest.patch.iter().flatten() {
        print_set(&format!("patch of {source:?}"), dependencies);
    }
    for (name, asked) in manifest.features.iter().flatten() {
        println!("  feature {name:?}: {asked:?}");
    }
    print_products(manifest);
    if let Some(profiles) = &manifest.profile {
        profiles.release.iter().for_each(|profile| print_profile("release", profile));
        profiles.dev.iter().for_each(|profile| print_profile("dev", profile));
        profiles.custom.iter().for_each(|(name, profile)| print_profile(name, profile));
    }
    if let Some(lints) = &manifest.lints {
        let tools: Vec<&str> = lints.lints.keys().map(String::as_str).collect();
        println!("  lints of {tools:?}, inherited: {}", lints.is_inherited());
    }
}

fn plan(number: usize, cases: &[Case]) {
    let mut members = Vec::new();
    println!("workspace {number}");
    for (index, case) in cases.iter().enumerate() {
        match member(index, case) {
            Ok(member) => members.push(member),
            Err(Error::Other(why)) => println!("member-{index} has no sources: {why}"),
            Err(_) => println!("member-{index} cannot be read"),
        }
    }
    let root = members.iter().find_map(|member| member.manifest.workspace.as_ref());
    let local = names(&members);
    for member in &members {
        let skeleton = skeleton(member, &members, root, &local);
        println!("{}/Cargo.toml", member.folder);
        print_manifest(&skeleton);
        for (file, text) in stubs(&skeleton) {
            println!("{}/{} {text:?}", member.folder, file.escape_debug());
        }
    }
}

fn main() {
    for (number, cases) in cases::read().chunks(MEMBERS).enumerate() {
        plan(number + 1, cases);
    }
}
