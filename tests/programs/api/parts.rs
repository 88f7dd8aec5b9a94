//! Each type of a manifest: made by all of its fields or by each of its variants, and what it answers of itself.

use cargo_manifest::{
    Badge, Badges, Dependency, DependencyDetail, DepsSet, Edition, FeatureSet, InheritedDependencyDetail, Lint,
};
use cargo_manifest::{LintConfig, LintLevel, LintsSet, Maintenance, MaintenanceStatus, Manifest, MaybeInherited};
use cargo_manifest::{
    MaybeInheritedLintsSet, Package, PatchSet, Product, Profile, Profiles, Publish, Resolver, StringOrBool,
};
use cargo_manifest::{StripSetting, Target, TargetDepsSet, ToolLintsSet, True, Value, Workspace, WorkspacePackage};
use std::collections::BTreeMap;

fn text(text: &str) -> Option<String> {
    Some(text.to_string())
}

fn texts(texts: &[&str]) -> Vec<String> {
    texts.iter().map(|text| text.to_string()).collect()
}

fn detail() -> DependencyDetail {
    DependencyDetail {
        version: text("1"),
        registry: None,
        registry_index: text("https://e.org/index"),
        path: text("../d"),
        git: None,
        branch: None,
        tag: None,
        rev: None,
        features: Some(texts(&["f"])),
        optional: Some(true),
        default_features: Some(false),
        package: text("p"),
    }
}

fn dependencies() -> DepsSet {
    // (a pattern or a literal of the inherited one ends with `..`: DIFFERENCES.md says why)
    let inherited = InheritedDependencyDetail {
        workspace: True,
        features: Some(texts(&["g"])),
        optional: None,
        ..Default::default()
    };
    BTreeMap::from([
        ("a".to_string(), Dependency::Simple("1".to_string())),
        ("b".to_string(), Dependency::Detailed(detail())),
        ("c".to_string(), Dependency::Inherited(inherited)),
    ])
}

fn lints() -> LintsSet {
    let config = LintConfig { level: LintLevel::Deny, priority: -1 };
    let tool: ToolLintsSet =
        BTreeMap::from([("x".to_string(), Lint::Level(LintLevel::Allow)), ("y".to_string(), Lint::Config(config))]);
    BTreeMap::from([("rust".to_string(), tool)])
}

fn product(name: &str) -> Product {
    Product {
        path: text("src/x.rs"),
        name: text(name),
        test: false,
        doctest: true,
        bench: false,
        doc: true,
        plugin: false,
        proc_macro: true,
        harness: false,
        edition: Some(Edition::E2024),
        required_features: texts(&["f"]),
        crate_type: Some(texts(&["cdylib"])),
    }
}

fn profile() -> Profile {
    Profile {
        opt_level: Some(Value::Integer(3)),
        debug: Some(Value::Boolean(true)),
        rpath: Some(true),
        inherits: text("release"),
        lto: Some(Value::from("thin")),
        debug_assertions: Some(false),
        codegen_units: Some(16_u16),
        panic: text("abort"),
        incremental: None,
        overflow_checks: Some(true),
        strip: Some(StripSetting::Debuginfo),
        package: BTreeMap::from([("x".to_string(), Value::from(vec![1]))]),
        split_debuginfo: text("packed"),
        build_override: None,
    }
}

fn profiles() -> Profiles {
    Profiles {
        release: Some(profile()),
        dev: None,
        test: None,
        bench: None,
        doc: None,
        custom: BTreeMap::from([("mine".to_string(), profile())]),
    }
}

fn badges() -> Badges {
    let badge = Badge {
        repository: "r".to_string(),
        branch: "main".to_string(),
        service: text("github"),
        id: None,
        project_name: text("n"),
    };
    Badges {
        appveyor: Some(badge.clone()),
        circle_ci: None,
        gitlab: None,
        travis_ci: None,
        codecov: None,
        coveralls: Some(badge),
        is_it_maintained_issue_resolution: None,
        is_it_maintained_open_issues: None,
        maintenance: Maintenance { status: MaintenanceStatus::AsIs },
    }
}

fn package() -> Package<&'static str> {
    let local = |value: &str| Some(MaybeInherited::Local(value.to_string()));
    Package {
        name: "n".to_string(),
        edition: Some(MaybeInherited::Local(Edition::E2018)),
        version: Some(MaybeInherited::Inherited { workspace: True }),
        build: Some(StringOrBool::Bool(false)),
        workspace: text(".."),
        authors: Some(MaybeInherited::Local(texts(&["A"]))),
        links: text("l"),
        description: local("d"),
        homepage: local("h"),
        documentation: local("o"),
        readme: Some(MaybeInherited::Local(StringOrBool::String("R".to_string()))),
        keywords: Some(MaybeInherited::inherited()),
        categories: None,
        license: local("MIT"),
        license_file: local("L"),
        repository: local("r"),
        metadata: Some("of its own type"),
        rust_version: local("1.82"),
        exclude: Some(MaybeInherited::Local(texts(&["e"]))),
        include: None,
        default_run: text("n"),
        autolib: Some(true),
        autobins: None,
        autoexamples: Some(false),
        autotests: None,
        autobenches: None,
        publish: Some(MaybeInherited::Local(Publish::Registry(texts(&["mine"])))),
        resolver: Some(Resolver::V2),
    }
}

fn workspace() -> Workspace<u8> {
    let package = WorkspacePackage {
        edition: Some(Edition::E2021),
        version: text("2.0.0"),
        authors: Some(texts(&["B"])),
        description: None,
        homepage: None,
        documentation: None,
        readme: Some(StringOrBool::Bool(true)),
        keywords: None,
        categories: None,
        license: None,
        license_file: None,
        publish: Some(Publish::Flag(false)),
        exclude: None,
        include: None,
        repository: None,
        rust_version: None,
    };
    Workspace {
        members: texts(&["m"]),
        default_members: None,
        exclude: Some(vec![]),
        resolver: Some(Resolver::V3),
        dependencies: Some(dependencies()),
        package: Some(package),
        metadata: Some(7),
        lints: Some(lints()),
    }
}

/// A manifest with both metadata of types of their own.
fn manifest() -> Manifest<&'static str, u8> {
    let target =
        Target { dependencies: dependencies(), dev_dependencies: DepsSet::new(), build_dependencies: DepsSet::new() };
    let targets: TargetDepsSet = BTreeMap::from([("cfg(unix)".to_string(), target)]);
    let features: FeatureSet = BTreeMap::from([("default".to_string(), texts(&["f"]))]);
    let patch: PatchSet = BTreeMap::from([("crates-io".to_string(), dependencies())]);
    Manifest {
        package: Some(package()),
        cargo_features: Some(texts(&["x"])),
        workspace: Some(workspace()),
        dependencies: Some(dependencies()),
        dev_dependencies: None,
        build_dependencies: None,
        target: Some(targets),
        features: Some(features),
        bin: vec![product("b")],
        bench: vec![],
        test: vec![],
        example: vec![product("e")],
        patch: Some(patch),
        lib: Some(product("l")),
        profile: Some(profiles()),
        badges: Some(badges()),
        lints: Some(MaybeInheritedLintsSet { workspace: None, lints: lints() }),
    }
}

/// Each of its choices, by a match without `_`.
fn words() -> Vec<String> {
    let edition = |edition| match edition {
        Edition::E2015 | Edition::E2018 => edition.as_str(),
        Edition::E2021 | Edition::E2024 => "later",
    };
    let level = |level: LintLevel| match level {
        LintLevel::Forbid | LintLevel::Deny | LintLevel::Warn | LintLevel::Allow => level.as_str(),
    };
    let strip = |strip: StripSetting| match strip {
        StripSetting::None => 0,
        StripSetting::Debuginfo => 1,
        StripSetting::Symbols => 2,
    };
    let resolver = |resolver| match resolver {
        Resolver::V1 => 1,
        Resolver::V2 => 2,
        Resolver::V3 => 3,
    };
    let status = |status| match status {
        MaintenanceStatus::None => "none",
        MaintenanceStatus::ActivelyDeveloped | MaintenanceStatus::PassivelyMaintained => "maintained",
        MaintenanceStatus::AsIs | MaintenanceStatus::Experimental => "so",
        MaintenanceStatus::LookingForMaintainer | MaintenanceStatus::Deprecated => "not",
    };
    vec![
        [Edition::E2015, Edition::E2018, Edition::E2021, Edition::E2024].map(edition).join(" "),
        [LintLevel::Forbid, LintLevel::Deny, LintLevel::Warn, LintLevel::Allow].map(level).join(" "),
        format!("{:?}", [StripSetting::None, StripSetting::Debuginfo, StripSetting::Symbols].map(strip)),
        format!("{:?}", [Resolver::default(), Resolver::V2, Resolver::V3].map(resolver)),
        [MaintenanceStatus::default(), MaintenanceStatus::AsIs, MaintenanceStatus::Deprecated].map(status).join(" "),
    ]
}

/// What the types answer of themselves.
fn answers() -> Vec<String> {
    let all = dependencies();
    let of = |dependency: &Dependency| {
        let kind = match dependency {
            Dependency::Simple(version) => version.clone(),
            Dependency::Detailed(DependencyDetail { path, .. }) => format!("{path:?}"),
            Dependency::Inherited(InheritedDependencyDetail { workspace: True, features, .. }) => {
                format!("{features:?}")
            }
        };
        let (req, features, optional) = (dependency.req(), dependency.req_features(), dependency.optional());
        let (package, git, detail) = (dependency.package(), dependency.git(), dependency.detail());
        let simple = dependency.clone().simplify();
        format!(
            "{kind} {req} {features:?} {optional} {package:?} {git:?} {detail:?} {} {simple:?}",
            dependency.is_crates_io()
        )
    };
    let of_lint = |lint: &Lint| match lint {
        Lint::Level(level) => format!("{level:?} {:?} {}", lint.level(), lint.priority()),
        Lint::Config(LintConfig { level, priority }) => {
            format!("{level:?} {priority} {:?} {}", lint.level(), lint.priority())
        }
    };
    let mut lines: Vec<String> = all.values().map(of).collect();
    lines.extend(lints()["rust"].values().map(of_lint));
    let own: Package<()> = Package::new("a".into(), "1.0.0".into());
    let version: MaybeInherited<&str> = own.version();
    let flags = (Publish::Flag(true) == true, true == Publish::Registry(vec![]), Publish::default() == false);
    let inherited = MaybeInheritedLintsSet { workspace: Some(True), lints: LintsSet::new() }.is_inherited();
    lines.push(format!(
        "{version:?} {:?} {flags:?} {inherited} {}",
        package().version(),
        badges() == Badges::default()
    ));
    lines
}

/// What is inferred: the types of metadata that nothing names are `Value`, also where a method is called.
fn inferred() -> String {
    let mut manifest = Manifest { package: Some(Package::<()>::new("a".into(), "1.0.0".into())), ..Default::default() };
    let first = (manifest.autobins(), manifest.autotests(), manifest.autoexamples(), manifest.autobenches());
    manifest.bin = vec![Product::default()];
    let values = Manifest { package: Some(Package::<Value>::new("b".into(), "1".into())), ..Default::default() };
    let none = Manifest { package: None::<Package>, ..Default::default() }.autobins();
    format!("{first:?} {} {} {none}", manifest.autobins(), values.autobins())
}

pub fn lines() -> Vec<String> {
    let manifest = manifest();
    let mut lines = vec![format!("{manifest:?}"), inferred()];
    lines.extend(words());
    lines.extend(answers());
    lines
}
