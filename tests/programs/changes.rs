//! Changes fields of manifests at random, and looks whether what is written of a manifest is read as that manifest.
//!
//! - `changes check SEED < CASES`: a line for each changed manifest, `same` or how it differs;
//! - `changes lines SEED < CASES`: what `{:?}` says of each of them;
//! - `changes texts SEED < CASES`: the texts that are written, as cases (`cases.rs`).
//!
//! Each case that can be read is changed `COPIES` times anew. The same seed makes the same changes.

mod cases;

use cargo_manifest::*;
use std::collections::BTreeMap;
use std::env;
use std::io::{self, Write};

const COPIES: u64 = 6;
const MOST_CHANGES: usize = 9;

const STRINGS: [&str; 22] = [
    "",
    "a",
    "b",
    "foo-bar",
    "foo_bar",
    "1",
    "^1.2, <2",
    "2021",
    "true",
    "MIT OR Apache-2.0",
    "src/lib.rs",
    "a.b",
    "q\"uote",
    "'",
    "'''",
    "\"\"\"",
    "back\\slash",
    "tab\t, line\n, \r\n",
    "\0\u{1f}\u{7f}",
    "日本語 é e\u{301} 😀",
    "\u{feff}\u{2028}\u{ffff}\u{10ffff}",
    "[x] # no comment",
];
const INTEGERS: [i64; 9] = [0, 1, -1, 127, 128, 65536, 1 << 53, i64::MAX, i64::MIN];

/// Numbers that look random, by the generator `splitmix64`.
struct Random(u64);

impl Random {
    fn next(&mut self) -> u64 {
        self.0 = self.0.wrapping_add(0x9e37_79b9_7f4a_7c15);
        let mut bits = self.0;
        bits = (bits ^ (bits >> 30)).wrapping_mul(0xbf58_476d_1ce4_e5b9);
        bits = (bits ^ (bits >> 27)).wrapping_mul(0x94d0_49bb_1331_11eb);
        bits ^ (bits >> 31)
    }

    fn below(&mut self, count: usize) -> usize {
        (self.next() % count as u64) as usize
    }

    fn flag(&mut self) -> bool {
        self.below(2) == 0
    }

    fn one_of<T: Clone>(&mut self, choices: &[T]) -> T {
        choices[self.below(choices.len())].clone()
    }

    fn string(&mut self) -> String {
        self.one_of(&STRINGS).to_string()
    }

    fn strings(&mut self) -> Vec<String> {
        (0..self.below(4)).map(|_| self.string()).collect()
    }

    /// Something, or nothing.
    fn option<T>(&mut self, make: impl FnOnce(&mut Random) -> T) -> Option<T> {
        self.flag().then(|| make(self))
    }

    fn inherited<T>(&mut self, make: impl FnOnce(&mut Random) -> T) -> MaybeInherited<T> {
        match self.below(3) {
            0 => MaybeInherited::inherited(),
            _ => MaybeInherited::Local(make(self)),
        }
    }

    fn map<T>(&mut self, make: impl Fn(&mut Random) -> T) -> BTreeMap<String, T> {
        (0..self.below(4)).map(|_| (self.string(), make(self))).collect()
    }

    fn edition(&mut self) -> Edition {
        self.one_of(&[Edition::E2015, Edition::E2018, Edition::E2021, Edition::E2024])
    }

    fn resolver(&mut self) -> Resolver {
        self.one_of(&[Resolver::V1, Resolver::V2, Resolver::V3])
    }

    fn string_or_bool(&mut self) -> StringOrBool {
        match self.flag() {
            true => StringOrBool::Bool(self.flag()),
            false => StringOrBool::String(self.string()),
        }
    }

    fn publish(&mut self) -> Publish {
        match self.flag() {
            true => Publish::Flag(self.flag()),
            false => Publish::Registry(self.strings()),
        }
    }

    fn datetime(&mut self) -> Datetime {
        let texts = ["1979-05-27", "07:32:00", "23:59:59.999999999", "2024-02-29T00:00:00", "0001-01-01T07:32:00.25Z"];
        let texts = [&texts[..], &["9999-12-31T23:59:59.5-07:30", "2024-12-31T23:59:59+14:00"]].concat();
        self.one_of(&texts).parse().expect("a date-time")
    }

    /// A value that has no float, nested so deep at most.
    fn value(&mut self, depth: usize) -> Value {
        match self.below(if depth == 0 { 5 } else { 7 }) {
            0 | 1 => Value::String(self.string()),
            2 => Value::Integer(self.one_of(&INTEGERS)),
            3 => Value::Boolean(self.flag()),
            4 => Value::Datetime(self.datetime()),
            5 => Value::Array((0..self.below(4)).map(|_| self.value(depth - 1)).collect()),
            _ => Value::Table((0..self.below(4)).map(|_| (self.string(), self.value(depth - 1))).collect()),
        }
    }

    fn dependency(&mut self) -> Dependency {
        match self.below(4) {
            0 => Dependency::Simple(self.string()),
            1 => Dependency::Inherited(InheritedDependencyDetail {
                features: self.option(Random::strings),
                optional: self.option(Random::flag),
                ..InheritedDependencyDetail::default()
            }),
            _ => Dependency::Detailed(DependencyDetail {
                version: self.option(Random::string),
                registry: self.option(Random::string),
                registry_index: self.option(Random::string),
                path: self.option(Random::string),
                git: self.option(Random::string),
                branch: self.option(Random::string),
                tag: self.option(Random::string),
                rev: self.option(Random::string),
                features: self.option(Random::strings),
                optional: self.option(Random::flag),
                default_features: self.option(Random::flag),
                package: self.option(Random::string),
            }),
        }
    }

    fn dependencies(&mut self) -> DepsSet {
        self.map(Random::dependency)
    }

    fn product(&mut self) -> Product {
        Product {
            path: self.option(Random::string),
            name: self.option(Random::string),
            test: self.flag(),
            doctest: self.flag(),
            bench: self.flag(),
            doc: self.flag(),
            plugin: self.flag(),
            proc_macro: self.flag(),
            harness: self.flag(),
            edition: self.option(Random::edition),
            required_features: self.strings(),
            crate_type: self.option(Random::strings),
        }
    }

    fn profile(&mut self) -> Profile {
        Profile {
            opt_level: self.option(|random| random.value(1)),
            debug: self.option(|random| random.value(1)),
            rpath: self.option(Random::flag),
            inherits: self.option(Random::string),
            lto: self.option(|random| random.value(1)),
            debug_assertions: self.option(Random::flag),
            codegen_units: self.option(|random| random.next() as u16),
            panic: self.option(Random::string),
            incremental: self.option(Random::flag),
            overflow_checks: self.option(Random::flag),
            strip: self
                .option(|random| random.one_of(&[StripSetting::None, StripSetting::Debuginfo, StripSetting::Symbols])),
            package: self.map(|random| random.value(3)),
            split_debuginfo: self.option(Random::string),
            build_override: self.option(|random| random.value(2)),
        }
    }

    fn lint(&mut self) -> Lint {
        let level = self.one_of(&[LintLevel::Forbid, LintLevel::Deny, LintLevel::Warn, LintLevel::Allow]);
        match self.flag() {
            true => Lint::Level(level),
            false => Lint::Config(LintConfig { level, priority: self.next() as i8 }),
        }
    }

    fn lints(&mut self) -> LintsSet {
        self.map(|random| random.map(Random::lint))
    }

    fn badge(&mut self) -> Badge {
        Badge {
            repository: self.string(),
            branch: self.string(),
            service: self.option(Random::string),
            id: self.option(Random::string),
            project_name: self.option(Random::string),
        }
    }

    fn badges(&mut self) -> Badges {
        use MaintenanceStatus::*;
        let all = [None, ActivelyDeveloped, PassivelyMaintained, AsIs, Experimental, LookingForMaintainer, Deprecated];
        Badges {
            appveyor: self.option(Random::badge),
            circle_ci: self.option(Random::badge),
            gitlab: self.option(Random::badge),
            travis_ci: self.option(Random::badge),
            codecov: self.option(Random::badge),
            coveralls: self.option(Random::badge),
            is_it_maintained_issue_resolution: self.option(Random::badge),
            is_it_maintained_open_issues: self.option(Random::badge),
            maintenance: Maintenance { status: self.one_of(&all) },
        }
    }

    fn workspace_package(&mut self) -> WorkspacePackage {
        WorkspacePackage {
            edition: self.option(Random::edition),
            version: self.option(Random::string),
            authors: self.option(Random::strings),
            description: self.option(Random::string),
            homepage: self.option(Random::string),
            documentation: self.option(Random::string),
            readme: self.option(Random::string_or_bool),
            keywords: self.option(Random::strings),
            categories: self.option(Random::strings),
            license: self.option(Random::string),
            license_file: self.option(Random::string),
            publish: self.option(Random::publish),
            exclude: self.option(Random::strings),
            include: self.option(Random::strings),
            repository: self.option(Random::string),
            rust_version: self.option(Random::string),
        }
    }

    fn workspace(&mut self) -> Workspace {
        Workspace {
            members: self.strings(),
            default_members: self.option(Random::strings),
            exclude: self.option(Random::strings),
            resolver: self.option(Random::resolver),
            dependencies: self.option(Random::dependencies),
            package: self.option(Random::workspace_package),
            metadata: self.option(|random| random.value(4)),
            lints: self.option(Random::lints),
        }
    }
}

/// Changes one field of a package.
fn change_package(package: &mut Package, random: &mut Random) {
    match random.below(28) {
        0 => package.name = random.string(),
        1 => package.edition = random.option(|random| random.inherited(Random::edition)),
        2 => package.version = random.option(|random| random.inherited(Random::string)),
        3 => package.build = random.option(Random::string_or_bool),
        4 => package.workspace = random.option(Random::string),
        5 => package.authors = random.option(|random| random.inherited(Random::strings)),
        6 => package.links = random.option(Random::string),
        7 => package.description = random.option(|random| random.inherited(Random::string)),
        8 => package.homepage = random.option(|random| random.inherited(Random::string)),
        9 => package.documentation = random.option(|random| random.inherited(Random::string)),
        10 => package.readme = random.option(|random| random.inherited(Random::string_or_bool)),
        11 => package.keywords = random.option(|random| random.inherited(Random::strings)),
        12 => package.categories = random.option(|random| random.inherited(Random::strings)),
        13 => package.license = random.option(|random| random.inherited(Random::string)),
        14 => package.license_file = random.option(|random| random.inherited(Random::string)),
        15 => package.repository = random.option(|random| random.inherited(Random::string)),
        16 => package.metadata = random.option(|random| random.value(4)),
        17 => package.rust_version = random.option(|random| random.inherited(Random::string)),
        18 => package.exclude = random.option(|random| random.inherited(Random::strings)),
        19 => package.include = random.option(|random| random.inherited(Random::strings)),
        20 => package.default_run = random.option(Random::string),
        21 => package.autolib = random.option(Random::flag),
        22 => package.autobins = random.option(Random::flag),
        23 => package.autoexamples = random.option(Random::flag),
        24 => package.autotests = random.option(Random::flag),
        25 => package.autobenches = random.option(Random::flag),
        26 => package.publish = random.option(|random| random.inherited(Random::publish)),
        _ => package.resolver = random.option(Random::resolver),
    }
}

fn change_products(products: &mut Vec<Product>, random: &mut Random) {
    match random.below(3) {
        0 => drop(products.pop()),
        1 => products.push(random.product()),
        _ => products.iter_mut().for_each(|product| product.edition = random.option(Random::edition)),
    }
}

/// Changes a set of dependencies: a new one, one less, another version, or none at all.
fn change_dependencies(set: &mut Option<DepsSet>, random: &mut Random) {
    if random.below(8) == 0 {
        *set = None;
        return;
    }
    let set = set.get_or_insert_with(DepsSet::new);
    match random.below(4) {
        0 => drop(set.pop_first()),
        1 => {
            for dependency in set.values_mut() {
                if let Dependency::Detailed(detail) = dependency {
                    detail.version = random.option(Random::string);
                    detail.default_features = random.option(Random::flag);
                }
            }
        }
        _ => drop(set.insert(random.string(), random.dependency())),
    }
}

fn change_profiles(profiles: &mut Profiles, random: &mut Random) {
    match random.below(7) {
        0 => profiles.release = random.option(Random::profile),
        1 => profiles.dev = random.option(Random::profile),
        2 => profiles.test = random.option(Random::profile),
        3 => profiles.bench = random.option(Random::profile),
        4 => profiles.doc = random.option(Random::profile),
        5 => drop(profiles.custom.pop_last()),
        _ => drop(profiles.custom.insert(random.string(), random.profile())),
    }
}

fn change_lints(lints: &mut Option<MaybeInheritedLintsSet>, random: &mut Random) {
    *lints =
        random.option(|random| MaybeInheritedLintsSet { workspace: random.option(|_| True), lints: random.lints() });
}

/// Changes one part of a manifest. It stays one: with a package or a workspace.
fn change(manifest: &mut Manifest, random: &mut Random) {
    match random.below(22) {
        0 => {
            manifest.workspace = Some(random.workspace());
            if random.flag() {
                manifest.package = None;
            }
        }
        1 => {
            manifest.package = Some(Package::new(random.string(), random.string()));
            if random.flag() {
                manifest.workspace = None;
            }
        }
        2 => manifest.cargo_features = random.option(Random::strings),
        3 => change_dependencies(&mut manifest.dependencies, random),
        4 => change_dependencies(&mut manifest.dev_dependencies, random),
        5 => change_dependencies(&mut manifest.build_dependencies, random),
        6 => {
            let targets = manifest.target.get_or_insert_with(TargetDepsSet::new);
            let target = Target {
                dependencies: random.dependencies(),
                dev_dependencies: random.dependencies(),
                build_dependencies: random.dependencies(),
            };
            targets.insert(random.string(), target);
        }
        7 => manifest.features = random.option(|random| random.map(Random::strings)),
        8 => change_products(&mut manifest.bin, random),
        9 => change_products(&mut manifest.bench, random),
        10 => change_products(&mut manifest.test, random),
        11 => change_products(&mut manifest.example, random),
        12 => manifest.patch = random.option(|random| random.map(Random::dependencies)),
        13 => manifest.lib = random.option(Random::product),
        14 => change_profiles(manifest.profile.get_or_insert_with(Profiles::default), random),
        15 => manifest.badges = random.option(Random::badges),
        16 => change_lints(&mut manifest.lints, random),
        _ => {
            if let Some(package) = &mut manifest.package {
                change_package(package, random);
            }
        }
    }
}

/// How a manifest differs from what is read of what is written of it.
fn difference(manifest: &Manifest) -> String {
    let text = match manifest.to_toml_string() {
        Ok(text) => text,
        Err(error) => return format!("it is not written: {error}"),
    };
    match Manifest::from_slice(text.as_bytes()) {
        Ok(read) if read == *manifest => match read.to_toml_string() {
            Ok(again) if again == text => "same".to_string(),
            again => format!("it is written otherwise: {again:?} where {text:?} is due"),
        },
        Ok(read) => format!("it is read as {read:?} where {manifest:?} is due"),
        Err(error) => format!("it is not read: {error}: {text:?}"),
    }
}

fn main() -> io::Result<()> {
    let words: Vec<String> = env::args().skip(1).collect();
    let [word, seed] = words.as_slice() else { panic!("usage: changes check | lines | texts SEED") };
    let seed: u64 = seed.parse().expect("a number");
    let mut out = io::stdout().lock();
    for (number, case) in cases::read().iter().enumerate() {
        let Ok(read) = Manifest::from_slice(&case.text) else { continue };
        for copy in 0..COPIES {
            let mut random = Random(seed ^ (number as u64) << 20 ^ copy << 50);
            let mut manifest = read.clone();
            for _ in 0..=random.below(MOST_CHANGES) {
                change(&mut manifest, &mut random);
            }
            match word.as_str() {
                "check" => writeln!(out, "{}", difference(&manifest))?,
                "lines" => writeln!(out, "{manifest:?}")?,
                _ => {
                    let text = manifest.to_toml_string().expect("a text");
                    write!(out, "{} 0\n{text}", text.len())?;
                }
            }
        }
    }
    Ok(())
}
