//! A registry looks at an upload: its manifest, and the list of the files in its archive. For each case of standard input it
//! prints what it would store, and every reason for which it would send the upload back.

mod cases;

use cargo_manifest::{
    AbstractFilesystem, Dependency, DepsSet, Edition, Error, Manifest, MaybeInherited, Package, Product, Publish,
    Resolver, StringOrBool,
};
use cases::Case;
use std::collections::BTreeSet;
use std::fmt::Write;
use std::io;
use std::path::Path;

const MOST_KEYWORDS: usize = 5;
const MOST_CATEGORIES: usize = 5;
const LONGEST_NAME: usize = 64;
const LONGEST_KEYWORD: usize = 20;

/// The files of an archive, by their paths. A folder that has none is an empty one.
struct Archive<'a>(&'a [String]);

impl AbstractFilesystem for Archive<'_> {
    fn file_names_in<T: AsRef<Path>>(&self, rel_path: T) -> io::Result<BTreeSet<Box<str>>> {
        let folder = rel_path.as_ref().strip_prefix(".").unwrap_or(rel_path.as_ref());
        let names = self.0.iter().filter_map(|file| {
            let first = Path::new(file).strip_prefix(folder).ok()?.components().next()?;
            first.as_os_str().to_str().map(Box::from)
        });
        Ok(names.collect())
    }
}

impl Archive<'_> {
    fn has(&self, file: &str) -> bool {
        self.0.iter().any(|other| other == file)
    }
}

/// What is said of an upload.
#[derive(Default)]
struct Report {
    facts: String,
    reasons: Vec<String>,
}

impl Report {
    fn fact(&mut self, name: &str, what: impl AsRef<str>) {
        writeln!(self.facts, "  {name}: {}", what.as_ref().escape_debug()).expect("a text takes it");
    }

    fn reason(&mut self, why: impl Into<String>) {
        self.reasons.push(why.into());
    }

    /// What a field has of its own. In an upload nothing may inherit from a workspace.
    fn local<'a, T>(&mut self, name: &str, field: &'a Option<MaybeInherited<T>>) -> Option<&'a T> {
        match field.as_ref().map(MaybeInherited::as_ref) {
            Some(MaybeInherited::Local(value)) => Some(value),
            Some(MaybeInherited::Inherited { .. }) => {
                self.reason(format!("{name} inherits from a workspace"));
                None
            }
            None => None,
        }
    }
}

fn is_word(text: &str) -> bool {
    let is_first = |letter: char| letter.is_ascii_alphabetic() || letter == '_';
    text.chars().next().is_some_and(is_first)
        && text.chars().all(|letter| letter.is_ascii_alphanumeric() || "-_".contains(letter))
}

/// Whether this is three numbers, with what may stand behind them.
fn is_version(text: &str) -> bool {
    let numbers = text.split(['-', '+']).next().unwrap_or_default();
    let parts: Vec<&str> = numbers.split('.').collect();
    parts.len() == 3 && parts.iter().all(|part| part.parse::<u64>().is_ok() && (*part == "0" || !part.starts_with('0')))
}

fn check_name(package: &Package, report: &mut Report) {
    if package.name.len() > LONGEST_NAME {
        report.reason(format!("the name has {} bytes", package.name.len()));
    }
    if !is_word(&package.name) {
        report.reason(format!("{:?} is no name of a package", package.name));
    }
}

fn check_version(package: &Package, report: &mut Report) {
    if package.version.is_none() {
        report.reason("there is no version");
    }
    match package.version() {
        MaybeInherited::Local(version) if is_version(version) => report.fact("version", version),
        MaybeInherited::Local(version) => report.reason(format!("{version:?} is no version")),
        MaybeInherited::Inherited { .. } => report.reason("version inherits from a workspace"),
    }
    if let Some(least) = report.local("rust-version", &package.rust_version) {
        if !least.split('.').all(|part| part.parse::<u64>().is_ok()) {
            report.reason(format!("{least:?} is no version of Rust"));
        }
    }
    let edition = report.local("edition", &package.edition).copied().unwrap_or_default();
    report.fact("edition", edition.as_str());
    let resolver = package.resolver.unwrap_or(match edition {
        Edition::E2015 | Edition::E2018 => Resolver::V1,
        Edition::E2021 => Resolver::V2,
        Edition::E2024 => Resolver::V3,
    });
    report.fact("resolver", format!("{resolver:?}"));
}

fn check_licence(package: &Package, archive: &Archive, report: &mut Report) {
    let licence = report.local("license", &package.license);
    let file = report.local("license-file", &package.license_file);
    match (licence, file) {
        (None, None) => report.reason("there is neither a licence nor a licence file"),
        (Some(licence), _) if !licence.trim().is_empty() => report.fact("licence", licence),
        (_, Some(file)) if archive.has(file) => report.fact("licence file", file),
        (_, Some(file)) => report.reason(format!("the licence file {file:?} is not in the archive")),
        (Some(_), None) => report.reason("the licence is empty"),
    }
}

fn check_readme(package: &Package, archive: &Archive, report: &mut Report) {
    let usual = || ["README.md", "README.txt", "README"].into_iter().find(|file| archive.has(file)).map(str::to_string);
    let file = match report.local("readme", &package.readme) {
        Some(StringOrBool::String(file)) => Some(file.clone()),
        Some(StringOrBool::Bool(true)) => Some("README.md".to_string()),
        Some(StringOrBool::Bool(false)) => None,
        None => usual(),
    };
    match file {
        Some(file) if archive.has(&file) => report.fact("readme", file),
        Some(file) => report.reason(format!("the readme {file:?} is not in the archive")),
        None => report.fact("readme", "none"),
    }
}

fn check_addresses(package: &Package, report: &mut Report) {
    let fields = [
        ("homepage", &package.homepage),
        ("documentation", &package.documentation),
        ("repository", &package.repository),
    ];
    for (name, field) in fields {
        let Some(address) = report.local(name, field) else { continue };
        let behind = address.strip_prefix("https://").or_else(|| address.strip_prefix("http://"));
        if behind.is_some_and(|host| host.starts_with(|letter: char| letter.is_ascii_alphanumeric())) {
            report.fact(name, address);
        } else {
            report.reason(format!("{name} {address:?} is no address"));
        }
    }
}

fn check_words(package: &Package, report: &mut Report) {
    if let Some(keywords) = report.local("keywords", &package.keywords) {
        if keywords.len() > MOST_KEYWORDS {
            report.reason(format!("there are {} keywords", keywords.len()));
        }
        for word in keywords.iter().filter(|word| word.len() > LONGEST_KEYWORD || !is_word(word)) {
            report.reason(format!("{word:?} is no keyword"));
        }
    }
    if let Some(categories) = report.local("categories", &package.categories) {
        if categories.len() > MOST_CATEGORIES {
            report.reason(format!("there are {} categories", categories.len()));
        }
    }
    match report.local("description", &package.description) {
        Some(text) if !text.is_empty() => report.fact("description", format!("{} characters", text.chars().count())),
        _ => report.reason("there is no description"),
    }
    if let Some(authors) = report.local("authors", &package.authors) {
        report.fact("authors", authors.join(", "));
    }
    for (name, field) in [("include", &package.include), ("exclude", &package.exclude)] {
        if let Some(patterns) = report.local(name, field) {
            report.fact(name, format!("{} patterns", patterns.len()));
        }
    }
}

fn check_publish(package: &Package, report: &mut Report) {
    let Some(publish) = report.local("publish", &package.publish) else { return };
    if *publish == false {
        report.reason("publish forbids it");
    }
    if let Publish::Registry(names) = publish {
        if !names.is_empty() && !names.iter().any(|name| name == "crates-io") {
            report.reason(format!("it is for {}", names.join(", ")));
        }
    }
}

/// A dependency: what is stored of it, or why it cannot be.
fn check_dependency(kind: &str, name: &str, dependency: &Dependency, report: &mut Report) {
    if let Dependency::Inherited(_) = dependency {
        report.reason(format!("{kind} {name:?} inherits from a workspace"));
        return;
    }
    if let Some(address) = dependency.git() {
        report.reason(format!("{kind} {name:?} is of the repository {address:?}"));
    }
    let detail = dependency.detail();
    if let Some(path) = detail.and_then(|detail| detail.path.as_deref()) {
        report.reason(format!("{kind} {name:?} is of the path {path:?}"));
    }
    if let Some(registry) = detail.and_then(|detail| detail.registry.as_ref().or(detail.registry_index.as_ref())) {
        report.reason(format!("{kind} {name:?} is of the registry {registry:?}"));
    }
    if !dependency.is_crates_io() {
        return;
    }
    let real = dependency.package().unwrap_or(name);
    let mut line = format!("{real} {}", dependency.req());
    if real != name {
        write!(line, " as {name}").expect("a text takes it");
    }
    if dependency.optional() {
        line += ", optional";
    }
    if detail.and_then(|detail| detail.default_features) == Some(false) {
        line += ", without default features";
    }
    if !dependency.req_features().is_empty() {
        write!(line, ", with {}", dependency.req_features().join(" ")).expect("a text takes it");
    }
    report.fact(kind, line);
}

fn check_set(kind: &str, dependencies: Option<&DepsSet>, report: &mut Report) {
    for (name, dependency) in dependencies.into_iter().flatten() {
        check_dependency(kind, name, dependency, report);
    }
}

fn check_dependencies(manifest: &Manifest, report: &mut Report) {
    check_set("dependency", manifest.dependencies.as_ref(), report);
    check_set("dependency of tests", manifest.dev_dependencies.as_ref(), report);
    check_set("dependency of the build", manifest.build_dependencies.as_ref(), report);
    for (platform, target) in manifest.target.iter().flatten() {
        check_set(&format!("dependency on {platform}"), Some(&target.dependencies), report);
        check_set(&format!("dependency of tests on {platform}"), Some(&target.dev_dependencies), report);
        check_set(&format!("dependency of the build on {platform}"), Some(&target.build_dependencies), report);
    }
}

/// Each feature, and whether what it asks for is a feature or a dependency.
fn check_features(manifest: &Manifest, report: &mut Report) {
    let Some(features) = &manifest.features else { return };
    let is_dependency = |name: &str| manifest.dependencies.as_ref().is_some_and(|all| all.contains_key(name));
    for (name, asked) in features {
        report.fact("feature", format!("{name} = {}", asked.join(" ")));
        for wish in asked {
            let plain = wish.strip_prefix("dep:").unwrap_or(wish);
            let first = plain.split(['/', '?']).next().unwrap_or_default();
            if !features.contains_key(first) && !is_dependency(first) {
                report.reason(format!("the feature {name:?} asks for {wish:?}, which is not there"));
            }
        }
    }
}

/// A target, after it was completed.
fn check_product(kind: &str, product: &Product, archive: &Archive, report: &mut Report) {
    let name = product.name.as_deref().unwrap_or("-");
    match product.path.as_deref() {
        Some(path) if archive.has(path) => report.fact(kind, format!("{name} at {path}")),
        Some(path) => report.reason(format!("{kind} {name:?} is not in the archive: {path:?}")),
        None => report.reason(format!("{kind} {name:?} has no file")),
    }
    if !product.required_features.is_empty() {
        report.fact(kind, format!("{name} wants {}", product.required_features.join(" ")));
    }
    for form in product.crate_type.iter().flatten().filter(|form| *form != "lib" && *form != "bin") {
        report.fact(kind, format!("{name} is a {form}"));
    }
    if product.proc_macro {
        report.fact(kind, format!("{name} is a procedural macro"));
    }
}

fn check_products(manifest: &Manifest, archive: &Archive, report: &mut Report) {
    let sets = [
        ("binary", &manifest.bin),
        ("example", &manifest.example),
        ("test", &manifest.test),
        ("bench", &manifest.bench),
    ];
    if let Some(library) = &manifest.lib {
        check_product("library", library, archive, report);
    }
    for (kind, products) in sets {
        for product in products {
            check_product(kind, product, archive, report);
        }
    }
    if manifest.lib.is_none() && manifest.bin.is_empty() {
        report.reason("there is neither a library nor a binary");
    }
}

/// What else is shown of a package.
fn describe(manifest: &Manifest, package: &Package, report: &mut Report) {
    match &package.build {
        Some(StringOrBool::String(script)) => report.fact("build script", script),
        Some(StringOrBool::Bool(is_there)) => report.fact("build script", is_there.to_string()),
        None => (),
    }
    if let Some(links) = &package.links {
        report.fact("links", links);
    }
    if let Some(metadata) = &package.metadata {
        report.fact("metadata", metadata.type_str());
        if let Some(docs) = metadata.get("docs").and_then(|docs| docs.get("rs")) {
            report.fact("docs.rs", docs.to_string());
        }
    }
    if let Some(badges) = &manifest.badges {
        report.fact("maintenance", format!("{:?}", badges.maintenance.status));
    }
    let lints = manifest.lints.iter().flat_map(|lints| lints.lints.values().flatten());
    let strict = lints.filter(|(_, lint)| matches!(lint.level().as_str(), "forbid" | "deny")).count();
    report.fact("strict lints", strict.to_string());
}

fn check(case: &Case, report: &mut Report) -> Result<(), Error> {
    let archive = Archive(&case.files);
    let mut manifest = Manifest::from_slice(&case.text)?;
    manifest.complete_from_abstract_filesystem(&archive)?;
    let Some(package) = &manifest.package else {
        report.reason("it is no package");
        return Ok(());
    };
    check_name(package, report);
    check_version(package, report);
    check_licence(package, &archive, report);
    check_readme(package, &archive, report);
    check_addresses(package, report);
    check_words(package, report);
    check_publish(package, report);
    check_dependencies(&manifest, report);
    check_features(&manifest, report);
    check_products(&manifest, &archive, report);
    describe(&manifest, package, report);
    Ok(())
}

/// Why a manifest cannot be looked at.
fn refusal(error: &Error) -> String {
    match error {
        Error::Parse(_) => "the manifest cannot be read".to_string(),
        Error::Utf8(_) => "the manifest is no text".to_string(),
        Error::Io(fault) => format!("the archive cannot be listed: {fault}"),
        Error::Other(_) => error.to_string(),
    }
}

fn main() {
    for (number, case) in cases::read().iter().enumerate() {
        let mut report = Report::default();
        if let Err(error) = check(case, &mut report) {
            report.reason(refusal(&error));
        }
        println!("upload {}: {}", number + 1, if report.reasons.is_empty() { "taken" } else { "sent back" });
        print!("{}", report.facts);
        for reason in &report.reasons {
            println!("  no: {}", reason.escape_debug());
        }
    }
}
