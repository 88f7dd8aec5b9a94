//! The cases of `tests/checks` of the repository, as its README.md says them, and what stands around each of their manifests: it is
//! gathered here from the files of the case alone, as a program would gather it from a disk.

use cargo_manifest::calls::Listings;
use cargo_manifest::check::{Check, Diagnostic, Level, Member, PathPackage};
use cargo_manifest::Value;
use std::collections::{BTreeMap, BTreeSet};
use std::fs;
use std::io;
use std::path::Path;

/// A diagnostic: its file, its line and column from 1 on (a column of 0 is any one), its code, its level and its message.
pub type Told = (String, usize, usize, String, String, String);

/// One case.
pub struct Case {
    /// Its file and its name.
    pub name: String,
    options: Vec<String>,
    files: BTreeMap<String, Vec<u8>>,
    pub expected: Vec<Told>,
}

/// The file of the repository with this path; nothing where the crate stands without it.
fn file(path: &str) -> String {
    fs::read_to_string(Path::new(env!("CARGO_MANIFEST_DIR")).join("../..").join(path)).unwrap_or_default()
}

/// The levels of the codes, as the tables of docs/CHECKS.md have them.
fn levels() -> BTreeMap<String, String> {
    let page = file("docs/CHECKS.md");
    let row = |line: &str| {
        let (code, rest) = line.strip_prefix("| [`")?.split_once("`](#")?;
        let level = rest.split(" | ").nth(1)?;
        Some((code.to_owned(), level.split(',').next()?.to_owned()))
    };
    page.lines().filter_map(row).collect()
}

/// The bytes of a text in ASCII with escapes, `\xff` and `\r`.
fn unescaped(text: &str) -> Vec<u8> {
    let mut bytes = Vec::new();
    let mut left = text.bytes();
    while let Some(byte) = left.next() {
        bytes.push(match (byte, byte == b'\\') {
            (_, true) => match left.next().expect("an escape") {
                b'r' => b'\r',
                b'n' => b'\n',
                b't' => b'\t',
                b'0' => 0,
                b'x' => {
                    let digits = [left.next().expect("a digit"), left.next().expect("a digit")];
                    let digits = std::str::from_utf8(&digits).expect("digits");
                    u8::from_str_radix(digits, 16).expect("digits")
                }
                other => other,
            },
            (byte, false) => byte,
        });
    }
    bytes
}

/// The diagnostic of a line of the part `expected`, without its message.
fn told_of(line: &str, manifest: &str, levels: &BTreeMap<String, String>) -> Told {
    let (file, rest) = match line.split_once("Cargo.toml: ") {
        Some((folder, rest)) => (format!("{folder}Cargo.toml"), rest),
        None => (manifest.to_owned(), line),
    };
    let mut words = rest.split(' ');
    let (code, place) = (words.next().expect("a code"), words.next().expect("a place"));
    let (line, column) = place.split_once(':').expect("a line and a column");
    let level = words.next().map_or_else(|| levels[code].clone(), str::to_owned);
    (file, line.parse().expect("a line"), column.parse().unwrap_or(0), code.to_owned(), level, String::new())
}

/// The diagnostics of the part `expected`. Below each stands its text, whose first line is its message.
fn expected_diagnostics(text: &str, manifest: &str, levels: &BTreeMap<String, String>) -> Vec<Told> {
    let mut expected: Vec<Told> = Vec::new();
    for line in text.lines().filter(|line| !line.is_empty()) {
        match line.strip_prefix("    ") {
            Some(text) => {
                let message = &mut expected.last_mut().expect("a diagnostic").5;
                if message.is_empty() {
                    message.push_str(text);
                }
            }
            None => expected.push(told_of(line, manifest, levels)),
        }
    }
    expected.sort();
    expected
}

/// The case of a block of lines, whose first one is its name.
fn case_of(file: &str, block: &str, levels: &BTreeMap<String, String>) -> Case {
    let mut parts = block.split("\n--- ");
    let mut head = parts.next().expect("a head").lines();
    let name = format!("{file}: {}", head.next().expect("a name"));
    let options = head.find_map(|line| line.strip_prefix("options: ")).unwrap_or_default();
    let (mut files, mut expected) = (BTreeMap::new(), Vec::new());
    let mut manifest: Option<String> = None;
    for part in parts {
        let (head, text, end) = part.split_once('\n').map_or((part, "", ""), |(head, text)| (head, text, "\n"));
        let (path, is_escaped) = match head.strip_suffix(", escaped") {
            Some(path) => (path, true),
            None => (head, false),
        };
        if path == "expected" {
            expected = expected_diagnostics(text, manifest.as_deref().expect("a manifest"), levels);
            continue;
        }
        if manifest.is_none() && path.ends_with("Cargo.toml") {
            manifest = Some(path.to_owned());
        }
        let bytes = if is_escaped { unescaped(text) } else { format!("{text}{end}").into_bytes() };
        files.insert(path.to_owned(), bytes);
    }
    Case { name, options: options.split(' ').map(str::to_owned).collect(), files, expected }
}

/// All cases. There are none where the crate stands without the repository.
pub fn cases() -> Vec<Case> {
    let folder = Path::new(env!("CARGO_MANIFEST_DIR")).join("../../tests/checks");
    let Ok(entries) = fs::read_dir(folder) else {
        println!("nothing is tried: tests/checks is not there");
        return Vec::new();
    };
    let names = entries.flatten().filter_map(|entry| entry.file_name().into_string().ok());
    let names: BTreeSet<String> = names.filter(|name| name.ends_with(".cases")).collect();
    let levels = levels();
    let mut all = Vec::new();
    for name in names {
        let text = format!("\n{}", file(&format!("tests/checks/{name}")));
        all.extend(text.split("\n=== ").skip(1).map(|block| case_of(&name, block, &levels)));
    }
    all
}

/// The path to which one leads from a folder; the folder of the case is the empty text, and what is outside it begins with `..`.
fn joined(folder: &str, path: &str) -> String {
    let mut parts: Vec<&str> = Vec::new();
    for part in folder.split('/').chain(path.split('/')) {
        match part {
            "" | "." => {}
            ".." if parts.last().is_some_and(|last| *last != "..") => drop(parts.pop()),
            _ => parts.push(part),
        }
    }
    parts.join("/")
}

/// The folder that a path stands in, and its name.
fn split(path: &str) -> (&str, &str) {
    path.rsplit_once('/').unwrap_or(("", path))
}

/// What is left of a path below a folder.
fn below<'a>(path: &'a str, folder: &str) -> Option<&'a str> {
    if folder.is_empty() {
        return Some(path);
    }
    match path.strip_prefix(folder)? {
        "" => Some(""),
        rest => rest.strip_prefix('/'),
    }
}

/// The path of a folder from another one.
fn from(folder: &str, path: &str) -> String {
    match below(path, folder) {
        Some(rest) => rest.to_owned(),
        None => format!("{}{path}", "../".repeat(folder.split('/').count())),
    }
}

/// Whether a name fits a pattern of characters, `?` and `*`.
fn fits(pattern: &str, name: &str) -> bool {
    let mut chars = pattern.chars();
    match chars.next() {
        None => name.is_empty(),
        Some('*') => {
            name.char_indices().map(|(at, _)| at).chain([name.len()]).any(|at| fits(chars.as_str(), &name[at..]))
        }
        Some(first) => {
            let mut others = name.chars();
            others.next().is_some_and(|other| first == '?' || first == other) && fits(chars.as_str(), others.as_str())
        }
    }
}

fn is_pattern(part: &str) -> bool {
    part.contains(['*', '?', '['])
}

/// Whether a pattern leads to a folder.
fn leads_to(pattern: &str, folder: &str) -> bool {
    let (parts, names): (Vec<_>, Vec<_>) = (pattern.split('/').collect(), folder.split('/').collect());
    parts.len() == names.len() && parts.iter().zip(names).all(|(part, name)| fits(part, name))
}

fn texts<'a>(table: &'a Value, key: &str) -> Vec<&'a str> {
    table.get(key).and_then(Value::as_array).into_iter().flatten().filter_map(Value::as_str).collect()
}

const SECTIONS: [&str; 5] =
    ["dependencies", "dev-dependencies", "dev_dependencies", "build-dependencies", "build_dependencies"];

/// The dependencies of a package, each by its name.
fn dependencies(document: &Value) -> Vec<(&String, &Value)> {
    let platforms = document.get("target").and_then(Value::as_table).into_iter().flat_map(|table| table.values());
    let holders = [document].into_iter().chain(platforms);
    let tables = holders.flat_map(|holder| SECTIONS.into_iter().filter_map(|section| holder.get(section)?.as_table()));
    tables.flatten().collect()
}

fn is_inherited(dependency: &Value) -> bool {
    dependency.get("workspace").and_then(Value::as_bool) == Some(true)
}

/// The `path`s of dependencies that the rules look at, as they are written.
fn written_paths(document: &Value) -> BTreeSet<&str> {
    let own = dependencies(document).into_iter().filter(|(_, dependency)| !is_inherited(dependency));
    let shared = document.get("workspace").and_then(|workspace| workspace.get("dependencies")?.as_table());
    let patches = document.get("patch").and_then(Value::as_table).into_iter().flat_map(|table| table.values());
    let others = shared.into_iter().chain(patches.filter_map(Value::as_table));
    let others = others.chain(document.get("replace").and_then(Value::as_table)).flatten();
    own.chain(others).filter_map(|(_, dependency)| dependency.get("path")?.as_str()).collect()
}

/// The codes that the settings of a package deny, which the library leaves to the program that shows what is wrong.
fn denied(document: &Value) -> Vec<&str> {
    let metadata = document.get("package").and_then(|package| package.get("metadata"));
    metadata.and_then(|metadata| metadata.get("manifest-check")).map(|set| texts(set, "deny")).unwrap_or_default()
}

/// A member: its folder, and the indexes of the patterns that lead to it.
type Found = (String, Vec<usize>);

impl Case {
    /// The names in a folder.
    fn names(&self, folder: &str) -> Option<BTreeSet<&str>> {
        let inside = self.files.keys().filter_map(|path| below(path, folder)).filter(|path| !path.is_empty());
        let names: BTreeSet<&str> = inside.map(|path| path.split('/').next().unwrap_or_default()).collect();
        let is_there =
            !names.is_empty() && !self.files.contains_key(folder) || self.files.contains_key(&format!("{folder}/"));
        is_there.then(|| names.into_iter().filter(|name| !name.is_empty()).collect())
    }

    fn manifest(&self, folder: &str) -> Option<&[u8]> {
        self.files.get(&joined(folder, "Cargo.toml")).map(Vec::as_slice)
    }

    /// The document of the manifest in a folder.
    fn document(&self, folder: &str) -> Option<Value> {
        std::str::from_utf8(self.manifest(folder)?).ok()?.parse().ok()
    }

    /// Whether the root in a folder leaves another one out.
    fn excludes(&self, root: &str, document: &Value, folder: &str) -> bool {
        let is_under = |key| {
            let listed = document.get("workspace").map(|workspace| texts(workspace, key)).unwrap_or_default();
            listed.iter().any(|path| below(folder, &joined(root, path)).is_some())
        };
        !is_under("members") && is_under("exclude")
    }

    /// The folder of the root of the manifest in this folder, which is no root itself.
    fn root_of(&self, folder: &str, document: &Value) -> Option<String> {
        let is_root = |folder: &str| self.document(folder).is_some_and(|document| document.get("workspace").is_some());
        let pointer = |document: &Value| document.get("package")?.get("workspace")?.as_str().map(str::to_owned);
        if let Some(path) = pointer(document) {
            return Some(joined(folder, &path)).filter(|root| is_root(root));
        }
        let mut above = folder;
        while !above.is_empty() {
            above = split(above).0;
            let Some(found) = self.document(above) else { continue };
            if let Some(path) = pointer(&found).filter(|_| found.get("workspace").is_none()) {
                return Some(joined(above, &path)).filter(|root| is_root(root));
            }
            if found.get("workspace").is_some() && !self.excludes(above, &found, folder) {
                return Some(above.to_owned());
            }
        }
        None
    }

    /// The folders that a pattern of the root leads to.
    fn expanded(&self, root: &str, pattern: &str) -> Vec<String> {
        let whole = joined(root, pattern);
        whole.split('/').fold(vec![String::new()], |folders, part| {
            let next = |folder: String| -> Vec<String> {
                if !is_pattern(part) {
                    return vec![joined(&folder, part)];
                }
                let names = self.names(&folder).unwrap_or_default();
                names.into_iter().filter(|name| fits(part, name)).map(|name| joined(&folder, name)).collect()
            };
            folders.into_iter().flat_map(next).collect()
        })
    }

    /// The folders to which the dependencies of the manifest in a folder lead, by a `path` of their own or of the root's.
    fn led_to(&self, root: &str, shared: &Value, folder: &str) -> Vec<String> {
        let Some(document) = self.document(folder) else { return Vec::new() };
        let path_of = |(name, dependency): (&String, &Value)| {
            if is_inherited(dependency) {
                let inherited = shared.get("workspace")?.get("dependencies")?.get(name.as_str())?;
                return Some(joined(root, inherited.get("path")?.as_str()?));
            }
            Some(joined(folder, dependency.get("path")?.as_str()?))
        };
        dependencies(&document).into_iter().filter_map(path_of).collect()
    }

    /// The members of the root in this folder.
    fn members(&self, root: &str, document: &Value) -> Vec<Found> {
        let patterns = document.get("workspace").map(|workspace| texts(workspace, "members")).unwrap_or_default();
        let mut found: Vec<Found> = Vec::new();
        let mut next = self.led_to(root, document, root);
        for (index, pattern) in patterns.into_iter().enumerate() {
            for folder in self.expanded(root, pattern) {
                if folder == root || self.excludes(root, document, &folder) {
                    continue;
                }
                if let Some((_, indexes)) = found.iter_mut().find(|(other, _)| *other == folder) {
                    indexes.push(index);
                } else if self.manifest(&folder).is_some() || is_pattern(pattern) && self.names(&folder).is_some() {
                    next.extend(self.led_to(root, document, &folder));
                    found.push((folder, vec![index]));
                }
            }
        }
        while let Some(folder) = next.pop() {
            let is_inside =
                below(&folder, root).is_some_and(|rest| !rest.is_empty()) && self.manifest(&folder).is_some();
            let is_new = found.iter().all(|(other, _)| *other != folder);
            if is_inside && is_new && !self.excludes(root, document, &folder) {
                next.extend(self.led_to(root, document, &folder));
                found.push((folder, Vec::new()));
            }
        }
        found
    }

    /// Whether the root lists the package in a folder.
    fn lists(&self, root: &str, document: &Value, folder: &str) -> bool {
        let patterns = document.get("workspace").map(|workspace| texts(workspace, "members")).unwrap_or_default();
        patterns.iter().any(|pattern| leads_to(&joined(root, pattern), folder))
            || self.members(root, document).iter().any(|(member, _)| member == folder)
    }

    /// What is wrong with the manifest in a folder.
    fn diagnostics(&self, folder: &str, bytes: &[u8]) -> Vec<Diagnostic> {
        let listings = Listings::gather_for(bytes, |path| match self.names(&joined(folder, path)) {
            Some(names) => Ok(names.into_iter().map(str::to_owned).collect()),
            None => Err(io::ErrorKind::NotFound.into()),
        });
        let document = self.document(folder).unwrap_or_else(|| Value::Table(BTreeMap::new()));
        let packages: Vec<(&str, Option<String>)> = written_paths(&document)
            .into_iter()
            .map(|path| {
                let found = self.document(&joined(folder, path));
                (path, found.and_then(|found| Some(found.get("package")?.get("name")?.as_str()?.to_owned())))
            })
            .collect();
        let packages: Vec<PathPackage<'_>> =
            packages.iter().map(|(path, name)| PathPackage { path, name: name.as_deref() }).collect();
        let is_publishing = self.options.iter().any(|option| option == "--publish");
        let mut check = Check::of(bytes).folders(&listings).packages(&packages).publishing(is_publishing);
        if let Some(config) = self.files.get(".cargo/config.toml") {
            check = check.config(config);
        }
        if document.get("workspace").is_some() {
            let members = self.members(folder, &document);
            let paths: Vec<String> = members.iter().map(|(member, _)| from(folder, member)).collect();
            let members: Vec<Member<'_>> = members
                .iter()
                .zip(&paths)
                .map(|((member, patterns), path)| Member { path, manifest: self.manifest(member), patterns })
                .collect();
            return check.members(&members).diagnostics().expect("diagnostics");
        }
        match self.root_of(folder, &document) {
            Some(root) => {
                let found = self.document(&root).expect("a root");
                let is_listed = self.lists(&root, &found, folder);
                check
                    .root(self.manifest(&root).expect("a root"))
                    .is_listed(is_listed)
                    .diagnostics()
                    .expect("diagnostics")
            }
            None => check.without_root().diagnostics().expect("diagnostics"),
        }
    }

    /// What is wrong with each manifest of the case.
    pub fn told(&self) -> Vec<Told> {
        let mut told = Vec::new();
        for (path, bytes) in self.files.iter().filter(|(path, _)| split(path).1 == "Cargo.toml") {
            let document = self.document(split(path).0);
            let denied = document.as_ref().map(denied).unwrap_or_default();
            for found in self.diagnostics(split(path).0, bytes) {
                let (line, column) = found.line_column(bytes).unwrap_or((1, 1));
                let level = if denied.contains(&found.code.as_str()) { Level::Error } else { found.level };
                let message = found.message.replace('\n', "\\n").replace('\t', "\\t");
                told.push((path.clone(), line, column, found.code, level.to_string(), message));
            }
        }
        told
    }
}
