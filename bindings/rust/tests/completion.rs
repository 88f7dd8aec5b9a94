//! Completing and resolving: what is asked, what refuses, and what is left.

mod stored;

use cargo_manifest::{AbstractFilesystem, Error, Filesystem, Manifest, MaybeInherited, Package, Value, Workspace};
use std::cell::RefCell;
use std::collections::{BTreeMap, BTreeSet};
use std::io::{self, ErrorKind};
use std::path::{Path, PathBuf};
use std::{fmt, fs};

/// Folders by their paths. What is asked is noted.
#[derive(Default)]
struct Folders {
    names: BTreeMap<String, BTreeSet<Box<str>>>,
    faults: BTreeMap<String, (ErrorKind, &'static str)>,
    asked: RefCell<Vec<String>>,
}

impl Folders {
    fn of(files: &[&str]) -> Folders {
        let mut folders = Folders::default();
        folders.names.insert(".".into(), BTreeSet::new());
        for file in files {
            folders.put(file);
        }
        folders
    }

    /// Puts a file, and the folders that it stands in.
    fn put(&mut self, path: &str) {
        let (folder, name) = path.rsplit_once('/').unwrap_or((".", path));
        self.names.entry(folder.into()).or_default().insert(name.into());
        if folder != "." {
            self.put(folder);
        }
    }

    fn with_fault(mut self, path: &str, kind: ErrorKind, text: &'static str) -> Folders {
        self.faults.insert(path.into(), (kind, text));
        self
    }
}

/// An error that can be distinguished from others.
#[derive(Debug)]
struct Own(&'static str);

impl fmt::Display for Own {
    fn fmt(&self, f: &mut fmt::Formatter<'_>) -> fmt::Result {
        f.write_str(self.0)
    }
}

impl std::error::Error for Own {}

impl AbstractFilesystem for Folders {
    fn file_names_in<T: AsRef<Path>>(&self, folder: T) -> io::Result<BTreeSet<Box<str>>> {
        let path = folder.as_ref().to_str().expect("a text").to_owned();
        self.asked.borrow_mut().push(path.clone());
        if let Some((kind, text)) = self.faults.get(&path) {
            return Err(io::Error::new(*kind, Own(text)));
        }
        self.names.get(&path).cloned().ok_or_else(|| ErrorKind::NotFound.into())
    }
}

const OWN_LIBRARY: &str = "[package]\nname = 'p'\nedition = '2021'\n[package.metadata]\nkept = 1\n[lib]\n";

/// What a completion of the manifest asks and answers over these folders. A refusal leaves the manifest as it was.
fn completed(text: &str, folders: &Folders) -> (Vec<String>, Result<Manifest, Error>) {
    let before: Manifest = text.parse().unwrap();
    let mut manifest = before.clone();
    let answer = manifest.complete_from_abstract_filesystem(folders);
    if answer.is_err() {
        assert_eq!(manifest, before);
    }
    (folders.asked.take(), answer.map(|()| manifest))
}

#[test]
fn what_is_asked_in_which_order() {
    let files = ["src/lib.rs", "src/bin/b.rs", "src/bin/a/main.rs", "tests/t.rs", "build.rs", "other/x.rs"];
    let all = ["src", "src/bin", "src/bin/a", "src/bin/b.rs", "examples", "tests", "tests/t.rs", "benches"];
    let (asked, answer) = completed(OWN_LIBRARY, &Folders::of(&files));
    assert_eq!(asked, [&all[..], &["."]].concat());
    let manifest = answer.unwrap();
    let package = manifest.package.unwrap();
    assert_eq!(package.metadata, Some(Value::from_iter([("kept", 1)])));
    assert_eq!(package.build, Some(cargo_manifest::StringOrBool::String("build.rs".into())));
    for build in ["build = false", "build = 'b.rs'"] {
        let text = OWN_LIBRARY.replace("edition", &format!("{build}\nedition"));
        assert_eq!(completed(&text, &Folders::of(&files)).0, all);
    }
    let (asked, answer) = completed("[workspace]\nmembers = []\n", &Folders::of(&files));
    assert_eq!((asked, answer.unwrap().bin), (vec![], vec![]));
}

/// The text of an error that a folder gave, which has to be the same one.
fn own(error: Error) -> &'static str {
    match error {
        Error::Io(error) => error.into_inner().and_then(|inner| inner.downcast::<Own>().ok()).expect("the own error").0,
        other => panic!("{other:?}"),
    }
}

#[test]
fn what_refuses_is_the_error_of_the_folder_and_nothing_is_asked_after_it() {
    let files = ["src/lib.rs", "src/bin/a.rs", "tests/t.rs"];
    let refused = |path, kind| {
        let folders = Folders::of(&files).with_fault(".", kind, "a later one").with_fault(path, kind, "this one");
        let (asked, answer) = completed(OWN_LIBRARY, &folders);
        assert_eq!(own(answer.unwrap_err()), "this one");
        assert_eq!(asked.last().unwrap(), path);
        asked.len()
    };
    assert_eq!(refused("src", ErrorKind::PermissionDenied), 1);
    assert_eq!(refused("src", ErrorKind::OutOfMemory), 1);
    assert_eq!(refused("src/bin", ErrorKind::OutOfMemory), 2);
    assert_eq!(refused("src/bin/a.rs", ErrorKind::OutOfMemory), 3);
    assert_eq!(refused("tests/t.rs", ErrorKind::OutOfMemory), 6);
    for kind in [ErrorKind::NotFound, ErrorKind::PermissionDenied, ErrorKind::OutOfMemory] {
        assert_eq!(refused(".", kind), 8);
    }
}

#[test]
fn what_does_not_refuse() {
    let folders = Folders::of(&["src/lib.rs", "src/bin/a.rs"])
        .with_fault("src/bin/a.rs", ErrorKind::NotADirectory, "")
        .with_fault("examples", ErrorKind::PermissionDenied, "");
    let (asked, answer) = completed(OWN_LIBRARY, &folders);
    assert_eq!((asked.len(), answer.unwrap().bin.len()), (7, 1));
}

#[test]
fn a_library_without_a_file_refuses_after_src() {
    for files in [&["src/p.rs"][..], &[]] {
        let (asked, answer) = completed(OWN_LIBRARY, &Folders::of(files));
        let Err(Error::Other(text)) = answer else { panic!("{answer:?}") };
        assert_eq!(text, "can't find library, rename file to `src/lib.rs` or specify lib.path");
        assert_eq!(asked, ["src"]);
    }
    let in_2015 = OWN_LIBRARY.replace("2021", "2015");
    let (_, answer) = completed(&in_2015, &Folders::of(&["src/p.rs"]));
    assert_eq!(answer.unwrap().lib.unwrap().path.as_deref(), Some("src/p.rs"));
}

#[test]
fn the_stored_completions() {
    for line in stored::lines("completions.jsonl") {
        let [manifest] = &stored::strings(&line, "manifest")[..] else { panic!("{line}") };
        let files = stored::strings(&line, "files");
        let folders = Folders::of(&files.iter().map(String::as_str).collect::<Vec<_>>());
        let (_, answer) = completed(manifest, &folders);
        match &stored::strings(&line, "answer")[..] {
            [wanted] => assert_eq!(answer.unwrap(), wanted.parse::<Manifest>().unwrap(), "{line}"),
            _ => assert!(matches!(answer, Err(Error::Other(_))), "{line}"),
        }
    }
}

#[test]
fn folders_of_the_disk() {
    let folder = PathBuf::from(env!("CARGO_TARGET_TMPDIR")).join("completion");
    let _ = fs::remove_dir_all(&folder);
    fs::create_dir_all(folder.join("src")).unwrap();
    fs::write(folder.join("src/main.rs"), "").unwrap();
    fs::write(folder.join("Cargo.toml"), "[package]\nname = 'p'\n").unwrap();
    assert_eq!(Filesystem::new(&folder).file_names_in("src").unwrap(), BTreeSet::from(["main.rs".into()]));
    let mut manifest = Manifest::from_path(folder.join("Cargo.toml")).unwrap();
    assert_eq!(manifest.bin[0].path.as_deref(), Some("src/main.rs"));
    let once = manifest.clone();
    manifest.complete_from_path(&folder.join("Cargo.toml")).unwrap();
    assert_eq!(manifest, once);
    assert!(matches!(manifest.complete_from_path(Path::new("/")), Err(Error::Io(_))));
    assert_eq!(manifest, once);
}

#[test]
fn the_flags() {
    let flags = |text: &str| {
        let manifest: Manifest = text.parse().unwrap();
        [manifest.autobins(), manifest.autoexamples(), manifest.autotests(), manifest.autobenches()]
    };
    assert_eq!(flags("[workspace]"), [false; 4]);
    assert_eq!(flags("[package]\nname = 'a'\n[[bin]]\nname = 'b'\n"), [false, true, true, true]);
    assert_eq!(flags("[package]\nname = 'a'\nedition = '2018'\n[[bin]]\nname = 'b'\n"), [true; 4]);
    assert_eq!(flags("[package]\nname = 'a'\nedition.workspace = true\n[[test]]\nname = 'b'\n"), [true; 4]);
    assert_eq!(
        flags("[package]\nname = 'a'\nautotests = false\nautobenches = true\n[[bench]]\n"),
        [true, true, false, true]
    );
}

/// What a member becomes over the workspace of a root. A refusal leaves the member as it was.
fn resolved(member: &str, root: &str) -> Result<Manifest, String> {
    let root: Manifest = root.parse().unwrap();
    let before: Manifest = member.parse().unwrap();
    let mut manifest = before.clone();
    match manifest.resolve(&root.workspace.unwrap()) {
        Ok(()) => Ok(manifest),
        Err(Error::Other(text)) => {
            assert_eq!(manifest, before);
            Err(text)
        }
        Err(other) => panic!("{other:?}"),
    }
}

#[test]
fn resolving() {
    let member = "[package]\nname = 'a'\nversion.workspace = true\n[package.metadata]\nkept = 1\n[dependencies]\n\
                  b.workspace = true\n";
    let root = "[workspace]\nmetadata = 1\n[workspace.package]\nversion = '2.0.0'\n[workspace.dependencies]\nb = '1'\n";
    let manifest = resolved(member, root).unwrap();
    let package = manifest.package.unwrap();
    assert_eq!(package.version, Some(MaybeInherited::Local("2.0.0".into())));
    assert_eq!(package.metadata, Some(Value::from_iter([("kept", 1)])));
    assert_eq!(manifest.dependencies.unwrap()["b"].req(), "1");
    let said = |member, root| resolved(member, root).unwrap_err();
    assert_eq!(said(member, "[workspace]"), "`version` is inherited from the workspace, which does not define it");
    let inherits = "[workspace.package]\nversion = '1'\n[workspace.dependencies]\nb.workspace = true\n";
    assert!(said(member, inherits).contains("`b`"));
    assert!(said("[package]\nname = 'a'\n[lints]\nworkspace = true\nrust.a = 'warn'\n", "[workspace.lints]\n")
        .contains("next to `workspace = true`"));
    let tool = "[workspace.lints.workspace]\na = 'warn'\n";
    assert!(said("[package]\nname = 'a'\n[lints]\nworkspace = true\n", tool).contains("named `workspace`"));
}

#[test]
fn metadata_of_any_type_is_kept() {
    #[derive(Default)]
    struct Opaque;
    let mut package: Package<Opaque> = Package::new("p".into(), "1.0.0".into());
    package.metadata = Some(Opaque);
    // (the type of the workspace's metadata is inferred: it is `Value`)
    let mut manifest = Manifest { package: Some(package), ..Default::default() };
    manifest.complete_from_abstract_filesystem(&Folders::of(&["src/lib.rs"])).unwrap();
    assert!(manifest.lib.is_some() && manifest.package.as_ref().is_some_and(|package| package.metadata.is_some()));

    let workspace = Workspace { metadata: Some(Opaque), ..Workspace::default() };
    let mut member: Manifest<Opaque, Opaque> =
        Manifest { package: manifest.package, workspace: Some(workspace), ..Manifest::default() };
    member.resolve(&Workspace::<Opaque>::default()).unwrap();
    assert!(member.package.unwrap().metadata.is_some() && member.workspace.unwrap().metadata.is_some());
}
