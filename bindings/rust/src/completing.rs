//! Completing a manifest: which folders are asked for, and the proved call.

use crate::calls::{is_broken, tables, ListingError, Listings, Refusal};
use crate::codec::{Aside, Encode, Form, Members, Reader, Writer};
use crate::error::refused_table;
use crate::reading::{decode, encode};
use crate::{AbstractFilesystem, Error, Filesystem, Manifest, Package, Product, StringOrBool, Value};
use std::collections::BTreeSet;
use std::io;
use std::path::Path;

impl<PackageMetadata> Manifest<PackageMetadata> {
    /// Completes the manifest by the folder that its file stands in: `path` is that of the file.
    ///
    /// It is the same as
    /// [`complete_from_abstract_filesystem`](Manifest::complete_from_abstract_filesystem) over a [`Filesystem`].
    pub fn complete_from_path(&mut self, path: &Path) -> Result<(), Error> {
        let Some(folder) = path.parent() else {
            return Err(Error::Io(io::Error::other("the path of the manifest has no folder")));
        };
        self.complete_from_abstract_filesystem(&Filesystem::new(folder))
    }

    /// Completes the manifest by what the folders hold: with the library, binaries, examples, tests, benches and build
    /// script that Cargo finds there. No file is opened.
    ///
    /// A manifest without a package is left as it is. After an error the manifest is what it was.
    ///
    /// ```
    /// use cargo_manifest::{AbstractFilesystem, Manifest};
    /// use std::collections::BTreeSet;
    /// use std::io;
    /// use std::path::Path;
    ///
    /// struct OneFile;
    ///
    /// impl AbstractFilesystem for OneFile {
    ///     fn file_names_in<T: AsRef<Path>>(&self, folder: T) -> io::Result<BTreeSet<Box<str>>> {
    ///         match folder.as_ref().to_str() {
    ///             Some("src") => Ok(BTreeSet::from(["lib.rs".into()])),
    ///             Some(".") => Ok(BTreeSet::from(["Cargo.toml".into(), "src".into()])),
    ///             _ => Err(io::ErrorKind::NotFound.into()),
    ///         }
    ///     }
    /// }
    ///
    /// let mut manifest: Manifest = "[package]\nname = 'a-b'\nedition = '2021'\n".parse()?;
    /// manifest.complete_from_abstract_filesystem(&OneFile)?;
    /// let library = manifest.lib.expect("a library");
    /// assert_eq!(library.name.as_deref(), Some("a_b"));
    /// assert_eq!(library.path.as_deref(), Some("src/lib.rs"));
    /// # Ok::<(), cargo_manifest::Error>(())
    /// ```
    pub fn complete_from_abstract_filesystem<FS: AbstractFilesystem>(&mut self, fs: &FS) -> Result<(), Error> {
        let Some(package) = &self.package else { return Ok(()) };
        let asks_for_build = matches!(package.build, None | Some(StringOrBool::Bool(true)));
        let table = Declared { manifest: self, package }.table()?;
        let mut asked = Asked { fs, listings: Listings::new(), error: None };
        let has_library = asked.src();
        if self.lib.as_ref().is_some_and(|library| library.path.is_none()) && !has_library {
            library_is_found(&table, &asked)?;
        }
        asked.targets();
        if asks_for_build {
            asked.root();
        }
        let whole = if cfg!(debug_assertions) { encode(self, Aside::default()).ok() } else { None };
        match tables::completed(&table, &asked.listings) {
            Ok(completed) => Completed::decode(&completed).unwrap_or_else(|| is_broken()).put_into(self),
            Err(refusal) => return Err(asked.refused(refusal)),
        }
        if let Some(Ok(whole)) = whole.map(|whole| tables::completed(&whole, &asked.listings)) {
            let (whole, _) = decode::<PackageMetadata, Value>(&whole);
            assert!(targets(self) == targets(&whole), "completion makes other targets of the whole manifest");
        }
        Ok(())
    }
}

/// What completion makes: the build script, the library and the lists of targets.
#[derive(Default)]
struct Completed {
    build: Option<StringOrBool>,
    lib: Option<Product>,
    bin: Vec<Product>,
    example: Vec<Product>,
    test: Vec<Product>,
    bench: Vec<Product>,
}

impl Completed {
    /// That of a table which the library has completed. What else stands in it is passed over.
    fn decode(table: &[u8]) -> Option<Completed> {
        let mut completed = Completed::default();
        let reader = &mut Reader::of_answer(table);
        let mut keys = reader.table()?;
        while let Some(key) = keys.next(reader)? {
            match key {
                "package" => completed.build = build_of_package(reader)?,
                "lib" => completed.lib = Form::decode(reader)?,
                "bin" => completed.bin = Form::decode(reader)?,
                "example" => completed.example = Form::decode(reader)?,
                "test" => completed.test = Form::decode(reader)?,
                "bench" => completed.bench = Form::decode(reader)?,
                _ => reader.skip()?,
            }
        }
        reader.is_at_end().then_some(completed)
    }

    /// Puts it in the place of the manifest's own.
    fn put_into<P, W>(self, manifest: &mut Manifest<P, W>) {
        let Completed { build, lib, bin, example, test, bench } = self;
        if let Some(package) = &mut manifest.package {
            package.build = build;
        }
        manifest.lib = lib;
        manifest.bin = bin;
        manifest.example = example;
        manifest.test = test;
        manifest.bench = bench;
    }
}

/// The build script of a package whose table is next.
fn build_of_package(reader: &mut Reader<'_>) -> Option<Option<StringOrBool>> {
    let mut build = None;
    let mut keys = reader.table()?;
    while let Some(key) = keys.next(reader)? {
        match key {
            "build" => build = Form::decode(reader)?,
            _ => reader.skip()?,
        }
    }
    Some(build)
}

/// What completion makes, of a manifest that has it.
fn targets<P, W>(manifest: &Manifest<P, W>) -> (Option<&StringOrBool>, Option<&Product>, [&[Product]; 4]) {
    let Manifest { package, lib, bin, example, test, bench, .. } = manifest;
    let build = package.as_ref().and_then(|package| package.build.as_ref());
    (build, lib.as_ref(), [bin, example, test, bench])
}

/// What completion reads of a manifest with a package: the package's name, edition, build script and flags, and the
/// declared targets. What it makes of them does not depend on anything else, so the rest is not passed to the call.
struct Declared<'a, P, W> {
    manifest: &'a Manifest<P, W>,
    package: &'a Package<P>,
}

impl<P, W> Declared<'_, P, W> {
    /// The table of a manifest that has nothing else.
    fn table(&self) -> Result<Vec<u8>, Error> {
        let mut writer = Writer::new(Aside::default());
        self.encode(&mut writer);
        writer.finish().map(|(table, _)| table).map_err(Error::Other)
    }
}

impl<P, W> Encode for Declared<'_, P, W> {
    fn encode(&self, writer: &mut Writer) {
        let Manifest { lib, bin, example, test, bench, .. } = self.manifest;
        let package = DeclaredPackage(self.package);
        let mut members = Members::with_room(6);
        members.push("package", &package);
        if let Some(library) = lib {
            members.push("lib", library);
        }
        for (key, targets) in [("bin", bin), ("example", example), ("test", test), ("bench", bench)] {
            if !targets.is_empty() {
                members.push(key, targets);
            }
        }
        members.encode(writer);
    }
}

/// The same for its package.
struct DeclaredPackage<'a, P>(&'a Package<P>);

impl<P> Encode for DeclaredPackage<'_, P> {
    fn encode(&self, writer: &mut Writer) {
        let Package { name, edition, build, autolib, autobins, autoexamples, autotests, autobenches, .. } = self.0;
        let mut members = Members::with_room(8);
        members.push("name", name);
        if let Some(edition) = edition {
            members.push("edition", edition);
        }
        if let Some(build) = build {
            members.push("build", build);
        }
        let of_lists = [("autobins", autobins), ("autoexamples", autoexamples), ("autotests", autotests)];
        for (key, flag) in of_lists.into_iter().chain([("autobenches", autobenches), ("autolib", autolib)]) {
            if let Some(flag) = flag {
                members.push(key, flag);
            }
        }
        members.encode(writer);
    }
}

impl<PackageMetadata, WorkspaceMetadata> Manifest<PackageMetadata, WorkspaceMetadata> {
    /// Puts the manifest of a table in the place of this one, and keeps the metadata.
    pub(crate) fn replace(&mut self, table: &[u8]) {
        let (mut manifest, _) = decode::<PackageMetadata, WorkspaceMetadata>(table);
        if let (Some(new), Some(old)) = (&mut manifest.package, &mut self.package) {
            new.metadata = old.metadata.take();
        }
        if let (Some(new), Some(old)) = (&mut manifest.workspace, &mut self.workspace) {
            new.metadata = old.metadata.take();
        }
        *self = manifest;
    }
}

/// Whether a declared library has a file, which `src` alone decides: where it has none nothing more is asked.
fn library_is_found<FS>(table: &[u8], asked: &Asked<'_, FS>) -> Result<(), Error> {
    if asked.error.is_some() {
        return Ok(());
    }
    let mut listings = asked.listings.clone();
    listings.put(".", [""; 0]);
    tables::completed(table, &listings).map(drop).map_err(refused_table)
}

/// What was asked, up to the first folder that refuses the completion.
struct Asked<'a, FS> {
    fs: &'a FS,
    listings: Listings,
    /// The error of the folder that refuses.
    error: Option<io::Error>,
}

impl<FS: AbstractFilesystem> Asked<'_, FS> {
    /// The names in a folder, unless one has refused, or does.
    fn names(&mut self, path: &str, refuses: impl Fn(&io::Error) -> bool) -> Option<BTreeSet<Box<str>>> {
        if self.error.is_some() {
            return None;
        }
        match self.fs.file_names_in(path) {
            Ok(names) => Some(names),
            Err(error) => {
                self.listings.put_error(path, ListingError::from(error.kind()));
                self.error = refuses(&error).then_some(error);
                None
            }
        }
    }

    /// Asks for `src`, and returns whether a library stands there where Cargo looks for it.
    fn src(&mut self) -> bool {
        let Some(names) = self.names("src", |error| error.kind() != io::ErrorKind::NotFound) else { return false };
        let has_library = names.contains("lib.rs");
        self.listings.put_names("src".into(), names);
        has_library
    }

    /// Asks for the folders of targets, and for each of their entries.
    fn targets(&mut self) {
        let is_out_of_memory = |error: &io::Error| error.kind() == io::ErrorKind::OutOfMemory;
        for folder in ["src/bin", "examples", "tests", "benches"] {
            let Some(names) = self.names(folder, is_out_of_memory) else { continue };
            for name in &names {
                let path = format!("{folder}/{name}");
                if let Some(entries) = self.names(&path, is_out_of_memory) {
                    self.listings.put_names(path, entries);
                }
            }
            self.listings.put_names(folder.into(), names);
        }
    }

    /// Asks for the folder of the manifest.
    fn root(&mut self) {
        if let Some(names) = self.names(".", |_| true) {
            self.listings.put_names(".".into(), names);
        }
    }

    /// The error of a refusal: where a folder refuses, that folder's own.
    fn refused(self, refusal: Refusal) -> Error {
        match (refusal, self.error) {
            (Refusal::Io(_), Some(error)) => Error::Io(error),
            (refusal, _) => refused_table(refusal),
        }
    }
}
