//! Reads a `Cargo.toml` as typed values, completes it by what its folders hold, puts in what it inherits from its
//! workspace, and writes it. The reading, completing, resolving and writing is done by a library whose code is proved to do
//! what its definitions say; this crate gives it the types of the crate `cargo-manifest` 0.20.0, field by field.
//!
//! **If you come from `cargo-manifest`,** [`from_cargo_manifest`] says how to change over, and what differs.
//!
//! # A registry checks an upload
//!
//! What is wrong is said in one line, with the key path, and with the line and the column of what is no TOML.
//!
//! ```
//! use cargo_manifest::{Error, Manifest, MaybeInherited};
//!
//! /// The name and the version of a package, or why it cannot be uploaded.
//! fn checked(upload: &[u8]) -> Result<(String, String), String> {
//!     let manifest = Manifest::from_slice(upload).map_err(|error| match &error {
//!         Error::Parse(parse) => match parse.line_column(upload) {
//!             Some((line, _)) => format!("line {line}: {error}"),
//!             None => error.to_string(),
//!         },
//!         _ => error.to_string(),
//!     })?;
//!     let package = manifest.package.ok_or("there is no package")?;
//!     let MaybeInherited::Local(version) = package.version() else {
//!         return Err("the version is inherited".into());
//!     };
//!     if package.license.is_none() && package.license_file.is_none() {
//!         return Err("there is no license".into());
//!     }
//!     Ok((package.name.clone(), version.into()))
//! }
//!
//! let text = "[package]\nname = 'a'\nversion = '1.0.0'\nlicense = 'MIT'\n";
//! assert_eq!(checked(text.as_bytes()), Ok(("a".into(), "1.0.0".into())));
//! let wrong = checked(b"[package]\nname = 'a'\nversion = 1\n").unwrap_err();
//! assert_eq!(wrong, "invalid type for `package.version`: expected a string");
//! assert!(checked(b"[package\nname = 'a'\n").unwrap_err().starts_with("line 1: "));
//! ```
//!
//! All that is wrong, and not the first fault alone, is in [`faults`], with the words that may stand where one is wrong
//! ([`Fault::choices`]); and keys that nothing reads, as misspelled ones, are in [`unused_keys`]:
//!
//! ```
//! let upload = b"[package]\nname = 'a'\nversion = 1\nauthors = 'b'\nlicence = 'MIT'\n";
//! let faults: Vec<_> = cargo_manifest::faults(upload)?.iter().map(ToString::to_string).collect();
//! assert_eq!(faults, [
//!     "invalid type for `package.version`: expected a string",
//!     "invalid type for `package.authors`: expected an array",
//! ]);
//! assert_eq!(cargo_manifest::unused_keys(upload)?[0].to_string(), "unused manifest key: package.licence");
//! # Ok::<(), cargo_manifest::Error>(())
//! ```
//!
//! And all that Cargo refuses or warns of, with what to write, says the module [`check`], as the program `manifest_check` of the
//! repository does:
//!
//! ```
//! let upload = b"[package]\nname = 'a'\nversion = '1.0'\nedition = '2021'\n";
//! let found = cargo_manifest::check::check(upload)?;
//! assert_eq!((found[0].code.as_str(), found[0].line_column(upload)), ("invalid-version", Some((3, 11))));
//! assert_eq!(found[0].suggestions[0].text, "a version has three numbers: `1.0.0`");
//! # Ok::<(), cargo_manifest::calls::Refusal>(())
//! ```
//!
//! # A planner makes a skeleton
//!
//! Of a manifest and a list of files it takes what is built, and writes the smallest manifest that builds it: so a layer of
//! an image with all dependencies can be made before the sources are there.
//!
//! ```
//! use cargo_manifest::{AbstractFilesystem, Manifest};
//! use std::collections::BTreeSet;
//! use std::io;
//! use std::path::Path;
//!
//! /// Files by their paths.
//! struct Files(Vec<&'static str>);
//!
//! impl AbstractFilesystem for Files {
//!     fn file_names_in<T: AsRef<Path>>(&self, folder: T) -> io::Result<BTreeSet<Box<str>>> {
//!         let folder = if folder.as_ref() == Path::new(".") { Path::new("") } else { folder.as_ref() };
//!         let below = self.0.iter().filter_map(|file| Path::new(file).strip_prefix(folder).ok());
//!         let names = below.filter_map(|path| path.iter().next()?.to_str().map(Into::into));
//!         Ok(names.collect())
//!     }
//! }
//!
//! let text = "[package]\nname = 'shop'\nversion = '0.1.0'\nedition = '2021'\ndescription = 'x'\n[dependencies]\nlog = '0.4'\n";
//! let mut manifest: Manifest = text.parse()?;
//! manifest.complete_from_abstract_filesystem(&Files(vec!["src/lib.rs", "src/bin/till.rs", "tests/sells.rs"]))?;
//! let bins: Vec<_> = manifest.bin.iter().filter_map(|bin| bin.path.as_deref()).collect();
//! assert_eq!(bins, ["src/bin/till.rs"]);
//!
//! manifest.test.clear();
//! manifest.package.as_mut().expect("a package").description = None;
//! let skeleton = manifest.to_toml_string()?;
//! assert!(skeleton.starts_with("[[bin]]\nedition = \"2021\"\nname = \"till\"\npath = \"src/bin/till.rs\"\n"));
//! assert!(skeleton.contains("[dependencies]\nlog = \"0.4\"\n") && !skeleton.contains("description"));
//! # Ok::<(), cargo_manifest::Error>(())
//! ```
//!
//! # A linter makes a list
//!
//! ```
//! use cargo_manifest::{Dependency, Manifest};
//!
//! /// What a reviewer would say of the dependencies.
//! fn remarks(manifest: &Manifest) -> Vec<String> {
//!     let all = manifest.dependencies.iter().flatten();
//!     all.filter_map(|(name, dependency)| match dependency {
//!         Dependency::Inherited(_) => None,
//!         other if other.req() == "*" && other.is_crates_io() => Some(format!("{name}: any version will do")),
//!         other => other.git().map(|address| format!("{name}: it comes from {address}")),
//!     })
//!     .collect()
//! }
//!
//! let text = "[package]\nname = 'a'\n[dependencies]\nb = '1'\nc = '*'\nd = { git = 'https://e.org/d' }\ne.workspace = true\n";
//! let manifest: Manifest = text.parse()?;
//! assert_eq!(remarks(&manifest), ["c: any version will do", "d: it comes from https://e.org/d"]);
//! # Ok::<(), cargo_manifest::Error>(())
//! ```
//!
//! # What is proved
//!
//! The library takes the bytes of a `Cargo.toml`, and what it answers is the table of the manifest that these bytes mean, as
//! the definitions have it; or the table of the completed or the resolved manifest; or a manifest's canonical text. That is
//! proved, and `PROMISES.md` of the repository describes the contracts. Where a manifest is refused, the library says
//! why and at which key path.
//!
//! What this crate does with these bytes is plain Rust, which is tested: a [`Manifest`] is decoded from the bytes of its
//! table, and encoded to them before it is completed, resolved or written; one list of rows for each type does both. In a
//! debug build each manifest that is decoded is encoded again, and compared. Bytes that are no such table, as an archive of
//! another version might give them, end in a panic with one sentence. Also in plain Rust are the folders that are asked for
//! a completion, [`Manifest::from_value`], what is read and written by serde, floats in metadata (which the library
//! returns as it read them), and the texts of errors.
//!
//! # Threads, memory, stack
//!
//! Nothing is kept between calls, so each may be made from any thread at any time. Where no memory is left for the library,
//! the error is [`Error::Io`] of the kind `OutOfMemory`; where a [`Value`] is parsed, the [`ParseError`] says so.
//!
//! <!-- limits: of docs/LIBRARY.md -->
//!
//! `most` is how many bytes the text or the table may take. What could take more is refused as too long. Of what a manifest
//! inherits the texts of the workspace's dependencies are counted, at each place that inherits one, before any of them is
//! copied. Of a text a bound is counted before it is printed: its keys and values, and for each table a header with its
//! whole path. Of a table the exact length of its bytes is compared, after they are made. The text of a refusal is given
//! whatever `most` is. Some kilobytes can mean many megabytes, since a header repeats the keys above it: a program that
//! takes manifests from others bounds their length, and sets `most`.
//!
//! Arrays and tables may stand 128 deep in one another, the whole table not counted: `a = [{}]` is 2 deep. What is deeper is
//! refused as too deep; and where the headers, dotted keys and brackets of a text lead deeper, or a dotted key leads deeper
//! than 112 after a header of an array of tables, it is refused before it is parsed. `toml`, which reads texts, has two
//! limits of its own: 80 arrays and inline tables in one another, and 80 parts of a key. What is over these is refused as no
//! TOML. Each text that the library writes of a table at most 80 deep is read again.
//!
//! A call takes at most 111 KiB of stack on all inputs that were tried, so a thread with 128 KiB makes it, which is what
//! musl gives its threads if nothing is said. Where a place or an edit is looked for below 126 keys in one another, the
//! calls for places and `manifest_edited` take 136 KiB: a thread with 160 KiB makes each of them. `manifest_diagnostics`
//! takes 178 KiB below headers of arrays of tables that are as deep as is read: a thread with 192 KiB makes it.
//!
//! A call has at most 768 bytes of memory at once for each byte that is passed in (a name of a folder counts as 16 more),
//! and 64 for each byte of `most`, on all inputs that were tried.
//!
//! <!-- end of limits -->
//!
//! Here `most` is set by [`AtMost`](calls::AtMost); the calls that have none set no bound. What is too deep is refused as
//! [`Error::Parse`], and 128 is [`DEPTH_LIMIT`](calls::DEPTH_LIMIT). To read, copy, compare, print, write and drop a [`Manifest`]
//! that was read takes more stack than the call: 512 KiB are enough, in a debug build too. (Values that a program makes itself may
//! nest deeper: they are dropped, copied and compared as deep as they go, and refused where they are written.)
//!
//! # Features
//!
//! The package `cargo-manifest-proved` has no dependency and no features. The package `cargo-manifest` of the same repository
//! is made of the same sources, and has three, of which the first two are on unless `default-features = false`:
//!
//! - `serde`: `Serialize` and `Deserialize` for every type, and metadata of any type that serde reads and writes;
//! - `toml`: [`Value`] from and to the `Value` of the crate `toml`, and [`Error`] from its errors, of one version from 0.5.11 to
//!   0.9: the one that `Cargo.lock` has, or else the newest (`cargo update toml@0.9.8 --precise 0.5.11` changes it);
//! - `toml_1`: the same for `toml` 1.
//!
//! By serde a value goes to every version of `toml`, and comes from it: `toml::Value::try_from(&value)?` (which makes tables of
//! date-times in `toml` 0.8, of its own as well) and `Value::try_from(&of_toml)?`.

// (a variant in a box would be another type than the crate cargo-manifest has)
#![allow(clippy::large_enum_variant)]
#![deny(unsafe_code)]
#![warn(missing_docs)]

mod badge;
pub mod calls;
pub mod check;
mod codec;
mod completing;
mod dependency;
mod edits;
mod error;
mod filesystem;
mod found;
mod inherited;
mod lint;
mod manifest;
mod message;
mod metadata;
mod package;
mod product;
mod profile;
mod reading;
mod resolving;
#[cfg(feature = "serde")]
mod serde;
#[cfg(any(feature = "toml", feature = "toml_1"))]
mod toml;
mod value;
mod words;
mod workspace;
mod writing;

#[cfg(feature = "serde")]
pub use self::serde::ValueError;
#[doc = include_str!("from_cargo_manifest.md")]
pub mod from_cargo_manifest {}

#[cfg(doctest)]
#[doc = include_str!("../README.md")]
mod readme {}

pub use badge::{Badge, Badges, Maintenance, MaintenanceStatus};
pub use calls::{edited, positions, refusals, replacements, unfound_targets, Cause};
pub use codec::Step;
pub use dependency::{Dependency, DependencyDetail, InheritedDependencyDetail, Target};
pub use edits::{Edit, Position, Replacement};
pub use error::{Error, ParseError};
pub use filesystem::{AbstractFilesystem, Filesystem};
pub use found::{
    faults, ignored, unused_keys, CargoKey, CargoSupport, Fault, Finding, KeyPath, Place, UnfoundTarget, Unresolved,
    UnresolvedCause, UnusedKey,
};
pub use inherited::{MaybeInherited, True};
pub use lint::{Lint, LintConfig, LintLevel, MaybeInheritedLintsSet};
pub use manifest::Manifest;
pub use metadata::{Metadata, WrittenMetadata};
pub use package::{Package, Publish, StringOrBool};
pub use product::Product;
pub use profile::{Profile, Profiles, StripSetting};
use std::collections::BTreeMap;
pub use value::{Date, Datetime, DatetimeParseError, Index, Map, Offset, Time, Value};
pub use words::{Edition, Resolver};
pub use workspace::{Workspace, WorkspacePackage};
pub use writing::canonical;

/// Dependencies by their names.
pub type DepsSet = BTreeMap<String, Dependency>;
/// The dependencies of platforms, by the name or the `cfg(..)` of the platform.
pub type TargetDepsSet = BTreeMap<String, Target>;
/// What each feature switches on.
pub type FeatureSet = BTreeMap<String, Vec<String>>;
/// The dependencies that are replaced, by the source that they are from.
pub type PatchSet = BTreeMap<String, DepsSet>;
/// The lints of a tool by their names.
pub type ToolLintsSet = BTreeMap<String, Lint>;
/// The lints of each tool.
pub type LintsSet = BTreeMap<String, ToolLintsSet>;
