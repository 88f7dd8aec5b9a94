//! The package.

use crate::codec::{record, Aside, Encode, Expected, Form, Misfit, Reader, Step, Writer, ARRAY, STRING};
use crate::{Edition, MaybeInherited, Resolver, Value};

record! {
    /// `[package]`.
    #[derive(Debug, Clone, PartialEq)]
    pub struct Package<Metadata> {
        // (made by scripts/keys --write)
        /// The name, from which its library and its main binary take theirs by default; it may have capital letters.
        ///
        /// [Cargo reference](https://doc.rust-lang.org/cargo/reference/manifest.html#the-name-field).
        "name" => name: String, required;
        /// The edition of its targets, its own or inherited; Cargo takes 2015 where there is none.
        ///
        /// [Cargo reference](https://doc.rust-lang.org/cargo/reference/manifest.html#the-edition-field).
        "edition" => edition: Option<MaybeInherited<Edition>>, optional;
        /// The version, its own or inherited; Cargo takes `0.0.0` where there is none: [`Package::version`] says which
        /// one holds.
        ///
        /// [Cargo reference](https://doc.rust-lang.org/cargo/reference/manifest.html#the-version-field).
        "version" => version: Option<MaybeInherited<String>>, optional;
        /// The build script by its path, or false for none; absent or true, it is discovered: completion fills it in.
        ///
        /// [Cargo reference](https://doc.rust-lang.org/cargo/reference/manifest.html#the-build-field).
        "build" => build: Option<StringOrBool>, optional;
        /// The path of its workspace's root; Cargo searches the folders above where there is none.
        ///
        /// [Cargo reference](https://doc.rust-lang.org/cargo/reference/manifest.html#the-workspace-field).
        "workspace" => workspace: Option<String>, optional;
        /// The people and organizations that made it, such as `Alice <alice@example.com>`.
        ///
        /// [Cargo reference](https://doc.rust-lang.org/cargo/reference/manifest.html#the-authors-field).
        "authors" => authors: Option<MaybeInherited<Vec<String>>>, optional;
        /// The name of the native library that it links to.
        ///
        /// [Cargo reference](https://doc.rust-lang.org/cargo/reference/manifest.html#the-links-field).
        "links" => links: Option<String>, optional;
        /// What it is, in a few words of plain text, not Markdown.
        ///
        /// [Cargo reference](https://doc.rust-lang.org/cargo/reference/manifest.html#the-description-field).
        "description" => description: Option<MaybeInherited<String>>, optional;
        /// The URL of its home page.
        ///
        /// [Cargo reference](https://doc.rust-lang.org/cargo/reference/manifest.html#the-homepage-field).
        "homepage" => homepage: Option<MaybeInherited<String>>, optional;
        /// The URL of its documentation; crates.io links to docs.rs where there is none.
        ///
        /// [Cargo reference](https://doc.rust-lang.org/cargo/reference/manifest.html#the-documentation-field).
        "documentation" => documentation: Option<MaybeInherited<String>>, optional;
        /// The readme by its path, relative to the manifest; true for `README.md`, false for none.
        ///
        /// [Cargo reference](https://doc.rust-lang.org/cargo/reference/manifest.html#the-readme-field).
        "readme" => readme: Option<MaybeInherited<StringOrBool>>, optional;
        /// The keywords by which a registry finds it; crates.io takes at most five.
        ///
        /// [Cargo reference](https://doc.rust-lang.org/cargo/reference/manifest.html#the-keywords-field).
        "keywords" => keywords: Option<MaybeInherited<Vec<String>>>, optional;
        /// The categories of crates.io in which it stands, by their slugs; at most five.
        ///
        /// [Cargo reference](https://doc.rust-lang.org/cargo/reference/manifest.html#the-categories-field).
        "categories" => categories: Option<MaybeInherited<Vec<String>>>, optional;
        /// The licence: an SPDX expression such as `MIT OR Apache-2.0`.
        ///
        /// [Cargo reference](https://doc.rust-lang.org/cargo/reference/manifest.html#the-license-and-license-file-fields).
        "license" => license: Option<MaybeInherited<String>>, optional;
        /// The path of the licence's text, relative to the manifest, where the licence is not a standard one.
        ///
        /// [Cargo reference](https://doc.rust-lang.org/cargo/reference/manifest.html#the-license-and-license-file-fields).
        "license-file" => license_file: Option<MaybeInherited<String>>, optional;
        /// The URL of its source repository.
        ///
        /// [Cargo reference](https://doc.rust-lang.org/cargo/reference/manifest.html#the-repository-field).
        "repository" => repository: Option<MaybeInherited<String>>, optional;
        /// `[package.metadata]`: what tools other than Cargo read.
        ///
        /// [Cargo reference](https://doc.rust-lang.org/cargo/reference/manifest.html#the-metadata-table).
        "metadata" => metadata: Option<Metadata>, metadata(package);
        /// The oldest version of Rust that it supports, such as `1.75`: a bare version, no requirement.
        ///
        /// [Cargo reference](https://doc.rust-lang.org/cargo/reference/manifest.html#the-rust-version-field).
        "rust-version" => rust_version: Option<MaybeInherited<String>>, nullable;
        /// The files that are not packaged, by patterns as of gitignore; of no effect next to `include`.
        ///
        /// [Cargo reference](https://doc.rust-lang.org/cargo/reference/manifest.html#the-exclude-and-include-fields).
        "exclude" => exclude: Option<MaybeInherited<Vec<String>>>, optional;
        /// The files that are packaged, by patterns as of gitignore.
        ///
        /// [Cargo reference](https://doc.rust-lang.org/cargo/reference/manifest.html#the-exclude-and-include-fields).
        "include" => include: Option<MaybeInherited<Vec<String>>>, optional;
        /// The name of the binary that `cargo run` takes by default.
        ///
        /// [Cargo reference](https://doc.rust-lang.org/cargo/reference/manifest.html#the-default-run-field).
        "default-run" => default_run: Option<String>, optional;
        /// False turns the discovery of a library off.
        ///
        /// [Cargo reference](https://doc.rust-lang.org/cargo/reference/cargo-targets.html#target-auto-discovery).
        "autolib" => autolib: Option<bool>, optional;
        /// Whether binaries are discovered, where the package says it;
        /// [`Manifest::autobins`](crate::Manifest::autobins) says what holds.
        ///
        /// [Cargo reference](https://doc.rust-lang.org/cargo/reference/cargo-targets.html#target-auto-discovery).
        "autobins" => autobins: Option<bool>, optional;
        /// Whether examples are discovered, where the package says it;
        /// [`Manifest::autoexamples`](crate::Manifest::autoexamples) says what holds.
        ///
        /// [Cargo reference](https://doc.rust-lang.org/cargo/reference/cargo-targets.html#target-auto-discovery).
        "autoexamples" => autoexamples: Option<bool>, optional;
        /// Whether tests are discovered, where the package says it; [`Manifest::autotests`](crate::Manifest::autotests)
        /// says what holds.
        ///
        /// [Cargo reference](https://doc.rust-lang.org/cargo/reference/cargo-targets.html#target-auto-discovery).
        "autotests" => autotests: Option<bool>, optional;
        /// Whether benches are discovered, where the package says it;
        /// [`Manifest::autobenches`](crate::Manifest::autobenches) says what holds.
        ///
        /// [Cargo reference](https://doc.rust-lang.org/cargo/reference/cargo-targets.html#target-auto-discovery).
        "autobenches" => autobenches: Option<bool>, optional;
        /// Whether, or to which registries, it may be published; to any where nothing is said.
        ///
        /// [Cargo reference](https://doc.rust-lang.org/cargo/reference/manifest.html#the-publish-field).
        "publish" => publish: Option<MaybeInherited<Publish>>, optional;
        /// The resolver, of a root package alone; by default 1, in the edition 2021 it is 2, and in 2024 it is 3.
        ///
        /// [Cargo reference](https://doc.rust-lang.org/cargo/reference/resolver.html#resolver-versions).
        "resolver" => resolver: Option<Resolver>, optional;
    }
}

impl<Metadata> Package<Metadata> {
    /// A package of this name and version, which says nothing else.
    pub fn new(name: String, version: String) -> Self {
        let mut package = Package {
            // (made by scripts/keys --write)
            name,
            edition: None,
            version: None,
            build: None,
            workspace: None,
            authors: None,
            links: None,
            description: None,
            homepage: None,
            documentation: None,
            readme: None,
            keywords: None,
            categories: None,
            license: None,
            license_file: None,
            repository: None,
            metadata: None,
            rust_version: None,
            exclude: None,
            include: None,
            default_run: None,
            autolib: None,
            autobins: None,
            autoexamples: None,
            autotests: None,
            autobenches: None,
            publish: None,
            resolver: None,
        };
        package.version = Some(MaybeInherited::Local(version));
        package
    }

    /// The version: `0.0.0` where the package has none.
    pub fn version(&self) -> MaybeInherited<&str> {
        match &self.version {
            None => MaybeInherited::Local("0.0.0"),
            Some(MaybeInherited::Local(version)) => MaybeInherited::Local(version),
            Some(MaybeInherited::Inherited { .. }) => MaybeInherited::inherited(),
        }
    }

    /// Whether the package is completed in the way of the 2015 edition. One that inherits its edition is not: whoever
    /// inherits is younger.
    pub(crate) fn is_completed_as_in_2015(&self) -> bool {
        matches!(self.edition, None | Some(MaybeInherited::Local(Edition::E2015)))
    }
}

/// A path, or whether there is one.
#[derive(Debug, Clone, PartialEq, Eq)]
pub enum StringOrBool {
    /// The path.
    String(String),
    /// Whether there is one.
    Bool(bool),
}

impl Form for StringOrBool {
    fn decode(reader: &mut Reader<'_>) -> Option<StringOrBool> {
        match reader.peek()? {
            STRING => String::decode(reader).map(StringOrBool::String),
            _ => bool::decode(reader).map(StringOrBool::Bool),
        }
    }

    fn read(value: Value, _: &mut Aside) -> Result<StringOrBool, Misfit> {
        match value {
            Value::String(text) => Ok(StringOrBool::String(text)),
            Value::Boolean(flag) => Ok(StringOrBool::Bool(flag)),
            _ => Err(Misfit::wrong_kind::<StringOrBool>()),
        }
    }

    fn expected() -> Expected {
        Expected::new("a string or a boolean")
    }
}

impl Encode for StringOrBool {
    fn encode(&self, writer: &mut Writer) {
        match self {
            StringOrBool::String(text) => text.encode(writer),
            StringOrBool::Bool(flag) => flag.encode(writer),
        }
    }
}

/// What a package may be published to. Compared with a `bool`, it is whether there is anything.
///
/// ```
/// use cargo_manifest::Publish;
///
/// assert!(Publish::default() == true);
/// assert!(Publish::Registry(vec![]) == false);
/// assert!(true == Publish::Registry(vec!["mine".into()]));
/// ```
#[derive(Debug, Clone, PartialEq, Eq)]
pub enum Publish {
    /// Any registry, or none.
    Flag(bool),
    /// The registries of these names.
    Registry(Vec<String>),
}

/// Any registry.
impl Default for Publish {
    fn default() -> Publish {
        Publish::Flag(true)
    }
}

impl PartialEq<bool> for Publish {
    fn eq(&self, other: &bool) -> bool {
        let is_to_any = match self {
            Publish::Flag(flag) => *flag,
            Publish::Registry(names) => !names.is_empty(),
        };
        is_to_any == *other
    }
}

impl PartialEq<Publish> for bool {
    fn eq(&self, other: &Publish) -> bool {
        other == self
    }
}

impl Form for Publish {
    fn decode(reader: &mut Reader<'_>) -> Option<Publish> {
        match reader.peek()? {
            ARRAY => Vec::decode(reader).map(Publish::Registry),
            _ => bool::decode(reader).map(Publish::Flag),
        }
    }

    fn read(value: Value, aside: &mut Aside) -> Result<Publish, Misfit> {
        match value {
            Value::Boolean(flag) => Ok(Publish::Flag(flag)),
            names @ Value::Array(_) => Form::read(names, aside).map(Publish::Registry),
            _ => Err(Misfit::wrong_kind::<Publish>()),
        }
    }

    fn expected() -> Expected {
        Expected::new("a boolean or an array of strings")
    }

    fn expected_at(path: &[Step]) -> Option<Expected> {
        match path {
            [] => Some(Self::expected()),
            below => Vec::<String>::expected_at(below),
        }
    }
}

impl Encode for Publish {
    fn encode(&self, writer: &mut Writer) {
        match self {
            Publish::Flag(flag) => flag.encode(writer),
            Publish::Registry(names) => names.encode(writer),
        }
    }
}
