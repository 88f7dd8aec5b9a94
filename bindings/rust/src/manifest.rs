//! The whole manifest.

use crate::codec::record;
use crate::{Badges, DepsSet, FeatureSet, MaybeInheritedLintsSet, Package, PatchSet, Product, Profiles};
use crate::{TargetDepsSet, Workspace};

record! {
    /// A `Cargo.toml`.
    ///
    /// The types of its `[package.metadata]` and `[workspace.metadata]` are parameters: they are [`Value`](crate::Value)
    /// unless you name your own.
    #[derive(Debug, Clone, PartialEq)]
    pub struct Manifest<PackageMetadata, WorkspaceMetadata> {
        // (made by scripts/keys --write)
        /// `[package]`; a virtual workspace has none.
        ///
        /// [Cargo reference](https://doc.rust-lang.org/cargo/reference/manifest.html#the-package-section).
        "package" => package: Option<Package<PackageMetadata>>, optional;
        /// The unstable features of Cargo that are enabled; only a nightly Cargo has them.
        ///
        /// [Cargo reference](https://doc.rust-lang.org/cargo/reference/unstable.html).
        "cargo-features" => cargo_features: Option<Vec<String>>, optional;
        /// `[workspace]`, where the manifest is that of a workspace's root.
        ///
        /// [Cargo reference](https://doc.rust-lang.org/cargo/reference/workspaces.html).
        "workspace" => workspace: Option<Workspace<WorkspaceMetadata>>, optional;
        /// `[dependencies]`, by name; one that is renamed by its new name.
        ///
        /// [Cargo reference](https://doc.rust-lang.org/cargo/reference/specifying-dependencies.html).
        "dependencies" => dependencies: Option<DepsSet>, optional;
        /// `[dev-dependencies]`: those of tests, examples and benches.
        ///
        /// [Cargo reference](https://doc.rust-lang.org/cargo/reference/specifying-dependencies.html#development-dependencies).
        "dev-dependencies" also "dev_dependencies" => dev_dependencies: Option<DepsSet>, optional;
        /// `[build-dependencies]`: those of the build script.
        ///
        /// [Cargo reference](https://doc.rust-lang.org/cargo/reference/specifying-dependencies.html#build-dependencies).
        "build-dependencies" also "build_dependencies" => build_dependencies: Option<DepsSet>, optional;
        /// `[target]`: the dependencies for single platforms, by target triple or `cfg(..)`.
        ///
        /// [Cargo reference](https://doc.rust-lang.org/cargo/reference/specifying-dependencies.html#platform-specific-dependencies).
        "target" => target: Option<TargetDepsSet>, optional;
        /// `[features]`: each with what it enables; an optional dependency can be a feature that is not listed.
        ///
        /// [Cargo reference](https://doc.rust-lang.org/cargo/reference/features.html#the-features-section).
        "features" => features: Option<FeatureSet>, optional;
        /// Each `[[bin]]`: not all binaries, unless the manifest is completed, since others are discovered. Default:
        /// empty.
        ///
        /// [Cargo reference](https://doc.rust-lang.org/cargo/reference/cargo-targets.html#binaries).
        "bin" => bin: Vec<Product>, unless(Vec::new());
        /// Each `[[bench]]`: not all benches, unless the manifest is completed, since others are discovered. Default:
        /// empty.
        ///
        /// [Cargo reference](https://doc.rust-lang.org/cargo/reference/cargo-targets.html#benchmarks).
        "bench" => bench: Vec<Product>, unless(Vec::new());
        /// Each `[[test]]`: not all integration tests, unless the manifest is completed, since others are discovered.
        /// Default: empty.
        ///
        /// [Cargo reference](https://doc.rust-lang.org/cargo/reference/cargo-targets.html#tests).
        "test" => test: Vec<Product>, unless(Vec::new());
        /// Each `[[example]]`: not all examples, unless the manifest is completed, since others are discovered.
        /// Default: empty.
        ///
        /// [Cargo reference](https://doc.rust-lang.org/cargo/reference/cargo-targets.html#examples).
        "example" => example: Vec<Product>, unless(Vec::new());
        /// `[patch]`: the dependencies that patch others, by the registry or URL of these; Cargo takes those of the
        /// root alone.
        ///
        /// [Cargo reference](https://doc.rust-lang.org/cargo/reference/overriding-dependencies.html#the-patch-section).
        "patch" => patch: Option<PatchSet>, optional;
        /// `[lib]`; where there is none, one may be discovered, unless the manifest is completed.
        ///
        /// [Cargo reference](https://doc.rust-lang.org/cargo/reference/cargo-targets.html#library).
        "lib" => lib: Option<Product>, optional;
        /// `[profile]`; Cargo takes those of the workspace's root alone.
        ///
        /// [Cargo reference](https://doc.rust-lang.org/cargo/reference/profiles.html).
        "profile" => profile: Option<Profiles>, optional;
        /// `[badges]`.
        ///
        /// [Cargo reference](https://doc.rust-lang.org/cargo/reference/manifest.html#the-badges-section).
        "badges" => badges: Option<Badges>, optional;
        /// `[lints]`: the package's own, or inherited.
        ///
        /// [Cargo reference](https://doc.rust-lang.org/cargo/reference/manifest.html#the-lints-section).
        "lints" => lints: Option<MaybeInheritedLintsSet>, optional;
    }
}

/// A manifest that says nothing.
impl<PackageMetadata, WorkspaceMetadata> Default for Manifest<PackageMetadata, WorkspaceMetadata> {
    fn default() -> Self {
        Manifest {
            // (made by scripts/keys --write)
            package: None,
            cargo_features: None,
            workspace: None,
            dependencies: None,
            dev_dependencies: None,
            build_dependencies: None,
            target: None,
            features: None,
            bin: Vec::new(),
            bench: Vec::new(),
            test: Vec::new(),
            example: Vec::new(),
            patch: None,
            lib: None,
            profile: None,
            badges: None,
            lints: None,
        }
    }
}

impl<PackageMetadata> Manifest<PackageMetadata> {
    /// Whether a list of targets is completed: as the package says. Where it says nothing, not in a package of the 2015
    /// edition that declares some.
    fn is_completed(&self, declared: &[Product], says: impl Fn(&Package<PackageMetadata>) -> Option<bool>) -> bool {
        self.package.as_ref().is_some_and(|package| {
            says(package).unwrap_or_else(|| declared.is_empty() || !package.is_completed_as_in_2015())
        })
    }

    /// Whether completion adds binaries that are not declared.
    pub fn autobins(&self) -> bool {
        self.is_completed(&self.bin, |package| package.autobins)
    }

    /// Whether completion adds examples that are not declared.
    pub fn autoexamples(&self) -> bool {
        self.is_completed(&self.example, |package| package.autoexamples)
    }

    /// Whether completion adds tests that are not declared.
    pub fn autotests(&self) -> bool {
        self.is_completed(&self.test, |package| package.autotests)
    }

    /// Whether completion adds benches that are not declared.
    pub fn autobenches(&self) -> bool {
        self.is_completed(&self.bench, |package| package.autobenches)
    }
}
