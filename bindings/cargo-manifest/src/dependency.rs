//! Dependencies.

use crate::codec::{read, record, Aside, Encode, Expected, Form, Misfit, Reader, Step, Writer, STRING};
use crate::{DepsSet, True, Value};

/// A dependency, as one of `[dependencies]`.
#[derive(Debug, Clone, PartialEq, Eq)]
pub enum Dependency {
    /// Its version alone: `serde = "1"`.
    Simple(String),
    /// It is inherited from the workspace: `serde = { workspace = true }`.
    Inherited(InheritedDependencyDetail),
    /// A table: `serde = { version = "1", optional = true }`.
    Detailed(DependencyDetail),
}

impl Form for Dependency {
    fn decode(reader: &mut Reader<'_>) -> Option<Dependency> {
        if reader.peek()? == STRING {
            return String::decode(reader).map(Dependency::Simple);
        }
        if reader.is_inherited()? {
            return Form::decode(reader).map(Dependency::Inherited);
        }
        Form::decode(reader).map(Dependency::Detailed)
    }

    fn read(value: Value, aside: &mut Aside) -> Result<Dependency, Misfit> {
        match value {
            Value::String(version) => Ok(Dependency::Simple(version)),
            table if read::is_inherited(&table) => Form::read(table, aside).map(Dependency::Inherited),
            table @ Value::Table(_) => Form::read(table, aside).map(Dependency::Detailed),
            _ => Err(Misfit::wrong_kind::<Dependency>()),
        }
    }

    fn expected() -> Expected {
        DependencyDetail::expected().said("a string or a table")
    }

    fn expected_at(path: &[Step]) -> Option<Expected> {
        match path {
            [] => Some(Self::expected()),
            below => DependencyDetail::expected_at(below).or_else(|| InheritedDependencyDetail::expected_at(below)),
        }
    }
}

impl Encode for Dependency {
    fn encode(&self, writer: &mut Writer) {
        match self {
            Dependency::Simple(version) => version.encode(writer),
            Dependency::Inherited(detail) => detail.encode(writer),
            Dependency::Detailed(detail) => detail.encode(writer),
        }
    }
}

impl Dependency {
    /// The table, where the dependency is one and not inherited.
    pub fn detail(&self) -> Option<&DependencyDetail> {
        match self {
            Dependency::Detailed(detail) => Some(detail),
            Dependency::Simple(_) | Dependency::Inherited(_) => None,
        }
    }

    /// The same dependency, by its version alone where it says nothing else.
    pub fn simplify(self) -> Self {
        match self {
            Dependency::Detailed(detail) => detail.simplify(),
            other => other,
        }
    }

    /// The versions that fit: `*` where it says none.
    pub fn req(&self) -> &str {
        match self {
            Dependency::Simple(version) => version,
            Dependency::Detailed(detail) => detail.version.as_deref().unwrap_or("*"),
            Dependency::Inherited(_) => "*",
        }
    }

    /// The features that it enables. (One that is inherited also has those of the workspace.)
    pub fn req_features(&self) -> &[String] {
        let features = match self {
            Dependency::Simple(_) => None,
            Dependency::Detailed(detail) => detail.features.as_deref(),
            Dependency::Inherited(detail) => detail.features.as_deref(),
        };
        features.unwrap_or_default()
    }

    /// Whether it is left out unless a feature enables it.
    pub fn optional(&self) -> bool {
        let optional = match self {
            Dependency::Simple(_) => None,
            Dependency::Detailed(detail) => detail.optional,
            Dependency::Inherited(detail) => detail.optional,
        };
        optional.unwrap_or(false)
    }

    /// The name of its package, where that is another than its key.
    pub fn package(&self) -> Option<&str> {
        self.detail()?.package.as_deref()
    }

    /// The address of its git repository, if it comes from one.
    pub fn git(&self) -> Option<&str> {
        self.detail()?.git.as_deref()
    }

    /// Whether it comes from crates.io: not from a path, a git repository or another registry, and not inherited, of
    /// which that is not known here.
    pub fn is_crates_io(&self) -> bool {
        match self {
            Dependency::Simple(_) => true,
            Dependency::Inherited(_) => false,
            Dependency::Detailed(detail) => {
                let sources = [
                    &detail.path,
                    &detail.registry,
                    &detail.registry_index,
                    &detail.git,
                    &detail.tag,
                    &detail.branch,
                    &detail.rev,
                ];
                sources.iter().all(|source| source.is_none())
            }
        }
    }
}

record! {
    /// A dependency as a table of its own.
    #[derive(Debug, Clone, PartialEq, Eq, Default)]
    pub struct DependencyDetail {
        // (made by scripts/keys --write)
        /// The version requirement, such as `1.2` or `>=1.2, <1.5`; any version where it is absent.
        ///
        /// [Cargo reference](https://doc.rust-lang.org/cargo/reference/specifying-dependencies.html#version-requirement-syntax).
        "version" => version: Option<String>, optional;
        /// The registry that has the package, by its name; crates.io where no other source is named.
        ///
        /// [Cargo reference](https://doc.rust-lang.org/cargo/reference/specifying-dependencies.html#specifying-dependencies-from-other-registries).
        "registry" => registry: Option<String>, optional;
        /// The registry that has the package, by the URL of its index.
        ///
        /// [Cargo reference](https://doc.rust-lang.org/cargo/reference/specifying-dependencies.html#specifying-dependencies-from-other-registries).
        "registry-index" also "registry_index" => registry_index: Option<String>, nullable;
        /// The path of the package's folder, relative to the manifest.
        ///
        /// [Cargo reference](https://doc.rust-lang.org/cargo/reference/specifying-dependencies.html#specifying-path-dependencies).
        "path" => path: Option<String>, optional;
        /// The URL of the git repository that has the package.
        ///
        /// [Cargo reference](https://doc.rust-lang.org/cargo/reference/specifying-dependencies.html#specifying-dependencies-from-git-repositories).
        "git" => git: Option<String>, optional;
        /// The branch of the git repository.
        ///
        /// [Cargo reference](https://doc.rust-lang.org/cargo/reference/specifying-dependencies.html#choice-of-commit).
        "branch" => branch: Option<String>, optional;
        /// The tag of the git repository.
        ///
        /// [Cargo reference](https://doc.rust-lang.org/cargo/reference/specifying-dependencies.html#choice-of-commit).
        "tag" => tag: Option<String>, optional;
        /// The revision of the git repository: a commit's hash, or a reference such as `refs/pull/1/head`.
        ///
        /// [Cargo reference](https://doc.rust-lang.org/cargo/reference/specifying-dependencies.html#choice-of-commit).
        "rev" => rev: Option<String>, optional;
        /// The features of the package that are enabled.
        ///
        /// [Cargo reference](https://doc.rust-lang.org/cargo/reference/features.html#dependency-features).
        "features" => features: Option<Vec<String>>, optional;
        /// Whether the dependency is optional: it is built only where a feature enables it.
        ///
        /// [Cargo reference](https://doc.rust-lang.org/cargo/reference/features.html#optional-dependencies).
        "optional" => optional: Option<bool>, optional;
        /// Whether the default features are enabled; they are where nothing is said.
        ///
        /// [Cargo reference](https://doc.rust-lang.org/cargo/reference/features.html#dependency-features).
        "default-features" also "default_features" => default_features: Option<bool>, optional;
        /// The name of the package, where the dependency is renamed: its key is then the new name.
        ///
        /// [Cargo reference](https://doc.rust-lang.org/cargo/reference/specifying-dependencies.html#renaming-dependencies-in-cargotoml).
        "package" => package: Option<String>, optional;
    }
}

impl DependencyDetail {
    fn simplify(mut self) -> Dependency {
        let Some(version) = self.version.take() else { return Dependency::Detailed(self) };
        if self == DependencyDetail::default() {
            return Dependency::Simple(version);
        }
        Dependency::Detailed(DependencyDetail { version: Some(version), ..self })
    }
}

record! {
    /// A dependency that is inherited from the workspace, with what the member adds.
    #[derive(Debug, Clone, PartialEq, Eq, Default)]
    pub struct InheritedDependencyDetail {
        // (made by scripts/keys --write)
        /// `workspace = true`: the rest is inherited from `[workspace.dependencies]`.
        ///
        /// [Cargo reference](https://doc.rust-lang.org/cargo/reference/specifying-dependencies.html#inheriting-a-dependency-from-a-workspace).
        "workspace" => workspace: True, required;
        /// The features that are enabled in addition to those that the workspace enables.
        ///
        /// [Cargo reference](https://doc.rust-lang.org/cargo/reference/specifying-dependencies.html#inheriting-a-dependency-from-a-workspace).
        "features" => features: Option<Vec<String>>, optional;
        /// Whether the dependency is optional in the member.
        ///
        /// [Cargo reference](https://doc.rust-lang.org/cargo/reference/specifying-dependencies.html#inheriting-a-dependency-from-a-workspace).
        "optional" => optional: Option<bool>, optional;
        /// Whether the default features are enabled, where the member chooses; where it does not, the workspace does.
        /// The crate `cargo-manifest` does not have this field.
        ///
        /// [Cargo reference](https://doc.rust-lang.org/cargo/reference/specifying-dependencies.html#inheriting-a-dependency-from-a-workspace).
        "default-features" also "default_features" => default_features: Option<bool>, optional;
    }
}

record! {
    /// The dependencies of a platform, as in `[target."cfg(unix)".dependencies]`.
    #[derive(Debug, Clone, PartialEq, Eq)]
    pub struct Target {
        // (made by scripts/keys --write)
        /// The dependencies of the package that are built only where the target platform is this one. Default: empty.
        ///
        /// [Cargo reference](https://doc.rust-lang.org/cargo/reference/specifying-dependencies.html#platform-specific-dependencies).
        "dependencies" => dependencies: DepsSet, default(DepsSet::new());
        /// The dependencies of its tests, examples and benches on this platform. Default: empty.
        ///
        /// [Cargo reference](https://doc.rust-lang.org/cargo/reference/specifying-dependencies.html#platform-specific-dependencies).
        "dev-dependencies" also "dev_dependencies" => dev_dependencies: DepsSet, default(DepsSet::new());
        /// The dependencies of its build script, built only where the host platform is this one. Default: empty.
        ///
        /// [Cargo reference](https://doc.rust-lang.org/cargo/reference/specifying-dependencies.html#platform-specific-dependencies).
        "build-dependencies" also "build_dependencies" => build_dependencies: DepsSet, default(DepsSet::new());
    }
}
