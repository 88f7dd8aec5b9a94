//! The workspace, and what its members inherit of it.

use crate::codec::record;
use crate::{DepsSet, Edition, LintsSet, Publish, Resolver, StringOrBool};

record! {
    /// `[workspace]`, in the manifest of a workspace's root.
    #[derive(Debug, Clone, PartialEq, Eq, Default)]
    pub struct Workspace<Metadata> {
        // (made by scripts/keys --write)
        /// The paths of members, or globs; not all, since the root package and path dependencies inside are members
        /// too. Default: empty.
        ///
        /// [Cargo reference](https://doc.rust-lang.org/cargo/reference/workspaces.html#the-members-and-exclude-fields).
        "members" => members: Vec<String>, default(Vec::new());
        /// The members, by paths or globs, on which a command at the workspace's root works by default.
        ///
        /// [Cargo reference](https://doc.rust-lang.org/cargo/reference/workspaces.html#the-default-members-field).
        "default-members" also "default_members" => default_members: Option<Vec<String>>, optional;
        /// The paths that are not members, though `members` or a path dependency names them.
        ///
        /// [Cargo reference](https://doc.rust-lang.org/cargo/reference/workspaces.html#the-members-and-exclude-fields).
        "exclude" => exclude: Option<Vec<String>>, optional;
        /// The resolver of all members; by default that of the root package, or 1 in a virtual workspace.
        ///
        /// [Cargo reference](https://doc.rust-lang.org/cargo/reference/resolver.html#resolver-versions).
        "resolver" => resolver: Option<Resolver>, optional;
        /// `[workspace.dependencies]`: the dependencies that members can inherit; Cargo allows no optional one.
        ///
        /// [Cargo reference](https://doc.rust-lang.org/cargo/reference/workspaces.html#the-dependencies-table).
        "dependencies" => dependencies: Option<DepsSet>, optional;
        /// `[workspace.package]`: the package fields that members can inherit.
        ///
        /// [Cargo reference](https://doc.rust-lang.org/cargo/reference/workspaces.html#the-package-table).
        "package" => package: Option<WorkspacePackage>, optional;
        /// `[workspace.metadata]`: what tools other than Cargo read.
        ///
        /// [Cargo reference](https://doc.rust-lang.org/cargo/reference/workspaces.html#the-metadata-table).
        "metadata" => metadata: Option<Metadata>, metadata(workspace);
        /// `[workspace.lints]`: the lints that members can inherit, by tool and by the name of the lint or lint group.
        ///
        /// [Cargo reference](https://doc.rust-lang.org/cargo/reference/workspaces.html#the-lints-table).
        "lints" => lints: Option<LintsSet>, optional;
    }
}

record! {
    /// `[workspace.package]`: what members inherit by `version.workspace = true` and so on.
    #[derive(Debug, Clone, PartialEq, Eq, Default)]
    pub struct WorkspacePackage {
        // (made by scripts/keys --write)
        /// The edition that members can inherit.
        ///
        /// [Cargo reference](https://doc.rust-lang.org/cargo/reference/manifest.html#the-edition-field).
        "edition" => edition: Option<Edition>, optional;
        /// The version that members can inherit.
        ///
        /// [Cargo reference](https://doc.rust-lang.org/cargo/reference/manifest.html#the-version-field).
        "version" => version: Option<String>, nullable;
        /// The authors that members can inherit.
        ///
        /// [Cargo reference](https://doc.rust-lang.org/cargo/reference/manifest.html#the-authors-field).
        "authors" => authors: Option<Vec<String>>, nullable;
        /// The description that members can inherit, in plain text.
        ///
        /// [Cargo reference](https://doc.rust-lang.org/cargo/reference/manifest.html#the-description-field).
        "description" => description: Option<String>, optional;
        /// The URL of the home page that members can inherit.
        ///
        /// [Cargo reference](https://doc.rust-lang.org/cargo/reference/manifest.html#the-homepage-field).
        "homepage" => homepage: Option<String>, optional;
        /// The URL of the documentation that members can inherit.
        ///
        /// [Cargo reference](https://doc.rust-lang.org/cargo/reference/manifest.html#the-documentation-field).
        "documentation" => documentation: Option<String>, optional;
        /// The readme that members can inherit: its path, relative to the workspace's root, or a boolean.
        ///
        /// [Cargo reference](https://doc.rust-lang.org/cargo/reference/manifest.html#the-readme-field).
        "readme" => readme: Option<StringOrBool>, optional;
        /// The keywords that members can inherit.
        ///
        /// [Cargo reference](https://doc.rust-lang.org/cargo/reference/manifest.html#the-keywords-field).
        "keywords" => keywords: Option<Vec<String>>, optional;
        /// The categories that members can inherit.
        ///
        /// [Cargo reference](https://doc.rust-lang.org/cargo/reference/manifest.html#the-categories-field).
        "categories" => categories: Option<Vec<String>>, optional;
        /// The licence that members can inherit, as an SPDX expression.
        ///
        /// [Cargo reference](https://doc.rust-lang.org/cargo/reference/manifest.html#the-license-and-license-file-fields).
        "license" => license: Option<String>, optional;
        /// The path of the licence's text that members can inherit, relative to the workspace's root.
        ///
        /// [Cargo reference](https://doc.rust-lang.org/cargo/reference/manifest.html#the-license-and-license-file-fields).
        "license-file" => license_file: Option<String>, optional;
        /// Whether, or to which registries, members that inherit it may be published.
        ///
        /// [Cargo reference](https://doc.rust-lang.org/cargo/reference/manifest.html#the-publish-field).
        "publish" => publish: Option<Publish>, optional;
        /// The patterns that members can inherit of files that are not packaged, relative to each member.
        ///
        /// [Cargo reference](https://doc.rust-lang.org/cargo/reference/manifest.html#the-exclude-and-include-fields).
        "exclude" => exclude: Option<Vec<String>>, optional;
        /// The patterns that members can inherit of files that are packaged, relative to each member.
        ///
        /// [Cargo reference](https://doc.rust-lang.org/cargo/reference/manifest.html#the-exclude-and-include-fields).
        "include" => include: Option<Vec<String>>, optional;
        /// The URL of the source repository that members can inherit.
        ///
        /// [Cargo reference](https://doc.rust-lang.org/cargo/reference/manifest.html#the-repository-field).
        "repository" => repository: Option<String>, optional;
        /// The oldest supported version of Rust that members can inherit.
        ///
        /// [Cargo reference](https://doc.rust-lang.org/cargo/reference/manifest.html#the-rust-version-field).
        "rust-version" => rust_version: Option<String>, nullable;
    }
}
