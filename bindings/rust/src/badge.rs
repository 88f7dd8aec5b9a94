//! Badges.

use crate::codec::{record, words};

record! {
    /// A badge.
    #[derive(Debug, Clone, PartialEq, Eq)]
    pub struct Badge {
        // (made by scripts/keys --write)
        /// The repository, as the service names it: mostly `user/project`.
        ///
        /// [Cargo reference](https://doc.rust-lang.org/cargo/reference/manifest.html#the-badges-section).
        "repository" => repository: String, required;
        /// The branch. Default: `"master"`.
        ///
        /// [Cargo reference](https://doc.rust-lang.org/cargo/reference/manifest.html#the-badges-section).
        "branch" => branch: String, default("master".into());
        /// The host of the repository, such as `github` or `bitbucket`; AppVeyor, Codecov and Coveralls take it.
        ///
        /// [Cargo reference](https://doc.rust-lang.org/cargo/reference/manifest.html#the-badges-section).
        "service" => service: Option<String>, nullable;
        /// The identifier of the project at AppVeyor, in place of its name.
        ///
        /// [Cargo reference](https://doc.rust-lang.org/cargo/reference/manifest.html#the-badges-section).
        "id" => id: Option<String>, nullable;
        /// The name of the project at AppVeyor, where the repository has another.
        ///
        /// [Cargo reference](https://doc.rust-lang.org/cargo/reference/manifest.html#the-badges-section).
        "project-name" also "project_name" => project_name: Option<String>, nullable;
    }
}

record! {
    /// `[badges.maintenance]`.
    #[derive(Debug, Clone, Copy, PartialEq, Eq, Default)]
    pub struct Maintenance {
        // (made by scripts/keys --write)
        /// The maintenance status.
        ///
        /// [Cargo reference](https://doc.rust-lang.org/cargo/reference/manifest.html#the-badges-section).
        "status" => status: MaintenanceStatus, required;
    }
}

record! {
    /// `[badges]`. A badge that does not fit is left out, and refuses nothing.
    #[derive(Debug, Clone, PartialEq, Eq, Default)]
    pub struct Badges {
        // (made by scripts/keys --write)
        /// The build at AppVeyor: `repository` is required; all other fields are optional.
        ///
        /// [Cargo reference](https://doc.rust-lang.org/cargo/reference/manifest.html#the-badges-section).
        "appveyor" => appveyor: Option<Badge>, lenient;
        /// The build at Circle CI: `repository` is required, `branch` optional.
        ///
        /// [Cargo reference](https://doc.rust-lang.org/cargo/reference/manifest.html#the-badges-section).
        "circle-ci" => circle_ci: Option<Badge>, lenient;
        /// The pipeline at GitLab: `repository` is required, `branch` optional.
        ///
        /// [Cargo reference](https://doc.rust-lang.org/cargo/reference/manifest.html#the-badges-section).
        "gitlab" => gitlab: Option<Badge>, lenient;
        /// The build at Travis CI: `repository` is required, `branch` optional.
        ///
        /// [Cargo reference](https://doc.rust-lang.org/cargo/reference/manifest.html#the-badges-section).
        "travis-ci" => travis_ci: Option<Badge>, lenient;
        /// The test coverage at Codecov: `repository` is required, `branch` and `service` optional.
        ///
        /// [Cargo reference](https://doc.rust-lang.org/cargo/reference/manifest.html#the-badges-section).
        "codecov" => codecov: Option<Badge>, lenient;
        /// The test coverage at Coveralls: `repository` is required, `branch` and `service` optional.
        ///
        /// [Cargo reference](https://doc.rust-lang.org/cargo/reference/manifest.html#the-badges-section).
        "coveralls" => coveralls: Option<Badge>, lenient;
        /// The time in which issues are resolved, by isitmaintained.com: `repository` is required.
        ///
        /// [Cargo reference](https://doc.rust-lang.org/cargo/reference/manifest.html#the-badges-section).
        "is-it-maintained-issue-resolution" => is_it_maintained_issue_resolution: Option<Badge>, lenient;
        /// The percentage of issues that are open, by isitmaintained.com: `repository` is required.
        ///
        /// [Cargo reference](https://doc.rust-lang.org/cargo/reference/manifest.html#the-badges-section).
        "is-it-maintained-open-issues" => is_it_maintained_open_issues: Option<Badge>, lenient;
        /// The maintenance status; `none` where none is given.
        ///
        /// [Cargo reference](https://doc.rust-lang.org/cargo/reference/manifest.html#the-badges-section).
        "maintenance" => maintenance: Maintenance, lenient_default(Maintenance::default());
    }
}

words! {
    /// How a package is maintained.
    #[derive(Debug, Clone, Copy, PartialEq, Eq, Hash, Default)]
    pub enum MaintenanceStatus {
        /// Nothing is said.
        #[default]
        None = "none",
        /// New features are added and faults are mended.
        ActivelyDeveloped = "actively-developed",
        /// Faults are mended.
        PassivelyMaintained = "passively-maintained",
        /// It is finished.
        AsIs = "as-is",
        /// It is tried out.
        Experimental = "experimental",
        /// Someone else may take it.
        LookingForMaintainer = "looking-for-maintainer",
        /// It is not to be used any more.
        Deprecated = "deprecated",
    }
}
