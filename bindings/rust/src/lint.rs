//! Lints.

use crate::codec::{record, words, Aside, Encode, Expected, Form, Misfit, Reader, Step, Writer, STRING};
use crate::{ToolLintsSet, True, Value};

record! {
    /// `[lints]` of a package: inherited from the workspace, or the lints of each tool.
    #[derive(Debug, Clone, PartialEq, Eq)]
    pub struct MaybeInheritedLintsSet {
        // (made by scripts/keys --write)
        /// Whether the lints are inherited, by `workspace = true`.
        ///
        /// [Cargo reference](https://doc.rust-lang.org/cargo/reference/manifest.html#the-lints-section).
        "workspace" => workspace: Option<True>, optional;
    }
    others {
        // (made by scripts/keys --write)
        /// The package's own lints, by tool, such as `rust` or `clippy`, and by the name of the lint or lint group. No
        /// tool can be named `workspace`.
        ///
        /// [Cargo reference](https://doc.rust-lang.org/cargo/reference/manifest.html#the-lints-section).
        lints: BTreeMap<String, ToolLintsSet>
    }
}

impl MaybeInheritedLintsSet {
    /// Whether the lints are inherited from the workspace.
    pub fn is_inherited(&self) -> bool {
        self.workspace.is_some()
    }
}

/// A lint: its level, or a table.
#[derive(Debug, Clone, PartialEq, Eq)]
pub enum Lint {
    /// The level alone: `unsafe_code = "forbid"`.
    Level(LintLevel),
    /// A table: `unsafe_code = { level = "warn", priority = 1 }`.
    Config(LintConfig),
}

impl Lint {
    /// The level.
    pub fn level(&self) -> LintLevel {
        match self {
            Lint::Level(level) => *level,
            Lint::Config(config) => config.level,
        }
    }

    /// The priority: 0 where none is said.
    pub fn priority(&self) -> i8 {
        match self {
            Lint::Level(_) => 0,
            Lint::Config(config) => config.priority,
        }
    }
}

impl Form for Lint {
    fn decode(reader: &mut Reader<'_>) -> Option<Lint> {
        match reader.peek()? {
            STRING => LintLevel::decode(reader).map(Lint::Level),
            _ => LintConfig::decode(reader).map(Lint::Config),
        }
    }

    fn read(value: Value, aside: &mut Aside) -> Result<Lint, Misfit> {
        match value {
            level @ Value::String(_) => Form::read(level, aside).map(Lint::Level),
            table @ Value::Table(_) => Form::read(table, aside).map(Lint::Config),
            _ => Err(Misfit::wrong_kind::<Lint>()),
        }
    }

    fn expected() -> Expected {
        let level = LintLevel::expected();
        let what = format!("{}, or a table", level.what);
        Expected { table: LintConfig::expected().table, ..level.said(what) }
    }

    fn expected_at(path: &[Step]) -> Option<Expected> {
        match path {
            [] => Some(Self::expected()),
            below => LintConfig::expected_at(below),
        }
    }
}

impl Encode for Lint {
    fn encode(&self, writer: &mut Writer) {
        match self {
            Lint::Level(level) => level.encode(writer),
            Lint::Config(config) => config.encode(writer),
        }
    }
}

record! {
    /// A lint as a table.
    #[derive(Debug, Clone, PartialEq, Eq)]
    pub struct LintConfig {
        // (made by scripts/keys --write)
        /// The level of the lint or lint group.
        ///
        /// [Cargo reference](https://doc.rust-lang.org/cargo/reference/manifest.html#the-lints-section).
        "level" => level: LintLevel, required;
        /// Where lints and lint groups overlap, the one with the higher priority decides. Default: `0`.
        ///
        /// [Cargo reference](https://doc.rust-lang.org/cargo/reference/manifest.html#the-lints-section).
        "priority" => priority: i8, default(0);
    }
}

words! {
    /// What comes of a lint.
    #[derive(Debug, Clone, Copy, PartialEq, Eq, Hash)]
    pub enum LintLevel {
        /// An error that no attribute takes back.
        Forbid = "forbid",
        /// An error.
        Deny = "deny",
        /// A warning.
        Warn = "warn",
        /// Nothing.
        Allow = "allow",
    }
}
