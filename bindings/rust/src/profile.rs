//! Profiles.

use crate::codec::{record, Aside, Encode, Expected, Form, Misfit, Reader, Writer, STRING};
use crate::message::{listed, message};
use crate::{Cause, Error, Value};
use std::collections::BTreeMap;

record! {
    /// `[profile]`.
    #[derive(Debug, Clone, PartialEq, Default)]
    pub struct Profiles {
        // (made by scripts/keys --write)
        /// `[profile.release]`, of `--release` and of `cargo install`.
        ///
        /// [Cargo reference](https://doc.rust-lang.org/cargo/reference/profiles.html#release).
        "release" => release: Option<Profile>, nullable;
        /// `[profile.dev]`, which `cargo build` and others take by default.
        ///
        /// [Cargo reference](https://doc.rust-lang.org/cargo/reference/profiles.html#dev).
        "dev" => dev: Option<Profile>, nullable;
        /// `[profile.test]`, of `cargo test`; it inherits from `dev`.
        ///
        /// [Cargo reference](https://doc.rust-lang.org/cargo/reference/profiles.html#test).
        "test" => test: Option<Profile>, nullable;
        /// `[profile.bench]`, of `cargo bench`; it inherits from `release`.
        ///
        /// [Cargo reference](https://doc.rust-lang.org/cargo/reference/profiles.html#bench).
        "bench" => bench: Option<Profile>, nullable;
        /// `[profile.doc]`, which Cargo no longer uses: it has no effect.
        ///
        /// [Cargo reference](https://doc.rust-lang.org/cargo/reference/profiles.html).
        "doc" => doc: Option<Profile>, nullable;
    }
    others {
        // (made by scripts/keys --write)
        /// The custom profiles, by name. None can have one of the names above.
        ///
        /// [Cargo reference](https://doc.rust-lang.org/cargo/reference/profiles.html).
        custom: BTreeMap<String, Profile>
    }
}

record! {
    /// How the compiler is called.
    #[derive(Debug, Clone, PartialEq)]
    pub struct Profile {
        // (made by scripts/keys --write)
        /// The optimization level, kept as it is: 0 to 3, `"s"` or `"z"`.
        ///
        /// [Cargo reference](https://doc.rust-lang.org/cargo/reference/profiles.html#opt-level).
        "opt-level" also "opt_level" => opt_level: Option<Value>, nullable;
        /// How much debug information there is, kept as it is: 0 to 2, a boolean, or a text such as `"limited"`.
        ///
        /// [Cargo reference](https://doc.rust-lang.org/cargo/reference/profiles.html#debug).
        "debug" => debug: Option<Value>, nullable;
        /// Whether `rpath` is on: rustc's `-C rpath`.
        ///
        /// [Cargo reference](https://doc.rust-lang.org/cargo/reference/profiles.html#rpath).
        "rpath" => rpath: Option<bool>, nullable;
        /// The profile from which it inherits what it does not set; Cargo requires it of a custom profile.
        ///
        /// [Cargo reference](https://doc.rust-lang.org/cargo/reference/profiles.html#custom-profiles).
        "inherits" => inherits: Option<String>, nullable;
        /// The link-time optimization, kept as it is: a boolean, `"fat"`, `"thin"` or `"off"`.
        ///
        /// [Cargo reference](https://doc.rust-lang.org/cargo/reference/profiles.html#lto).
        "lto" => lto: Option<Value>, nullable;
        /// Whether `cfg(debug_assertions)` is on, and `debug_assert!` with it.
        ///
        /// [Cargo reference](https://doc.rust-lang.org/cargo/reference/profiles.html#debug-assertions).
        "debug-assertions" also "debug_assertions" => debug_assertions: Option<bool>, nullable;
        /// How many code generation units a crate is split into, at most.
        ///
        /// [Cargo reference](https://doc.rust-lang.org/cargo/reference/profiles.html#codegen-units).
        "codegen-units" also "codegen_units" => codegen_units: Option<u16>, nullable;
        /// The panic strategy: `unwind` or `abort`.
        ///
        /// [Cargo reference](https://doc.rust-lang.org/cargo/reference/profiles.html#panic).
        "panic" => panic: Option<String>, nullable;
        /// Whether incremental compilation is on.
        ///
        /// [Cargo reference](https://doc.rust-lang.org/cargo/reference/profiles.html#incremental).
        "incremental" => incremental: Option<bool>, nullable;
        /// Whether the overflow of integers is checked at run time.
        ///
        /// [Cargo reference](https://doc.rust-lang.org/cargo/reference/profiles.html#overflow-checks).
        "overflow-checks" also "overflow_checks" => overflow_checks: Option<bool>, nullable;
        /// What is stripped from a binary: nothing, debug information, or all symbols.
        ///
        /// [Cargo reference](https://doc.rust-lang.org/cargo/reference/profiles.html#strip).
        "strip" => strip: Option<StripSetting>, nullable;
        /// Overrides for single packages, by package ID spec or `*`; each is kept as it is. Default: empty.
        ///
        /// [Cargo reference](https://doc.rust-lang.org/cargo/reference/profiles.html#overrides).
        "package" => package: BTreeMap<String, Value>, default(BTreeMap::new());
        /// Whether debug information stands in the binary or next to it: `off`, `packed` or `unpacked`.
        ///
        /// [Cargo reference](https://doc.rust-lang.org/cargo/reference/profiles.html#split-debuginfo).
        "split-debuginfo" => split_debuginfo: Option<String>, nullable;
        /// Overrides for build scripts, procedural macros and their dependencies, kept as they are.
        ///
        /// [Cargo reference](https://doc.rust-lang.org/cargo/reference/profiles.html#build-dependencies).
        "build-override" => build_override: Option<Value>, nullable;
    }
}

/// What is left out of what is built.
#[derive(Debug, Clone, PartialEq, Eq, PartialOrd, Ord)]
pub enum StripSetting {
    /// Nothing: `false` or `"none"`.
    None,
    /// What is said for a debugger: `"debuginfo"`.
    Debuginfo,
    /// That, and the names of symbols: `true` or `"symbols"`.
    Symbols,
}

impl StripSetting {
    fn of_word(word: &str) -> Option<StripSetting> {
        match word {
            "none" => Some(StripSetting::None),
            "debuginfo" => Some(StripSetting::Debuginfo),
            "symbols" => Some(StripSetting::Symbols),
            _ => None,
        }
    }

    fn of_flag(flag: bool) -> StripSetting {
        if flag {
            StripSetting::Symbols
        } else {
            StripSetting::None
        }
    }
}

impl TryFrom<Value> for StripSetting {
    type Error = Error;

    fn try_from(value: Value) -> Result<StripSetting, Error> {
        let expected = StripSetting::expected();
        match &value {
            Value::Boolean(flag) => Ok(StripSetting::of_flag(*flag)),
            Value::String(word) => StripSetting::of_word(word)
                .ok_or_else(|| Error::Other(format!("`{word}` is none of {}", listed(expected.choices)))),
            _ => Err(Error::Other(message(Cause::WrongKind, "strip", Some(&expected)))),
        }
    }
}

impl Form for StripSetting {
    fn decode(reader: &mut Reader<'_>) -> Option<StripSetting> {
        if reader.peek()? == STRING {
            // (the other two words are written as booleans)
            return (reader.string()? == "debuginfo").then_some(StripSetting::Debuginfo);
        }
        bool::decode(reader).map(StripSetting::of_flag)
    }

    fn read(value: Value, _: &mut Aside) -> Result<StripSetting, Misfit> {
        match value {
            Value::Boolean(flag) => Ok(StripSetting::of_flag(flag)),
            Value::String(word) => {
                StripSetting::of_word(&word).ok_or_else(|| Misfit::new::<StripSetting>(Cause::NotAChoice))
            }
            _ => Err(Misfit::wrong_kind::<StripSetting>()),
        }
    }

    fn expected() -> Expected {
        let word = Expected::one_of(&["none", "symbols", "debuginfo"]);
        let what = format!("a boolean, or {}", word.what);
        word.said(what)
    }
}

impl Encode for StripSetting {
    fn encode(&self, writer: &mut Writer) {
        match self {
            StripSetting::None => writer.boolean(false),
            StripSetting::Debuginfo => writer.string("debuginfo"),
            StripSetting::Symbols => writer.boolean(true),
        }
    }
}
