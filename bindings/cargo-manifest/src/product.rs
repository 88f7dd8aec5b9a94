//! What Cargo builds of a package.

use crate::codec::record;
use crate::Edition;

record! {
    /// What Cargo builds of a package: `[lib]`, and each `[[bin]]`, `[[example]]`, `[[test]]` and `[[bench]]`. (Cargo calls
    /// this a target, and so it calls a platform too.)
    #[derive(Debug, Clone, PartialEq, Eq)]
    pub struct Product {
        // (made by scripts/keys --write)
        /// The path of the target's source file, relative to the manifest; discovered where there is none.
        ///
        /// [Cargo reference](https://doc.rust-lang.org/cargo/reference/cargo-targets.html#the-path-field).
        "path" => path: Option<String>, nullable;
        /// The name of the target and of what is built; a library's is by default the package's, with `_` for each `-`.
        ///
        /// [Cargo reference](https://doc.rust-lang.org/cargo/reference/cargo-targets.html#the-name-field).
        "name" => name: Option<String>, nullable;
        /// Whether `cargo test` tests it by default. Default: `true`.
        ///
        /// [Cargo reference](https://doc.rust-lang.org/cargo/reference/cargo-targets.html#the-test-field).
        "test" => test: bool, unless(true);
        /// Whether `cargo test` tests the examples in its documentation; of a library alone. Default: `true`.
        ///
        /// [Cargo reference](https://doc.rust-lang.org/cargo/reference/cargo-targets.html#the-doctest-field).
        "doctest" => doctest: bool, unless(true);
        /// Whether `cargo bench` benches it by default. Default: `true`.
        ///
        /// [Cargo reference](https://doc.rust-lang.org/cargo/reference/cargo-targets.html#the-bench-field).
        "bench" => bench: bool, unless(true);
        /// Whether `cargo doc` documents it by default. Default: `true`.
        ///
        /// [Cargo reference](https://doc.rust-lang.org/cargo/reference/cargo-targets.html#the-doc-field).
        "doc" => doc: bool, unless(true);
        /// Whether it is a compiler plugin; obsolete. Default: `false`.
        ///
        /// [Cargo reference](https://doc.rust-lang.org/cargo/reference/cargo-targets.html#the-plugin-field).
        "plugin" => plugin: bool, unless(false);
        /// Whether the library is a procedural macro. Default: `false`.
        ///
        /// [Cargo reference](https://doc.rust-lang.org/cargo/reference/cargo-targets.html#the-proc-macro-field).
        "proc-macro" also "proc_macro" => proc_macro: bool, unless(false);
        /// Whether it is tested and benched by the harness of `libtest`; where not, it has a `main` of its own.
        /// Default: `true`.
        ///
        /// [Cargo reference](https://doc.rust-lang.org/cargo/reference/cargo-targets.html#the-harness-field).
        "harness" => harness: bool, unless(true);
        /// The edition of the target; where there is none, the package's, which completion puts there.
        ///
        /// [Cargo reference](https://doc.rust-lang.org/cargo/reference/cargo-targets.html#the-edition-field).
        "edition" => edition: Option<Edition>, nullable;
        /// The features without which it is not built; on a library they have no effect. Default: empty.
        ///
        /// [Cargo reference](https://doc.rust-lang.org/cargo/reference/cargo-targets.html#the-required-features-field).
        "required-features" also "required_features" => required_features: Vec<String>, default(Vec::new());
        /// The crate types that are built, such as `rlib` and `cdylib`; of a library or an example alone.
        ///
        /// [Cargo reference](https://doc.rust-lang.org/cargo/reference/cargo-targets.html#the-crate-type-field).
        "crate-type" also "crate_type" => crate_type: Option<Vec<String>>, optional;
    }
}

impl Default for Product {
    fn default() -> Product {
        let mut product = Product {
            // (made by scripts/keys --write)
            path: None,
            name: None,
            test: true,
            doctest: true,
            bench: true,
            doc: true,
            plugin: false,
            proc_macro: false,
            harness: true,
            edition: None,
            required_features: Vec::new(),
            crate_type: None,
        };
        product.edition = Some(Edition::default());
        product
    }
}
