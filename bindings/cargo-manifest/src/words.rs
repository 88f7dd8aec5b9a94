//! Choices of a package and of a workspace.

use crate::codec::words;

words! {
    /// An edition of Rust.
    #[derive(Debug, Clone, Copy, PartialEq, Eq, Hash, Default)]
    pub enum Edition {
        /// 2015, which is that of a package that says none.
        #[default]
        E2015 = "2015",
        /// 2018.
        E2018 = "2018",
        /// 2021.
        E2021 = "2021",
        /// 2024.
        E2024 = "2024",
    }
}

words! {
    /// How versions and features are chosen.
    #[derive(Debug, Clone, Copy, PartialEq, Eq, Hash, Default)]
    pub enum Resolver {
        /// The oldest way.
        #[default]
        V1 = "1",
        /// The way of the edition 2021.
        V2 = "2",
        /// The way of the edition 2024.
        V3 = "3",
    }
}
