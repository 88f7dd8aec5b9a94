//! The numbers that an answer has, by the names that `bindings/c/cargo_manifest.h` has for them.

// (made by scripts/keys --write)
// the statuses
pub(super) const ACCEPTED: u8 = 0;
pub(super) const NO_TOML: u8 = 1;
pub(super) const SCHEMA: u8 = 2;
pub(super) const IO: u8 = 3;
pub(super) const NOT_UTF8: u8 = 4;
pub(super) const OTHER: u8 = 5;
pub(super) const MEMORY: u8 = 6;
pub(super) const DATE: u8 = 7;
pub(super) const LISTINGS: u8 = 8;
pub(super) const NO_WORKSPACE: u8 = 9;
pub(super) const NOT_IN_WORKSPACE: u8 = 10;
pub(super) const INHERITED_IN_WORKSPACE: u8 = 11;
pub(super) const MIXED_LINTS: u8 = 12;
pub(super) const TOOL_NAMED_WORKSPACE: u8 = 13;
pub(super) const UNTAGGED: u8 = 14;
pub(super) const TOO_DEEP: u8 = 15;
pub(super) const ROOT_NO_TOML: u8 = 17;
pub(super) const ROOT_SCHEMA: u8 = 18;
pub(super) const ROOT_NOT_UTF8: u8 = 20;
pub(super) const ROOT_UNTAGGED: u8 = 30;
pub(super) const ROOT_TOO_DEEP: u8 = 31;
pub(super) const TOO_LONG: u8 = 32;
pub(super) const NOT_A_VALUE: u8 = 33;
pub(super) const NO_PLACE: u8 = 34;
pub(super) const OVERLAP: u8 = 35;
pub(super) const NOT_EDITED: u8 = 36;
pub(super) const NOT_TEXT: u8 = 37;
pub(super) const OFFSETS: u8 = 38;
pub(super) const CONFIGURATION: u8 = 39;
// the faults of a folder, which are the causes of IO
pub(super) const NOT_FOUND: u8 = 1;
pub(super) const OUT_OF_MEMORY: u8 = 2;
pub(super) const OTHER_FAULT: u8 = 3;
// what is added to a status where it is of the root
pub(super) const OF_ROOT: u8 = 16;
