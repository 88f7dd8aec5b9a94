//! Uses every public item of the crate as it stands there, without serde: each type by all of its fields or variants, each method
//! and each trait. So it does not compile where one of them is another. What it makes is printed, a line for each.
//!
//! `api FOLDER`, where FOLDER is one in which it may make files.

mod api {
    pub mod filesystem;
    pub mod parts;
    pub mod traits;
    pub mod values;
}

use std::env;
use std::path::PathBuf;

fn main() {
    let folder = PathBuf::from(env::args().nth(1).expect("usage: api FOLDER"));
    let mut lines = api::parts::lines();
    lines.extend(api::traits::lines());
    lines.extend(api::values::lines());
    lines.extend(api::filesystem::lines(&folder));
    lines.iter().for_each(|line| println!("{line}"));
}
