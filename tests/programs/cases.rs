//! What the programs of this folder read from standard input: cases, each a text with the files that lie beside it.
//!
//! A case is a line with two numbers, how many bytes its text has and how many files there are; the text; and the files, each
//! on a line of its own, as `src/lib.rs`.

use std::io::{self, Read};

/// A text, and the files beside it.
pub struct Case {
    pub text: Vec<u8>,
    #[allow(dead_code)] // (not every program asks for them)
    pub files: Vec<String>,
}

/// The bytes in front of the next line feed, which are taken away with it.
fn line(left: &mut &[u8]) -> String {
    let end = left.iter().position(|byte| *byte == b'\n').expect("a line");
    let line = String::from_utf8(left[..end].to_vec()).expect("UTF-8");
    *left = &left[end + 1..];
    line
}

/// All cases of standard input.
pub fn read() -> Vec<Case> {
    let mut all = Vec::new();
    io::stdin().read_to_end(&mut all).expect("standard input");
    let mut left = all.as_slice();
    let mut cases = Vec::new();
    while !left.is_empty() {
        let head = line(&mut left);
        let (bytes, files) = head.split_once(' ').expect("two numbers");
        let (text, rest) = left.split_at(bytes.parse().expect("a number"));
        left = rest;
        let files = (0..files.parse().expect("a number")).map(|_| line(&mut left)).collect();
        cases.push(Case { text: text.to_vec(), files });
    }
    cases
}
