//! Links the archive of the library: the one in the folder that MANIFEST_FFI names; or else the one that this package has for
//! the target in its folder prebuilt/, where its sum has to be the one of SHA256SUMS. (`bindings/cargo-manifest` has this build
//! script too.)

use std::collections::HashSet;
use std::env;
use std::fs;
use std::path::{Path, PathBuf};
use std::process;

const ARCHIVE: &str = "libcargo_manifest.a";

/// The calls that this crate makes.
const CALLS: [&str; 10] = [
    "manifest_diagnostics",
    "manifest_document",
    "manifest_edited",
    "manifest_placed_findings",
    "manifest_placed_refusals",
    "manifest_placed_unfound_targets",
    "manifest_positions",
    "manifest_run",
    "manifest_table_without_metadata",
    "manifest_version",
];

/// The first 32 bits of the fractional parts of the cube roots of the first 64 primes.
#[rustfmt::skip]
const ROUNDS: [u32; 64] = [
    0x428a2f98, 0x71374491, 0xb5c0fbcf, 0xe9b5dba5, 0x3956c25b, 0x59f111f1, 0x923f82a4, 0xab1c5ed5,
    0xd807aa98, 0x12835b01, 0x243185be, 0x550c7dc3, 0x72be5d74, 0x80deb1fe, 0x9bdc06a7, 0xc19bf174,
    0xe49b69c1, 0xefbe4786, 0x0fc19dc6, 0x240ca1cc, 0x2de92c6f, 0x4a7484aa, 0x5cb0a9dc, 0x76f988da,
    0x983e5152, 0xa831c66d, 0xb00327c8, 0xbf597fc7, 0xc6e00bf3, 0xd5a79147, 0x06ca6351, 0x14292967,
    0x27b70a85, 0x2e1b2138, 0x4d2c6dfc, 0x53380d13, 0x650a7354, 0x766a0abb, 0x81c2c92e, 0x92722c85,
    0xa2bfe8a1, 0xa81a664b, 0xc24b8b70, 0xc76c51a3, 0xd192e819, 0xd6990624, 0xf40e3585, 0x106aa070,
    0x19a4c116, 0x1e376c08, 0x2748774c, 0x34b0bcb5, 0x391c0cb3, 0x4ed8aa4a, 0x5b9cca4f, 0x682e6ff3,
    0x748f82ee, 0x78a5636f, 0x84c87814, 0x8cc70208, 0x90befffa, 0xa4506ceb, 0xbef9a3f7, 0xc67178f2,
];

/// Ends the build by one sentence.
fn stop(why: &str) -> ! {
    eprintln!("{why}");
    process::exit(1)
}

/// A variable that Cargo sets; it is empty where there is none, as for a target without a C library.
fn variable(name: &str) -> String {
    env::var(name).unwrap_or_default()
}

/// The target whose archive serves the one that is built for. The archives need six functions of the C library, which are the
/// same in musl.
fn target_of_archive() -> Option<String> {
    let processor = variable("CARGO_CFG_TARGET_ARCH");
    let fits = variable("CARGO_CFG_TARGET_OS") == "linux"
        && variable("CARGO_CFG_TARGET_POINTER_WIDTH") == "64"
        && variable("CARGO_CFG_TARGET_ENDIAN") == "little"
        && ["gnu", "musl"].contains(&variable("CARGO_CFG_TARGET_ENV").as_str())
        && ["x86_64", "aarch64"].contains(&processor.as_str());
    fits.then(|| format!("{processor}-unknown-linux-gnu"))
}

/// A file of this package's folder prebuilt/, with its bytes.
fn packed(name: &str) -> (PathBuf, Vec<u8>) {
    let file = Path::new(&variable("CARGO_MANIFEST_DIR")).join("prebuilt").join(name);
    println!("cargo:rerun-if-changed={}", file.display());
    match fs::read(&file) {
        Ok(bytes) => (file, bytes),
        Err(fault) => stop(&format!(
            "this copy of the package {} is not whole: {} cannot be read: {fault}",
            variable("CARGO_PKG_NAME"),
            file.display()
        )),
    }
}

/// The archive that this package has for the target.
fn prebuilt() -> (PathBuf, Vec<u8>) {
    let Some(target) = target_of_archive() else {
        stop(&format!(
            "{} has no archive for the target {}: it has one for x86_64 and one for aarch64, each for Linux with the GNU C \
             library or with musl, and MANIFEST_FFI may name a folder with a {ARCHIVE} of your own",
            variable("CARGO_PKG_NAME"),
            variable("TARGET")
        ))
    };
    let name = format!("{target}/{ARCHIVE}");
    let (file, archive) = packed(&name);
    let (sums, lines) = packed("SHA256SUMS");
    let lines = String::from_utf8_lossy(&lines);
    let due = lines.lines().find_map(|line| line.strip_suffix(&name)).unwrap_or_default().trim();
    let sum = sha256(&archive);
    if sum != due {
        let due = if due.is_empty() { "no sum for it" } else { due };
        stop(&format!("{} is damaged: its SHA-256 sum is {sum}, and {} has {due}", file.display(), sums.display()));
    }
    (file, archive)
}

/// The archive in the folder that MANIFEST_FFI names. It is not this package's, so no sum of it is known.
fn named(folder: &Path) -> (PathBuf, Vec<u8>) {
    let file = folder.join(ARCHIVE);
    println!("cargo:rerun-if-changed={}", file.display());
    match fs::read(&file) {
        Ok(bytes) => (file, bytes),
        Err(fault) => stop(&format!(
            "MANIFEST_FFI names the folder {}, and the file {ARCHIVE} in it cannot be read: {fault}",
            folder.display()
        )),
    }
}

/// The SHA-256 sum of bytes, as FIPS 180-4 has it, in hexadecimal.
pub fn sha256(bytes: &[u8]) -> String {
    // (the first 32 bits of the fractional parts of the square roots of the first 8 primes)
    let mut state = [0x6a09e667, 0xbb67ae85, 0x3c6ef372, 0xa54ff53a, 0x510e527f, 0x9b05688c, 0x1f83d9ab, 0x5be0cd19];
    let mut padded = bytes.to_vec();
    padded.push(0x80);
    while padded.len() % 64 != 56 {
        padded.push(0);
    }
    padded.extend((bytes.len() as u64 * 8).to_be_bytes());
    for block in padded.chunks_exact(64) {
        add_block(&mut state, block);
    }
    state.iter().map(|word| format!("{word:08x}")).collect()
}

/// Adds a block of 64 bytes to the state of a sum.
fn add_block(state: &mut [u32; 8], block: &[u8]) {
    let mut words = [0; 64];
    for (word, bytes) in words.iter_mut().zip(block.chunks_exact(4)) {
        *word = u32::from_be_bytes([bytes[0], bytes[1], bytes[2], bytes[3]]);
    }
    for at in 16..64 {
        let (near, far) = (words[at - 2], words[at - 15]);
        let near = near.rotate_right(17) ^ near.rotate_right(19) ^ (near >> 10);
        let far = far.rotate_right(7) ^ far.rotate_right(18) ^ (far >> 3);
        words[at] = near.wrapping_add(words[at - 7]).wrapping_add(far).wrapping_add(words[at - 16]);
    }
    let [mut a, mut b, mut c, mut d, mut e, mut f, mut g, mut h] = *state;
    for (round, word) in ROUNDS.iter().zip(words) {
        let choice = (e & f) ^ (!e & g);
        let majority = (a & b) ^ (a & c) ^ (b & c);
        let of_e = e.rotate_right(6) ^ e.rotate_right(11) ^ e.rotate_right(25);
        let of_a = a.rotate_right(2) ^ a.rotate_right(13) ^ a.rotate_right(22);
        let first = h.wrapping_add(of_e).wrapping_add(choice).wrapping_add(*round).wrapping_add(word);
        (h, g, f, e) = (g, f, e, d.wrapping_add(first));
        (d, c, b, a) = (c, b, a, first.wrapping_add(of_a).wrapping_add(majority));
    }
    for (sum, word) in state.iter_mut().zip([a, b, c, d, e, f, g, h]) {
        *sum = sum.wrapping_add(word);
    }
}

/// The names in the archive, and whatever else stands there between bytes that no name has.
fn names(archive: &[u8]) -> HashSet<&[u8]> {
    archive.split(|byte| !byte.is_ascii_alphanumeric() && *byte != b'_').collect()
}

fn main() {
    println!("cargo:rerun-if-env-changed=MANIFEST_FFI");
    // (the features are those of the package next to this one, which has the same sources)
    println!("cargo:rustc-check-cfg=cfg(feature, values(\"serde\", \"toml\", \"toml_1\"))");
    let (file, archive) = match env::var_os("MANIFEST_FFI") {
        Some(folder) => named(Path::new(&folder)),
        None => prebuilt(),
    };
    let names = names(&archive);
    if let Some(call) = CALLS.iter().find(|call| !names.contains(call.as_bytes())) {
        stop(&format!("the archive {} is of another version: it has no call {call}", file.display()));
    }
    println!("cargo:rustc-link-search=native={}", file.parent().expect("a file is in a folder").display());
    println!("cargo:rustc-link-lib=static=cargo_manifest");
}
