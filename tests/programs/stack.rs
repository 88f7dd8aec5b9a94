//! Does one thing with each text in a thread with so much stack. A thread that runs out of it ends the process by a signal.
//!
//! `stack STEP BYTES < CASES`, where STEP is `call`, which makes calls of the library alone, with the text as the manifest and as
//! its root; or `find`, which finds one thing in the text, copies, compares, prints and drops it; or `read` (and drop), `clone`,
//! `compare`, `print`, `pretty` or `write`, of which each reads first.

mod cases;

use cargo_manifest::calls::{self, Listings, Refusal};
use cargo_manifest::Manifest;
use std::env;
use std::thread;

/// Whether the calls that do most accept the text, or refuse it as none or as too deep, as the manifest and as the root.
fn answers(text: &[u8]) -> bool {
    let mut listings = Listings::new();
    listings.put(".", ["build.rs"]);
    let is_due = |refusal: &Refusal| {
        matches!(refusal, Refusal::NoWorkspace | Refusal::TooDeep(_) | Refusal::Toml { .. } | Refusal::Schema { .. })
    };
    let manifest = calls::resolved_completed(text, b"[workspace]\n", &listings);
    let table = calls::resolved_completed_table(text, b"[workspace]\n", &listings);
    let root = calls::resolved_completed(b"name = 'p'\n", text, &listings);
    let found = calls::findings(text);
    manifest.as_ref().err().is_none_or(is_due)
        && table.as_ref().err().is_none_or(is_due)
        && found.as_ref().err().is_none_or(is_due)
        && root.is_err_and(|refusal| is_due(&refusal))
}

/// What is done with a text; whether it came to the end.
fn does(step: &str, text: &[u8]) -> bool {
    if step == "call" {
        return answers(text);
    }
    if step == "find" {
        return calls::findings(text).is_ok_and(|found| {
            found.len() == 1 && found.clone() == found && !format!("{found:?}{found:#?}{}", found[0]).is_empty()
        });
    }
    let Ok(manifest) = Manifest::from_slice(text) else { return false };
    match step {
        "read" => true,
        "clone" => manifest.clone().package.is_some(),
        "compare" => Manifest::from_slice(text).is_ok_and(|again| again == manifest),
        "print" => !format!("{manifest:?}").is_empty(),
        "pretty" => !format!("{manifest:#?}").is_empty(),
        "write" => manifest.to_toml_string().is_ok(),
        _ => panic!("there is no step {step}"),
    }
}

fn main() {
    let words: Vec<String> = env::args().skip(1).collect();
    let [step, bytes] = words.as_slice() else { panic!("usage: stack STEP BYTES") };
    let (step, bytes) = (step.clone(), bytes.parse().expect("a number"));
    let cases = cases::read();
    let work = move || cases.iter().filter(|case| does(&step, &case.text)).count();
    let done = thread::Builder::new().stack_size(bytes).spawn(work).expect("a thread").join().expect("no panic");
    println!("{done}");
}
