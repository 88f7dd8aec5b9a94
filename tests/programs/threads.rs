//! Four threads with stacks of 2 MiB read all texts at once, each another one first; all have to read what the first thread
//! has read. Prints how many texts were read, and by how many threads each.

mod cases;

use cargo_manifest::Manifest;
use std::sync::Barrier;
use std::thread;

const THREADS: usize = 4;
const STACK: usize = 2 << 20;

/// What is read of a text.
fn read(text: &[u8]) -> Option<Manifest> {
    Manifest::from_slice(text).ok()
}

fn main() {
    let cases = cases::read();
    let wanted: Vec<Option<Manifest>> = cases.iter().map(|case| read(&case.text)).collect();
    let start = Barrier::new(THREADS);
    thread::scope(|scope| {
        for number in 0..THREADS {
            let (cases, wanted, start) = (&cases, &wanted, &start);
            let work = move || {
                start.wait();
                for place in 0..cases.len() {
                    let place = (place + number * cases.len() / THREADS) % cases.len();
                    assert!(
                        read(&cases[place].text) == wanted[place],
                        "text {place} is read otherwise by thread {number}"
                    );
                }
            };
            thread::Builder::new().stack_size(STACK).spawn_scoped(scope, work).expect("a thread");
        }
    });
    println!("{} of {} texts were read, by {THREADS} threads", wanted.iter().flatten().count(), cases.len());
}
