//! What the two programs in Rust share that `scripts/measure/speed` builds: the lines that they answer, as
//! `timing/__init__.py` has them.
use std::fs;
use std::hint::black_box;

/// The line of a step, of its times in nanoseconds and what it answered.
pub fn print_times(step: &str, times: &mut [f64], answer: usize) {
    times.sort_by(f64::total_cmp);
    println!("{step} {:.1} {:.1} {answer}", times[0], times[times.len() / 2]);
}

/// Calls a step so often, whose answer is 0 where it is refused, and prints the peak of this process's memory. None where it is
/// refused.
pub fn once(calls: u32, step: impl Fn() -> usize) -> Option<()> {
    for _ in 0..calls {
        (black_box(step()) > 0).then_some(())?;
    }
    println!("peak {}", peak()?);
    Some(())
}

/// The most memory that this process has had, in kB, as Linux says.
fn peak() -> Option<u64> {
    let status = fs::read_to_string("/proc/self/status").ok()?;
    let line = status.lines().find_map(|line| line.strip_prefix("VmHWM:"))?;
    line.trim().strip_suffix(" kB")?.parse().ok()
}
