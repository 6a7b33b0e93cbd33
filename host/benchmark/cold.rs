//! The timing of single calls with nothing cached, as in a job that fails once.
use std::arch::global_asm;
use std::hint::black_box;
use std::time::Instant;

use crate::timing::{column, compare, wanted};

/// How many bytes are touched before each call, one in every line of the cache. Where the processor's last cache is larger, section
/// and stacks may still lie there.
const TOUCHED: usize = 96 << 20;
const LINE: usize = 64;

/// How many calls of each are timed; the median counts.
const CALLS: usize = 41;

global_asm!(include_str!("other_code.s"));

unsafe extern "C" {
    safe fn other_code();
}

/// What the columns of these lines are, where one of them may be wanted.
pub fn head() {
    if std::env::args().nth(1).is_none_or(|word| word.starts_with("cold") || "cold".starts_with(&word)) {
        println!("\n{:<46} {:^34}", "nanoseconds of a call", format!("nothing cached, median of {CALLS}"));
        println!("{:<46} {:>12}{:>14}{:>8}", "", "the Rust", "ours", "ratio");
    }
}

/// Checks that both answer every input alike, then prints the name, the nanoseconds of a call of the Rust and of ours, and the
/// first divided by the second. The two take turns, each with an input that neither was asked since the check.
pub fn measure<R, O>(
    inputs: usize,
    name: &str,
    mut rust: impl FnMut(usize) -> R,
    mut ours: impl FnMut(usize) -> O,
    same: impl Fn(&R, &O) -> bool,
) {
    if !wanted(name) {
        return;
    }
    compare(inputs, name, &mut rust, &mut ours, same);
    let mut memory = vec![0; TOUCHED];
    let (mut theirs, mut own) = ([0; CALLS], [0; CALLS]);
    for k in 0..CALLS {
        theirs[k] = once(&mut memory, 2 * k, &mut rust);
        own[k] = once(&mut memory, 2 * k + 1, &mut ours);
    }
    println!("{name:<46} {}", column(median(theirs), median(own)));
}

/// The nanoseconds of one call, after all this memory was read and written and other code has run.
fn once<T>(memory: &mut [u8], input: usize, call: &mut impl FnMut(usize) -> T) -> u128 {
    memory.iter_mut().step_by(LINE).for_each(|byte| *byte = byte.wrapping_add(1));
    black_box(memory);
    other_code();
    let start = Instant::now();
    black_box(&call(black_box(input)));
    start.elapsed().as_nanos()
}

fn median(mut times: [u128; CALLS]) -> f64 {
    times.sort();
    times[CALLS / 2] as f64
}
