//! The timing of a case.
use std::hint::black_box;
use std::time::Instant;

/// How many inputs a case has. They are asked in turn; so many branches are hardly learned by a processor, as in a failed job, which
/// is unwound once.
pub const INPUTS: usize = 1 << 16;

/// How many of them a case is timed with once more, again and again, for a host that asks the same ever anew. A processor may
/// learn these.
const AGAIN: usize = 1 << 12;

/// How often each is timed; the least time counts.
const ROUNDS: usize = 400;

/// How long a round takes, about.
const NANOSECONDS: f64 = 5e5;

/// What the columns of a line are.
pub fn head() {
    println!("{:<46} {:^34}   {:^34}", "nanoseconds of a call", "many inputs", "few, again and again");
    println!("{:<46} {:>12}{:>14}{:>8}   {:>12}{:>14}{:>8}", "", "the Rust", "ours", "ratio", "the Rust", "ours", "ratio");
}

/// Checks that both answer every input alike, then prints the name and, for all inputs and for few of them again and again, the
/// nanoseconds of a call of the Rust and of ours, and the first divided by the second. Each is called with the number of an input.
/// Does nothing where the line is not wanted.
pub fn measure<R, O>(
    name: &str,
    rust: impl FnMut(usize) -> R,
    ours: impl FnMut(usize) -> O,
    same: impl Fn(&R, &O) -> bool,
) {
    measure_over(INPUTS, AGAIN, name, rust, ours, same);
}

/// The same over so many inputs, and so few of them; at least one call is timed at once.
pub fn measure_over<R, O>(
    inputs: usize,
    again: usize,
    name: &str,
    mut rust: impl FnMut(usize) -> R,
    mut ours: impl FnMut(usize) -> O,
    same: impl Fn(&R, &O) -> bool,
) {
    if !wanted(name) {
        return;
    }
    compare(inputs, name, &mut rust, &mut ours, same);
    let columns = [inputs, again].map(|inputs| {
        let (theirs, own) = least(&mut rust, &mut ours, inputs);
        column(theirs, own)
    });
    println!("{name:<46} {}", columns.join("   "));
}

/// Whether a line of this name is to be timed: not where the program was given a word that the name does not begin with.
pub fn wanted(name: &str) -> bool {
    std::env::args().nth(1).is_none_or(|word| name.starts_with(&word))
}

/// Checks that both answer every input alike.
pub fn compare<R, O>(
    inputs: usize,
    name: &str,
    rust: &mut impl FnMut(usize) -> R,
    ours: &mut impl FnMut(usize) -> O,
    same: impl Fn(&R, &O) -> bool,
) {
    for i in 0..inputs {
        assert!(same(&rust(i), &ours(i)), "{name}: the answers to input {i} differ");
    }
}

/// The nanoseconds of the Rust and of ours, and the first divided by the second.
pub fn column(theirs: f64, own: f64) -> String {
    format!("{theirs:9.1} ns {own:10.1} ns {:6.2}x", theirs / own)
}

/// The least nanoseconds of a call of each, over so many inputs.
fn least<R, O>(rust: &mut impl FnMut(usize) -> R, ours: &mut impl FnMut(usize) -> O, inputs: usize) -> (f64, f64) {
    let calls = 1.max((NANOSECONDS / round(ours, 0, inputs, inputs)) as usize);
    let rounds = (0..ROUNDS).map(|number| number * calls);
    rounds.fold((f64::MAX, f64::MAX), |(theirs, own), first| {
        (theirs.min(round(rust, first, calls, inputs)), own.min(round(ours, first, calls, inputs)))
    })
}

/// The nanoseconds of a call, over so many from the first on.
fn round<T>(call: &mut impl FnMut(usize) -> T, first: usize, calls: usize, inputs: usize) -> f64 {
    let start = Instant::now();
    for i in first..first + calls {
        black_box(&call(black_box(i % inputs)));
    }
    start.elapsed().as_nanos() as f64 / calls as f64
}

/// Numbers below a bound that look random, one for each input.
pub fn picks(bound: usize) -> impl Iterator<Item = usize> {
    let mut seed = 0x6d6f_7274_6877_7967u64;
    (0..INPUTS).map(move |_| {
        seed = seed.wrapping_mul(0x5851_f42d_4c95_7f2d).wrapping_add(1);
        (seed >> 33) as usize % bound
    })
}
