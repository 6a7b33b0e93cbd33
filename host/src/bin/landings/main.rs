//! `landings [THROWS [SEED]]`: random throws of document 01's call machine, unwound by the library. The machine, written here a
//! second time from the paper, says what each throw and each resume call must answer (demand 3), also where landing pads have
//! written to the stack between the calls. `landings requests ARCH THROWS SEED` prints such throws, and others, as requests for `probe`.
mod broken;
mod check;
#[allow(dead_code)]
#[path = "../../checked.rs"]
mod checked;
mod driver;
mod expected;
mod faulty;
mod figures;
mod full;
mod function;
mod irregular;
mod machine;
mod numbers;
mod pad;
mod program;
mod random;
#[allow(dead_code)]
#[path = "../../raw.rs"]
mod raw;
mod requests;
mod rows;
mod section;
mod spoiled;
mod stack;
mod state;
mod sweep;

use std::process::ExitCode;

use check::Check;
use driver::Driver;
use expected::{Expected, expected, refused};
use figures::Figures;
use function::Code;
use machine::{Machine, Throw};
use morthwyga::{Raised, RawUnwinding, Record, Regs, State};
use numbers::{Numbers, PC};
use random::Random;
use section::Section;

fn main() -> ExitCode {
    let argument = |n, default| std::env::args().nth(n).map_or(Some(default), |word| word.parse().ok());
    if std::env::args().nth(1).as_deref() == Some("requests") {
        return match (argument(2, 0), argument(3, 0), argument(4, 0)) {
            (Some(1), Some(throws), Some(seed)) => print(&numbers::AARCH64, throws, seed),
            (Some(2), Some(throws), Some(seed)) => print(&numbers::X86_64, throws, seed),
            _ => usage(),
        };
    }
    let (Some(throws), Some(seed)) = (argument(1, 1000), argument(2, 0)) else {
        return usage();
    };
    for (name, numbers) in [("aarch64", &numbers::AARCH64), ("x86-64", &numbers::X86_64)] {
        let mut figures = Figures::default();
        let mut machine = 0;
        while figures.throws < throws {
            if let Err(difference) = run(numbers, (seed << 32) + machine, &mut figures) {
                println!("{name}, machine {machine} of seed {seed}: {difference}");
                return ExitCode::FAILURE;
            }
            machine += 1;
        }
        figures.print(name);
    }
    ExitCode::SUCCESS
}

fn usage() -> ExitCode {
    eprintln!("usage: landings [THROWS [SEED]], or landings requests ARCH THROWS SEED, where ARCH is 1 or 2");
    ExitCode::from(2)
}

/// So many throws as requests, one from each machine.
fn print(numbers: &'static Numbers, throws: usize, seed: usize) -> ExitCode {
    let (mut random, mut figures) = (Random::new((seed << 32) as u64), Figures::default());
    while figures.throws < throws {
        let frames = random.within(1, 12);
        let section = Section::random(numbers, &mut random, frames);
        let machine = driver::fresh(&section, &mut random, frames);
        let mut driver = Driver { machine, random: &mut random, figures: &mut figures };
        let called = (1..frames).all(|_| driver.call(false)) && driver.call(true);
        if let Some(throw) = driver.throw().filter(|_| called) {
            requests::print(&driver.machine, throw, driver.random);
            figures.throws += 1;
        }
    }
    ExitCode::SUCCESS
}

/// One machine, with throws on the way from its first frame to its last.
fn run(numbers: &'static Numbers, seed: usize, figures: &mut Figures) -> Result<(), String> {
    let mut random = Random::new(seed as u64);
    let frames = match random.below(100) {
        0..60 => random.within(1, 12),
        60..85 => random.within(1, 90),
        85..96 => random.within(1, 500),
        _ => 1024,
    };
    let section = Section::random(numbers, &mut random, frames);
    figures.machines += 1;
    let machine = driver::fresh(&section, &mut random, frames);
    let mut driver = Driver { machine, random: &mut random, figures };
    for _ in 0..frames {
        if !driver.call(false) {
            break;
        }
        let deep = driver.machine.open.len() == frames;
        if deep || driver.random.below(frames) < 10 {
            fork(&mut driver)?;
        }
    }
    Ok(())
}

/// A throw from a copy of the machine, or from one with another frame in it.
fn fork(driver: &mut Driver) -> Result<(), String> {
    let mut branch = Driver { machine: driver.machine.clone(), random: driver.random, figures: driver.figures };
    if branch.random.once_in(2) {
        branch.call(true);
    }
    match branch.throw() {
        Some(throw) => compare(&branch.machine, throw, branch.random, branch.figures),
        None => Ok(()),
    }
}

fn compare(machine: &Machine, throw: Throw, random: &mut Random, figures: &mut Figures) -> Result<(), String> {
    let Some(expected) = expected(machine, throw) else {
        figures.unsound += 1;
        return if refused(machine, throw) { refused_throw(machine, throw, random, figures) } else { Ok(()) };
    };
    let check = Check { machine, throw, expected: &expected, exception: random.value() };
    let checked = check.throw(random, figures);
    checked.map_err(|difference| format!("{difference}\n{}", check.request()))?;
    if random.once_in(4) {
        check.walk().map_err(|difference| format!("{difference}\n{}", check.request()))?;
        figures.walks += 1;
    }
    count(machine, throw, &expected, figures);
    Ok(())
}

/// A throw that meets a refused row.
fn refused_throw(machine: &Machine, throw: Throw, random: &mut Random, figures: &mut Figures) -> Result<(), String> {
    let none = Expected { answer: Raised::EndOfStack, landings: Vec::new() };
    let check = Check { machine, throw, expected: &none, exception: random.value() };
    figures.refused_throws += 1;
    match check.raise(check.memory())?.status {
        18 => Ok(()),
        status => Err(format!("the throw answers {status}, not 18\n{}", check.request())),
    }
}

fn count(machine: &Machine, throw: Throw, expected: &Expected, figures: &mut Figures) {
    figures.throws += 1;
    figures.interrupts += throw.interrupted as usize;
    figures.answers[check::code(&expected.answer)] += 1;
    figures.landings += expected.landings.len();
    figures.wrapped += expected.landings.iter().filter(|landing| landing.wraps).count();
    figures.most_landings = figures.most_landings.max(expected.landings.len());
    figures.depth(machine.open.len());
    for frame in machine.frames(throw) {
        let (numbers, function) = (machine.numbers(), &machine.section.functions[frame.open.function]);
        let at = frame.file[PC] - !frame.interrupted as usize;
        let state = function.state(numbers, frame.interrupted, at - function.start);
        figures.frames += 1;
        figures.version1 += matches!(function.code, Code::Word(_)) as usize;
        figures.on_fp += state.as_ref().is_some_and(|state| state.fp) as usize;
        figures.given_fp += state.is_some_and(|state| state.fp && !state.saves(numbers.fp)) as usize;
        figures.unsaved += !frame.open.spilled.iter().any(|(reg, _)| *reg == numbers.ra) as usize;
    }
}
