//! Calls whose opening or architecture is refused: every function that is lent something answers 28.
use morthwyga::{Memory, PC_COLUMN, RawUnwinding, Record, State};

use crate::check::{Check, Checked};
use crate::checked::{self, Told};
use crate::figures::Figures;
use crate::random::Random;

const HIGHEST_BASE: usize = 1 << 62;

pub fn calls(check: &Check, memory: Memory, given: RawUnwinding, random: &mut Random, figures: &mut Figures) -> Checked {
    let arch = check.machine.numbers().arch as u8;
    let (memory, arch) = if random.once_in(3) { (memory, unknown(random)) } else { (opening(memory, random), arch) };
    let statuses = resumes(memory, arch, given, check, random)
        .and_then(|first| Ok([first.to_vec(), readers(memory, arch, given, random)?].concat()))
        .map_err(|wrong| wrong.0)?;
    figures.broken += statuses.len();
    if statuses.iter().all(|status| *status == 28) {
        return Ok(());
    }
    let (section, stack) = (memory.section_base, memory.stack_base);
    Err(format!("architecture {arch}, section at {section:x}, stack at {stack:x}: {statuses:?}, not 28"))
}

fn unknown(random: &mut Random) -> u8 {
    random.pick(&[0, 3, 4, 127, 128, 255])
}

/// A base that there is not, or both slices at one address.
pub fn opening<'a>(mut memory: Memory<'a>, random: &mut Random) -> Memory<'a> {
    let base = random.pick(&[0, HIGHEST_BASE + 1, 1 << 63, usize::MAX]);
    let meet = !memory.stack.is_empty() && random.once_in(3);
    if meet {
        let (first, last) = (memory.section_base, memory.section_base + memory.section.len() - 1);
        let between = random.within(first, last);
        memory.stack_base = random.pick(&[first, between, last]).min(HIGHEST_BASE);
    } else if random.once_in(2) {
        memory.section_base = base;
    } else {
        memory.stack_base = base;
    }
    memory
}

/// The statuses of a walk, a throw and a sweep call.
fn resumes(memory: Memory, arch: u8, given: RawUnwinding, check: &Check, random: &mut Random) -> Told<[u32; 5]> {
    let (number, interrupted, regs) = (given.number, given.interrupted, given.regs);
    let finished = RawUnwinding { chosen: false, ..given };
    Ok([
        checked::next_frame(memory, arch, number, interrupted, regs)?.status,
        checked::walk(memory, arch, number, interrupted, regs)?.status,
        checked::raise(memory, arch, regs, random.value(), interrupted, check.exception)?.status,
        checked::resume(memory, arch, given)?.status,
        checked::resume(memory, arch, finished)?.status,
    ])
}

/// The statuses of the functions that read a table or a stack. Those without an architecture are asked where it is known.
fn readers(memory: Memory, arch: u8, given: RawUnwinding, random: &mut Random) -> Told<Vec<u32>> {
    let at = memory.section_base.wrapping_add(random.below(64));
    let limit = at.wrapping_add(random.below(64));
    let regs = given.regs;
    let record = Record {
        start: regs.r[PC_COLUMN].wrapping_sub(random.below(9)),
        end: random.value(),
        frame: random.word() as u32,
        handlers: random.pick(&[0, at]),
        program: at,
        limit,
        version: random.within(1, 2) as u8,
    };
    let state = State {
        cfa_fp: random.once_in(2),
        cfa_units: random.below(9) as u32,
        count: random.below(40),
        regs: std::array::from_fn(|_| random.below(90) as u16),
        slots: std::array::from_fn(|_| random.below(9) as u16),
    };
    let (first, cleanup) = (random.once_in(2), random.once_in(2));
    let mut statuses = vec![
        checked::lookup(memory, arch, regs.r[PC_COLUMN])?.status,
        checked::run(memory, arch, random.pick(&[0, at]), limit, random.below(9))?.status,
        checked::apply(memory, arch, state, regs)?.status,
        checked::step(memory, arch, record.frame, first, regs)?.status,
        checked::personality(memory, arch, cleanup, given.exception, given.interrupted, record, regs)?.status,
    ];
    if [1, 2].contains(&arch) {
        statuses.push(checked::read_uleb(memory, at, limit)?.status);
        statuses.push(checked::handler(memory, at, random.below(64) as u32)?.status);
        statuses.push(checked::handler2(memory, at, limit, random.below(64) as u32)?.status);
    }
    Ok(statuses)
}
