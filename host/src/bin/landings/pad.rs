//! What landing pads leave of the stack between two resume calls: the slots that must be kept, and any bytes elsewhere.
use crate::driver::stack_base;
use crate::machine::Machine;
use crate::random::Random;
use crate::section::Section;
use crate::stack::Stack;

const HIGHEST_BASE: usize = 1 << 62;

/// Writes over the whole stack or some of it, at times with another base or length. The kept slots, which are given by their
/// addresses in rising order, then hold what they held at the throw.
pub fn write(stack: &mut Stack, machine: &Machine, kept: &[usize], random: &mut Random) {
    if random.once_in(3) {
        let (base, end) = bounds(stack, machine, kept, random);
        stack.resize(base, end, random);
    }
    if random.once_in(4) {
        write_some(stack, random);
    } else {
        random.fill(&mut stack.bytes);
    }
    for at in kept {
        stack.part(*at, at + 8).copy_from_slice(machine.slot(*at));
    }
}

/// A few writes of some bytes each.
fn write_some(stack: &mut Stack, random: &mut Random) {
    for _ in 0..random.below(6) {
        let from = random.within(stack.base, stack.end());
        let to = stack.end().min(from + random.below(80));
        random.fill(stack.part(from, to));
    }
}

/// A base and an end that the opening rule accepts, with the kept slots between them.
fn bounds(stack: &Stack, machine: &Machine, kept: &[usize], random: &mut Random) -> (usize, usize) {
    let (Some(lowest), Some(highest)) = (kept.first(), kept.last()) else {
        return anywhere(machine.section, random);
    };
    let (least, most) = room(stack, machine.section);
    let (last_base, first_end) = (HIGHEST_BASE.min(*lowest), highest + 8);
    let base = match random.below(4) {
        0 => machine.stack_base,
        1 => last_base,
        2 => random.within(stack.base, last_base),
        _ => least.max(stack.base.saturating_sub(random.below(200))),
    };
    let end = match random.below(4) {
        0 => machine.stack_base + machine.stack.len(),
        1 => first_end,
        2 => random.within(first_end, stack.end()),
        _ => most.min(stack.end() + random.below(200)),
    };
    (base, end)
}

/// The addresses between which a stack can grow and share none with the section.
fn room(stack: &Stack, section: &Section) -> (usize, usize) {
    let end = section.base + section.bytes.len();
    if end <= stack.base { (end, usize::MAX) } else { (1, section.base) }
}

/// Base and end of any short stack, or of an empty one, which may also stand at the section's base.
fn anywhere(section: &Section, random: &mut Random) -> (usize, usize) {
    if random.once_in(4) {
        return (section.base, section.base);
    }
    let length = random.pick(&[0, 7, 8, 300]);
    let base = stack_base(section, random, length);
    (base, base + length)
}
