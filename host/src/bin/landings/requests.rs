//! Walks, throws and sweep calls as requests for `probe`: those of the machine's throws, and such with another section, stack or
//! unwinding.
use morthwyga::{Memory, RawUnwinding, Regs};

use crate::broken;
use crate::faulty;
use crate::machine::{Frame, Machine, Throw};
use crate::numbers::{File, Numbers, PC};
use crate::random::Random;
use crate::rows::CATCH;
use crate::spoiled;
use crate::stack::hex;

/// The registers as the protocol has them.
pub fn list(numbers: &Numbers, file: &File) -> String {
    let columns = (0..PC).take(if numbers.pushes { 16 } else { PC }).chain([PC]);
    columns.map(|column| file[column].to_string()).collect::<Vec<_>>().join(",")
}

/// The ranges as the protocol has them.
pub fn ranges(memory: Memory) -> String {
    let Memory { section, section_base, stack, stack_base } = memory;
    format!("{section_base} {} {stack_base} {}", hex(section), hex(stack))
}

/// A walk, a throw with some calls, and two sweep calls in what the throw is lent, and in four variations of it.
pub fn print(machine: &Machine, throw: Throw, random: &mut Random) {
    let section = machine.section;
    let lent = Memory {
        section: &section.bytes,
        section_base: section.base,
        stack: &machine.stack,
        stack_base: machine.stack_base,
    };
    print_all(machine, throw, lent, random);
    let part = if random.once_in(4) { Memory { stack: &[], ..lent } } else { lent };
    print_all(machine, throw, broken::opening(part, random), random);
    if let Some(bytes) = spoiled_row(machine, throw, random) {
        print_all(machine, throw, Memory { section: &bytes, ..lent }, random);
    }
    if let Some(bytes) = faulty_program(machine, throw, random) {
        print_all(machine, throw, Memory { section: &bytes, ..lent }, random);
    }
    let (mut other_section, mut other_stack) = (section.bytes.clone(), machine.stack.clone());
    for _ in 0..random.within(1, 3) {
        change(if random.once_in(2) { &mut other_section } else { &mut other_stack }, random);
    }
    print_all(machine, throw, Memory { section: &other_section, stack: &other_stack, ..lent }, random);
}

/// A byte set, or the end cut off.
fn change(bytes: &mut Vec<u8>, random: &mut Random) {
    if bytes.is_empty() {
        return;
    }
    let at = random.below(bytes.len());
    match random.below(8) {
        0 => bytes.truncate(at),
        1..4 => bytes[at] ^= 1 << random.below(8),
        _ => bytes[at] = random.word() as u8,
    }
}

/// The section with the row of a frame changed, if it has one.
fn spoiled_row(machine: &Machine, throw: Throw, random: &mut Random) -> Option<Vec<u8>> {
    let frame = machine.frames(throw).nth(random.below(machine.open.len()))?;
    let function = &machine.section.functions[frame.open.function];
    let row = function.rows.as_ref()?.iter().position(|row| row.ret as usize == frame.file[PC] - function.start)?;
    let (bytes, _) = spoiled::section(machine.section, (frame.open.function, row), random)?;
    Some(bytes)
}

/// The section with a fault in the program or the rows of a frame, every other time the innermost, if it has a program.
fn faulty_program(machine: &Machine, throw: Throw, random: &mut Random) -> Option<Vec<u8>> {
    let number = if random.once_in(2) { 0 } else { random.below(machine.open.len()) };
    let frame = machine.frames(throw).nth(number)?;
    faulty::section(machine.section, frame.open.function, random)
}

fn print_all(machine: &Machine, throw: Throw, memory: Memory, random: &mut Random) {
    let (numbers, ranges) = (machine.numbers(), ranges(memory));
    let (interrupted, exception) = (throw.interrupted as u8, random.value());
    let mut file = machine.registers;
    file[PC] = throw.pc;
    println!("{ranges} walk {interrupted} {}", list(numbers, &file));
    println!("{ranges} unwind {exception} {interrupted} {} {}", random.below(5), list(numbers, &file));
    for _ in 0..2 {
        let u = unwinding(machine, throw, exception, random);
        println!(
            "{ranges} sweep {} {} {exception} {} {} {} {}",
            u.number,
            u.interrupted as u8,
            u.chosen_number,
            u.chosen_sp,
            u.chosen as u8,
            list(numbers, &u.regs.r)
        );
    }
}

/// The frame that the search chooses, if it is one of these from this number on; else any of them.
fn choice(machine: &Machine, frames: &[Frame], number: usize, random: &mut Random) -> usize {
    let catches = |k: &usize| {
        let function = &machine.section.functions[frames[*k].open.function];
        let row = function.row(frames[*k].file[PC] - function.start);
        !frames[*k].interrupted && row.is_some_and(|row| row.action == CATCH)
    };
    let any = random.within(number, frames.len() - 1);
    (number..frames.len()).find(catches).filter(|_| !random.once_in(4)).unwrap_or(any)
}

/// At one of the frames, with one of them chosen; sometimes another in some field.
fn unwinding(machine: &Machine, throw: Throw, exception: usize, random: &mut Random) -> RawUnwinding {
    let (numbers, frames) = (machine.numbers(), machine.frames(throw).collect::<Vec<_>>());
    let number = random.below(frames.len());
    let chosen_number = choice(machine, &frames, number, random);
    let mut u = RawUnwinding {
        regs: Regs { r: frames[number].file },
        number,
        interrupted: frames[number].interrupted,
        exception,
        chosen_number,
        chosen_sp: numbers.stack_pointer(&frames[chosen_number].file),
        chosen: !random.once_in(20),
    };
    match random.below(16) {
        0 => u.number = random.pick(&[0, 1, 1023, 1024, usize::MAX]),
        1 => u.interrupted = !u.interrupted,
        2 => u.chosen_sp = u.chosen_sp.wrapping_add(8),
        3 => u.chosen_number = random.pick(&[0, chosen_number + 1, usize::MAX]),
        4 => u.regs.r[random.below(41)] = random.value(),
        _ => {}
    }
    if numbers.pushes {
        u.regs.r[16..PC].fill(0);
    }
    u
}
