//! A throw by the library with its resume calls, and its walk, against what the machine expects.
use morthwyga::{Frame, Memory, PC_COLUMN, Raised, Regs};

use crate::checked::{self, ANSWERED, NONE};
use crate::expected::Expected;
use crate::figures::Figures;
use crate::full;
use crate::machine::{Machine, Throw};
use crate::numbers::{File, Numbers, PC};
use crate::random::Random;
use crate::raw;
use crate::requests;
use crate::sweep::Sweep;

/// What is not as expected.
pub type Checked = Result<(), String>;

pub struct Check<'a> {
    pub machine: &'a Machine<'a>,
    pub throw: Throw,
    pub expected: &'a Expected,
    pub exception: usize,
}

/// That two files agree on sp and the preserved registers.
pub fn agree(numbers: &Numbers, ours: &Regs, file: &File) -> bool {
    let same = |reg: &u16| numbers.value(&ours.r, *reg) == numbers.value(file, *reg);
    same(&numbers.sp) && numbers.preserved.iter().all(same)
}

impl Check<'_> {
    /// What the throw is lent.
    pub fn memory(&self) -> Memory<'_> {
        let (section, machine) = (self.machine.section, self.machine);
        Memory { section: &section.bytes, section_base: section.base, stack: &machine.stack, stack_base: machine.stack_base }
    }

    /// The throw and all its resume calls as a request to `probe`.
    pub fn request(&self) -> String {
        let mut file = self.machine.registers;
        file[PC] = self.throw.pc;
        let (interrupted, calls) = (self.throw.interrupted as u8, self.expected.landings.len() + 1);
        let (ranges, list) = (requests::ranges(self.memory()), requests::list(self.machine.numbers(), &file));
        format!("{ranges} unwind {} {interrupted} {calls} {list}", self.exception)
    }

    /// The throw, and the resume calls after it; after two of three throws landing pads write to the stack.
    pub fn throw(&self, random: &mut Random, figures: &mut Figures) -> Checked {
        let (arch, regs) = (self.machine.numbers().arch, Regs { r: self.machine.registers });
        let (answer, unwinding) = self.memory().raise(arch, regs, self.throw.pc, self.throw.interrupted, self.exception);
        if answer != Ok(self.expected.answer) {
            return Err(format!("the throw answers {answer:?}, not {:?}", self.expected.answer));
        }
        if random.once_in(4) {
            full::state(self.machine.numbers(), random, figures)?;
        }
        let written = !random.once_in(3);
        Sweep::new(self, unwinding.raw(), written).run(random, figures)
    }

    /// The throw in what is lent here; what it hands back is compared.
    pub fn raise(&self, memory: Memory) -> Result<raw::Raised, String> {
        let (arch, regs) = (self.machine.numbers().arch as u8, Regs { r: self.machine.registers });
        checked::raise(memory, arch, regs, self.throw.pc, self.throw.interrupted, self.exception).map_err(|wrong| wrong.0)
    }

    /// The walk gives every open frame, and ends.
    pub fn walk(&self) -> Checked {
        let (memory, numbers) = (self.memory(), self.machine.numbers());
        let mut regs = Regs { r: self.machine.registers };
        regs.r[PC_COLUMN] = self.throw.pc;
        let mut frame = Frame { number: 0, interrupted: self.throw.interrupted, regs };
        for due in self.machine.frames(self.throw) {
            let same = frame.regs.r[PC_COLUMN] == due.file[PC] && agree(numbers, &frame.regs, &due.file);
            if !same || frame.interrupted != due.interrupted {
                return Err(format!("the walk gives {frame:x?}, not {:x?}", due.file));
            }
            let Ok(Some((record, caller))) = memory.next_frame(numbers.arch, frame) else {
                return Err(format!("the walk stops at {frame:x?}"));
            };
            let function = &self.machine.section.functions[due.open.function];
            if (record.start, record.end, caller.number) != (function.start, function.end, frame.number + 1) {
                return Err(format!("the walk gives {record:x?} for the frame at {:x}", function.start));
            }
            frame = caller;
        }
        match memory.next_frame(numbers.arch, frame) {
            Ok(None) => self.batches(frame.number),
            other => Err(format!("the walk goes on: {other:x?}")),
        }
    }

    /// The walk by its calls gives so many frames; each call is compared with single steps.
    fn batches(&self, frames: usize) -> Checked {
        let (memory, arch) = (self.memory(), self.machine.numbers().arch as u8);
        let mut regs = Regs { r: self.machine.registers };
        regs.r[PC_COLUMN] = self.throw.pc;
        let (mut at, mut given) = ((0, self.throw.interrupted, regs), 0);
        loop {
            let told = checked::walk(memory, arch, at.0, at.1, at.2).map_err(|wrong| wrong.0)?;
            given += told.frames.count;
            match told.status {
                ANSWERED => at = (told.number, told.interrupted, told.regs),
                NONE if given == frames => return Ok(()),
                status => return Err(format!("the walk gives {given} frames and status {status}, not {frames} and 1")),
            }
        }
    }
}

/// The number that a throw's answer has in document 01.
pub fn code(answer: &Raised) -> usize {
    match answer {
        Raised::Chosen { .. } => 6,
        Raised::Terminated => 3,
        Raised::EndOfStack => 5,
    }
}
