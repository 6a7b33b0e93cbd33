//! The resume calls after a throw, against what the machine expects: over the throw's stack, or over one that landing pads
//! have written to.
use morthwyga::{Memory, PC_COLUMN, Raised, RawUnwinding, Resumed, Unwinding};

use crate::check::{Check, Checked, agree};
use crate::expected::Landing;
use crate::figures::Figures;
use crate::irregular::Calls;
use crate::pad;
use crate::random::Random;
use crate::stack::Stack;

pub struct Sweep<'a> {
    check: &'a Check<'a>,
    unwinding: RawUnwinding,
    /// The number of the frame that comes next.
    next: usize,
    /// What the next call is lent.
    stack: Stack,
    /// Landing pads write to it between the calls.
    written: bool,
}

impl<'a> Sweep<'a> {
    pub fn new(check: &'a Check, unwinding: RawUnwinding, written: bool) -> Sweep<'a> {
        Sweep { check, unwinding, next: 0, stack: Stack::of(check.machine), written }
    }

    /// Every call up to the third finished, and irregular ones between.
    pub fn run(mut self, random: &mut Random, figures: &mut Figures) -> Checked {
        self.calls(random, figures).map_err(|difference| format!("{difference}\nthe call is lent the stack {}", self.stack))
    }

    fn calls(&mut self, random: &mut Random, figures: &mut Figures) -> Checked {
        for landing in &self.check.expected.landings {
            self.before(Some(landing), random, figures)?;
            self.landing(landing)?;
            figures.overwritten_landings += self.is_overwritten() as usize;
            figures.resized_landings += self.is_resized() as usize;
        }
        for _ in 0..3 {
            self.before(None, random, figures)?;
            self.finished()?;
            figures.finished += 1;
        }
        Ok(())
    }

    /// What comes before a call, for which this landing is due.
    fn before(&mut self, due: Option<&Landing>, random: &mut Random, figures: &mut Figures) -> Checked {
        if self.written {
            let kept = self.needed();
            pad::write(&mut self.stack, self.check.machine, &kept, random);
        }
        figures.overwritten += self.is_overwritten() as usize;
        Calls { check: self.check, memory: self.memory(), given: self.unwinding, due }.make(random, figures)
    }

    /// The live slots that must be kept: those of the frames not yet passed, up to the chosen one.
    fn needed(&self) -> Vec<usize> {
        match self.check.expected.answer {
            Raised::Chosen { number, .. } => self.check.machine.live_slots(self.next..=number),
            Raised::Terminated | Raised::EndOfStack => Vec::new(),
        }
    }

    fn memory(&self) -> Memory<'_> {
        Memory { stack: &self.stack.bytes, stack_base: self.stack.base, ..self.check.memory() }
    }

    fn is_resized(&self) -> bool {
        let machine = self.check.machine;
        (self.stack.base, self.stack.bytes.len()) != (machine.stack_base, machine.stack.len())
    }

    fn is_overwritten(&self) -> bool {
        self.is_resized() || self.stack.bytes != self.check.machine.stack
    }

    /// A call that gives the next landing.
    fn landing(&mut self, landing: &Landing) -> Checked {
        let numbers = self.check.machine.numbers();
        let (answer, next) = self.memory().resume(numbers.arch, Unwinding::from_raw(self.unwinding));
        let Ok(Resumed::Landing { number, regs }) = answer else {
            return Err(format!("no landing of frame {}: {answer:?}", landing.number));
        };
        let told = (number, regs.r[PC_COLUMN], regs.r[0], regs.r[1], next.raw().number);
        let due = (landing.number, landing.pc, self.check.exception, 0, landing.number + 1);
        if told != due || !agree(numbers, &regs, &landing.file) {
            return Err(format!("landing {told:x?} with {regs:x?}, not {due:x?} with {:x?}", landing.file));
        }
        (self.unwinding, self.next) = (next.raw(), landing.number + 1);
        Ok(())
    }

    /// A call when no landing is due.
    fn finished(&self) -> Checked {
        let (answer, next) = self.memory().resume(self.check.machine.numbers().arch, Unwinding::from_raw(self.unwinding));
        if (answer, next.raw()) != (Ok(Resumed::Finished), self.unwinding) {
            return Err(format!("not finished with the unwinding as it was: {answer:?} with {next:x?}"));
        }
        Ok(())
    }
}
