//! Resume calls that are not regular. Each hands back what it should, refused or not; what it answers is known of most.
use std::cmp::Ordering;

use morthwyga::{Memory, RawUnwinding};

use crate::broken;
use crate::check::{Check, Checked};
use crate::checked::{self, NONE};
use crate::expected::Landing;
use crate::figures::Figures;
use crate::random::Random;
use crate::spoiled::{self, Spoiled};

/// What a regular call would get, and the landing that it would give.
pub struct Calls<'a> {
    pub check: &'a Check<'a>,
    pub memory: Memory<'a>,
    pub given: RawUnwinding,
    pub due: Option<&'a Landing>,
}

/// A status and a reason.
type Answer = (u32, u32);

const FINISHED: Answer = (NONE, 0);
const LANDS: Answer = (0, 7);
const TERMINATES: Answer = (0, 2);
const MISSED: Answer = (22, 0);

impl Calls<'_> {
    /// Now and then such a call, or two.
    pub fn make(&self, random: &mut Random, figures: &mut Figures) -> Checked {
        while random.once_in(4) {
            self.one(random, figures)?;
        }
        Ok(())
    }

    fn one(&self, random: &mut Random, figures: &mut Figures) -> Checked {
        match random.below(9) {
            0 => broken::calls(self.check, self.memory, self.given, random, figures),
            1 | 2 => self.choice(random, figures),
            3 | 4 => self.row(random, figures),
            5 => self.no_stack(figures),
            6 => self.too_deep(random, figures),
            7 => self.other_unwinding(random, figures),
            _ => self.other_stack(random, figures),
        }
    }

    /// A call, which answers this if it is known.
    fn call(&self, memory: Memory, given: RawUnwinding, due: Option<Answer>, figures: &mut Figures) -> Checked {
        let arch = self.check.machine.numbers().arch as u8;
        let told = checked::resume(memory, arch, given).map_err(|wrong| wrong.0)?;
        *figures.irregular.entry(told.status).or_default() += 1;
        match due {
            Some(due) if due != (told.status, told.reason) => {
                let answer = (told.status, told.reason);
                Err(format!("an irregular call of {given:x?} answers {answer:?}, not {due:?}"))
            }
            _ => Ok(()),
        }
    }

    /// What a call answers with this frame chosen, which is not known past the chosen one. No frame before the landing that is due
    /// has a row.
    fn with_choice(&self, given: RawUnwinding) -> Option<Answer> {
        if !given.chosen || given.chosen_number < given.number {
            return Some(FINISHED);
        }
        let due = self.due?;
        let catches = due.number == self.given.chosen_number;
        let same_sp = given.chosen_sp == self.given.chosen_sp;
        Some(match given.chosen_number.cmp(&due.number) {
            Ordering::Equal if catches && same_sp => LANDS,
            Ordering::Greater if !catches => LANDS,
            _ => MISSED,
        })
    }

    /// Another frame is chosen, by its number or its sp.
    fn choice(&self, random: &mut Random, figures: &mut Figures) -> Checked {
        let mut given = self.given;
        match random.below(3) {
            0 => given.chosen_sp = given.chosen_sp.wrapping_add(random.pick(&[1, 8, usize::MAX, 1 << 63])),
            1 => given.chosen_number = random.within(given.number, given.chosen_number.max(given.number) + 2),
            _ => given.chosen_number = random.below(given.number + 1),
        }
        self.call(self.memory, given, self.with_choice(given), figures)
    }

    /// The row of the frame that is due is refused, or is another.
    fn row(&self, random: &mut Random, figures: &mut Figures) -> Checked {
        let Some(due) = self.due else { return Ok(()) };
        let machine = self.check.machine;
        let Some((bytes, spoiled)) = spoiled::section(machine.section, (due.function, due.row), random) else { return Ok(()) };
        let chosen = due.number == self.given.chosen_number;
        let answer = match spoiled {
            Spoiled::Refused(number) => (number, 0),
            Spoiled::Catch if chosen => LANDS,
            Spoiled::Cleanup if !chosen => LANDS,
            Spoiled::Terminate if !chosen => TERMINATES,
            Spoiled::Catch | Spoiled::Cleanup | Spoiled::Terminate => MISSED,
        };
        self.call(Memory { section: &bytes, ..self.memory }, self.given, Some(answer), figures)?;
        let Spoiled::Refused(number) = spoiled else { return Ok(()) };
        let told = self.check.raise(Memory { section: &bytes, ..self.check.memory() })?;
        figures.refused_throws += 1;
        if told.status == number { Ok(()) } else { Err(format!("a throw answers {}, not {number}", told.status)) }
    }

    /// Nothing is lent of the stack. On x86-64 the first frame's return address is missed.
    fn no_stack(&self, figures: &mut Figures) -> Checked {
        let pushes = self.check.machine.numbers().pushes;
        let due = if self.due.is_none() { Some(FINISHED) } else { pushes.then_some((27, 0)) };
        self.call(Memory { stack: &[], ..self.memory }, self.given, due, figures)
    }

    /// 1,024 frames were given before this one.
    fn too_deep(&self, random: &mut Random, figures: &mut Figures) -> Checked {
        let number = random.pick(&[1024, 1025, 1 << 32, usize::MAX]);
        let given = RawUnwinding { number, chosen_number: usize::MAX, ..self.given };
        let due = if !given.chosen { Some(FINISHED) } else { (given.regs.pc() > 0).then_some((29, 0)) };
        self.call(self.memory, given, due, figures)
    }

    /// Another file, number or interrupt.
    fn other_unwinding(&self, random: &mut Random, figures: &mut Figures) -> Checked {
        let mut given = self.given;
        match random.below(4) {
            0 => given.number += random.within(1, 3),
            1 => given.interrupted = !given.interrupted,
            _ => given.regs.r[random.below(41)] = random.value(),
        }
        self.call(self.memory, given, None, figures)
    }

    /// Half of the stack, or other bytes in it.
    fn other_stack(&self, random: &mut Random, figures: &mut Figures) -> Checked {
        let half = &self.memory.stack[..self.memory.stack.len() / 2];
        let other: Vec<u8> = self.memory.stack.iter().map(|byte| byte ^ 0x10).collect();
        let stack = if random.once_in(2) { half } else { &other };
        self.call(Memory { stack, ..self.memory }, self.given, None, figures)
    }
}
