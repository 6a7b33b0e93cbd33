//! Document 01's call machine, written from the paper.
use std::collections::BTreeSet;
use std::ops::RangeInclusive;

use crate::numbers::{File, Numbers, PC};
use crate::section::Section;
use crate::state::State;

const MOST_FRAMES: usize = 1024;

#[derive(Clone)]
pub struct Open {
    /// Its record, by the function that it describes.
    pub function: usize,
    pub kept: File,
    pub cfa: usize,
    pub spilled: Vec<(u16, u16)>,
}

#[derive(Clone)]
pub struct Machine<'a> {
    pub section: &'a Section,
    pub registers: File,
    pub stack_base: usize,
    pub stack: Vec<u8>,
    /// The open frames, the outermost first.
    pub open: Vec<Open>,
    /// The addresses of the live slots.
    live: BTreeSet<usize>,
}

#[derive(Clone, Copy, Debug)]
pub enum Event {
    Call { function: usize, ret: usize },
    Spill { reg: usize, slot: usize },
    Change { reg: usize, value: usize },
    Reload { reg: usize },
    Move { sp: usize },
    Write { at: usize, value: usize },
}

/// The last event: a Throw, or an Interrupt.
#[derive(Clone, Copy, Debug)]
pub struct Throw {
    pub pc: usize,
    pub interrupted: bool,
}

/// A frame at a throw: its place among the open ones, and its registers at its call.
pub struct Frame<'a> {
    pub open: &'a Open,
    pub file: File,
    pub interrupted: bool,
}

impl Open {
    fn is_spilled(&self, reg: usize) -> bool {
        self.spilled.iter().any(|(r, _)| *r as usize == reg)
    }

    /// The addresses of its live slots.
    fn live_slots(&self) -> impl Iterator<Item = usize> {
        self.spilled.iter().map(|(_, slot)| self.cfa - 8 * *slot as usize)
    }
}

impl<'a> Machine<'a> {
    pub fn fresh(section: &'a Section, registers: File, stack_base: usize, stack: Vec<u8>) -> Machine<'a> {
        Machine { section, registers, stack_base, stack, open: Vec::new(), live: BTreeSet::new() }
    }

    pub fn numbers(&self) -> &'static Numbers {
        self.section.numbers
    }

    /// An event. False: it is against the rules, and the machine is as it was.
    pub fn step(&mut self, event: Event) -> bool {
        let done = match event {
            Event::Call { function, ret } => self.call(function, ret),
            Event::Spill { reg, slot } => self.spill(reg, slot),
            Event::Change { reg, value } => self.change(reg, value),
            Event::Reload { reg } => self.reload(reg),
            Event::Move { sp } => self.move_sp(sp),
            Event::Write { at, value } => self.is_free(at).then(|| self.put(at, value)),
        };
        done.is_some()
    }

    fn call(&mut self, function: usize, ret: usize) -> Option<()> {
        let numbers = self.numbers();
        self.section.functions.get(function)?;
        let cfa = numbers.stack_pointer(&self.registers);
        let fits = ret.checked_shr(numbers.address_bits).unwrap_or(0) == 0;
        if cfa == 0 || !fits || self.open.len() == MOST_FRAMES {
            return None;
        }
        let mut registers = self.registers;
        if numbers.pushes {
            registers[numbers.sp as usize] = cfa.wrapping_sub(8);
        } else {
            registers[numbers.ra as usize] = ret;
        }
        let mut kept = registers;
        kept[numbers.sp as usize] = cfa;
        kept[PC] = ret;
        let allowed = match self.open.last() {
            None => ret == 0,
            Some(caller) => ret > 0 && self.leaves(caller, &kept, ret - 1),
        };
        if !allowed {
            return None;
        }
        let mut spilled = Vec::new();
        if numbers.pushes {
            let at = self.free_slot(cfa, 1)?;
            self.put(at, ret);
            self.live.insert(at);
            spilled.push((numbers.ra, 1));
        }
        self.registers = registers;
        self.open.push(Open { function, kept, cfa, spilled });
        Some(())
    }

    /// A caller at its call: the address lies in its record, it is described, and its sp is below its own CFA.
    fn leaves(&self, caller: &Open, file: &File, at: usize) -> bool {
        self.describes(caller, file, false, at) && self.numbers().stack_pointer(file) < caller.cfa
    }

    fn spill(&mut self, reg: usize, slot: usize) -> Option<()> {
        let (numbers, frame) = (self.numbers(), self.open.last()?);
        let column = numbers.column(reg)?;
        let value = self.registers[column];
        if value != frame.kept[column] || reg == numbers.sp as usize || frame.is_spilled(reg) {
            return None;
        }
        let at = self.free_slot(frame.cfa, slot)?;
        self.put(at, value);
        self.live.insert(at);
        self.open.last_mut()?.spilled.push((reg as u16, slot as u16));
        Some(())
    }

    fn change(&mut self, reg: usize, value: usize) -> Option<()> {
        let (numbers, frame) = (self.numbers(), self.open.last()?);
        let column = numbers.column(reg)?;
        let preserved = numbers.preserved.contains(&(reg as u16));
        if reg == numbers.sp as usize || column == PC || preserved && !frame.is_spilled(reg) {
            return None;
        }
        self.registers[column] = value;
        Some(())
    }

    fn reload(&mut self, reg: usize) -> Option<()> {
        let (numbers, frame) = (self.numbers(), self.open.last()?);
        let column = numbers.column(reg)?;
        let i = frame.spilled.iter().position(|(r, _)| *r as usize == reg)?;
        if reg == 16 {
            return None;
        }
        let (kept, cfa) = (frame.kept[column], frame.cfa);
        let (_, slot) = self.open.last_mut()?.spilled.swap_remove(i);
        self.live.remove(&(cfa - 8 * slot as usize));
        self.registers[column] = kept;
        Some(())
    }

    fn move_sp(&mut self, sp: usize) -> Option<()> {
        let allowed = sp <= self.open.last()?.cfa;
        allowed.then(|| self.registers[self.numbers().sp as usize] = sp)
    }

    /// The address of a slot below a CFA, if it is one that lies in the stack and meets no live slot.
    fn free_slot(&self, cfa: usize, slot: usize) -> Option<usize> {
        let at = (1..=65535).contains(&slot).then(|| cfa.checked_sub(8 * slot)).flatten()?;
        self.is_free(at).then_some(at)
    }

    /// The 8 bytes at an address lie in the stack and meet no live slot.
    pub fn is_free(&self, at: usize) -> bool {
        let end = self.stack_base + self.stack.len();
        let inside = self.stack_base <= at && end - self.stack_base >= 8 && at <= end - 8;
        inside && self.live.range(at.saturating_sub(7)..=at + 7).next().is_none()
    }

    /// The addresses of the live slots of the frames with these numbers, in rising order.
    pub fn live_slots(&self, numbers: RangeInclusive<usize>) -> Vec<usize> {
        let frames = self.open.iter().rev().enumerate().filter(|(number, _)| numbers.contains(number));
        let mut slots: Vec<usize> = frames.flat_map(|(_, frame)| frame.live_slots()).collect();
        slots.sort_unstable();
        slots
    }

    /// The 8 bytes of a live slot.
    pub fn slot(&self, at: usize) -> &[u8] {
        let from = at - self.stack_base;
        &self.stack[from..from + 8]
    }

    fn put(&mut self, at: usize, value: usize) {
        let from = at - self.stack_base;
        self.stack[from..from + 8].copy_from_slice(&value.to_le_bytes());
    }

    /// The looked-up address lies in the frame's record, and the frame with these registers is described there.
    fn describes(&self, frame: &Open, file: &File, interrupted: bool, at: usize) -> bool {
        let function = &self.section.functions[frame.function];
        if !function.holds(at) {
            return false;
        }
        let state = function.state(self.numbers(), interrupted, at - function.start);
        state.is_some_and(|state| self.fits(frame, file, &state))
    }

    fn fits(&self, frame: &Open, file: &File, state: &State) -> bool {
        let numbers = self.numbers();
        let base = numbers.value(file, if state.fp { numbers.fp } else { numbers.sp });
        let same = state.pairs.len() == frame.spilled.len() && state.pairs.iter().all(|pair| frame.spilled.contains(pair));
        let kept = |reg: u16| numbers.value(file, reg) == numbers.value(&frame.kept, reg);
        base.wrapping_add(8 * state.units) == frame.cfa
            && same
            && (!state.fp || base > 0 && base % 8 == 0)
            && numbers.preserved.iter().all(|reg| frame.is_spilled(*reg as usize) || kept(*reg))
    }

    /// The throw is within the rules.
    pub fn allows(&self, throw: Throw) -> bool {
        let Some(frame) = self.open.last() else {
            return false;
        };
        throw.pc > 0 && {
            let at = if throw.interrupted { throw.pc } else { throw.pc - 1 };
            self.describes(frame, &self.thrown(throw), throw.interrupted, at)
        }
    }

    fn thrown(&self, throw: Throw) -> File {
        let mut file = self.registers;
        file[PC] = throw.pc;
        file
    }

    /// The frames at a throw, from 0, the innermost, on: each with its registers at its call, which for all but the first are
    /// the kept file of the call that it made.
    pub fn frames(&self, throw: Throw) -> impl Iterator<Item = Frame<'_>> {
        let calls = self.open.iter().rev().map(|callee| callee.kept);
        let files = std::iter::once(self.thrown(throw)).chain(calls);
        let frames = self.open.iter().rev().zip(files).enumerate();
        frames.map(move |(i, (open, file))| Frame { open, file, interrupted: throw.interrupted && i == 0 })
    }
}
