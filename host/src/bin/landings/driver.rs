//! Chooses the events: what a compiled program would do, so that frames are described, and any others between.
use crate::figures::Figures;
use crate::machine::{Event, Machine, Throw};
use crate::numbers::{File, PC};
use crate::random::Random;
use crate::section::Section;
use crate::state::State;

pub struct Driver<'a, 'b> {
    pub machine: Machine<'a>,
    pub random: &'b mut Random,
    pub figures: &'b mut Figures,
}

/// A fresh machine with a stack for so many frames, about.
pub fn fresh<'a>(section: &'a Section, random: &mut Random, frames: usize) -> Machine<'a> {
    let length = if random.once_in(20) { random.below(64) } else { 200 + 300 * frames + random.below(64) };
    let stack_base = stack_base(section, random, length);
    let stack = random.bytes(length);
    let mut registers: File = [0; 41];
    registers.iter_mut().for_each(|value| *value = random.value());
    let top = stack_base + length - random.below(3) * 8;
    let odd = random.once_in(30);
    registers[section.numbers.sp as usize] = if odd { top } else { top & !7 };
    Machine::fresh(section, registers, stack_base, stack)
}

/// A base that shares no address with the section: close below or above it, or anywhere.
pub fn stack_base(section: &Section, random: &mut Random, length: usize) -> usize {
    let (first, end) = (section.base, section.base + section.bytes.len());
    loop {
        let base = match random.below(4) {
            0 => end + random.below(2) * 8,
            1 => first.wrapping_sub(length + random.below(2) * 8),
            _ => 1 + (random.word() >> random.pick(&[2, 17, 32])),
        };
        let apart = base >= end || base.checked_add(length).is_some_and(|top| top <= first);
        if (1..=1 << 62).contains(&base) && apart {
            return base;
        }
    }
}

impl<'a> Driver<'a, '_> {
    fn event(&mut self, event: Event) -> bool {
        let done = self.machine.step(event);
        if done { self.figures.events += 1 } else { self.figures.refused += 1 }
        done
    }

    /// A frame more, called from the innermost one, or the first. The last one before a throw may be one that cannot call.
    pub fn call(&mut self, last: bool) -> bool {
        (0..12).any(|_| {
            let function = self.callee(last);
            let ret = self.ready();
            if self.random.once_in(4) {
                self.set_fp_for(function);
            }
            self.event(Event::Call { function, ret })
        })
    }

    /// The caller's fp as a callee that has it as base and does not save it would want it.
    fn set_fp_for(&mut self, function: usize) {
        let (numbers, function) = (self.machine.numbers(), &self.machine.section.functions[function]);
        let mut states = function.places.iter().filter_map(|off| function.state(numbers, false, *off));
        if let Some(state) = states.find(|state| state.fp && !state.saves(numbers.fp)) {
            let value = numbers.stack_pointer(&self.machine.registers).wrapping_sub(8 * state.units);
            self.event(Event::Change { reg: numbers.fp as usize, value });
        }
    }

    fn callee(&mut self, last: bool) -> usize {
        let functions = &self.machine.section.functions;
        let any = self.random.below(functions.len());
        if let Some(frame) = self.machine.open.last().filter(|_| self.random.once_in(4)) {
            return frame.function;
        }
        let unsound = self.random.once_in(20);
        let fits = |i: &usize| if last { unsound || !functions[*i].damaged } else { !functions[*i].calls.is_empty() };
        (any..functions.len()).chain(0..any).find(fits).unwrap_or(any)
    }

    /// Makes the innermost frame one that can call, and gives the return address.
    fn ready(&mut self) -> usize {
        self.noise();
        let Some(frame) = self.machine.open.last() else {
            return if self.random.once_in(20) { self.random.value() } else { 0 };
        };
        let (function, own) = (&self.machine.section.functions[frame.function], frame.kept[PC]);
        let any = self.random.once_in(200);
        let mut off = match if any { &function.places } else { &function.calls } {
            offs if offs.is_empty() => self.random.below(function.length().max(1)),
            offs => self.random.pick(offs),
        };
        if self.random.once_in(8) && own > function.start && own <= function.end {
            off = own - 1 - function.start;
        }
        let (start, state) = (function.start, function.state(self.machine.numbers(), false, off));
        self.arrange(state);
        if self.random.once_in(30) { self.random.value() } else { start.wrapping_add(off).wrapping_add(1) }
    }

    /// A throw from the innermost frame that is within the rules, if one is found.
    pub fn throw(&mut self) -> Option<Throw> {
        for _ in 0..8 {
            self.noise();
            let frame = self.machine.open.last()?;
            let function = &self.machine.section.functions[frame.function];
            let interrupted = self.random.once_in(3);
            let off = match &function.places {
                places if !places.is_empty() && !self.random.once_in(4) => self.random.pick(places),
                _ => self.random.below(function.length().max(1)),
            };
            let (start, state) = (function.start, function.state(self.machine.numbers(), interrupted, off));
            self.arrange(state);
            let throw = Throw { pc: start.wrapping_add(off).wrapping_add(!interrupted as usize), interrupted };
            if self.machine.allows(throw) {
                return Some(throw);
            }
            self.figures.refused += 1;
        }
        None
    }

    /// What a compiler does so that a state is true of the innermost frame.
    fn arrange(&mut self, state: Option<State>) {
        let (Some(state), Some(frame)) = (state, self.machine.open.last()) else {
            return;
        };
        let (numbers, cfa, kept, spilled) = (self.machine.numbers(), frame.cfa, frame.kept, frame.spilled.clone());
        for (reg, _) in spilled.iter().filter(|pair| !state.pairs.contains(pair)) {
            self.event(Event::Reload { reg: *reg as usize });
        }
        for (reg, slot) in state.pairs.iter().filter(|pair| !spilled.contains(pair)) {
            let (reg, slot) = (*reg as usize, *slot as usize);
            if let Some(column) = numbers.column(reg).filter(|column| self.machine.registers[*column] != kept[*column]) {
                self.event(Event::Change { reg, value: kept[column] });
            }
            self.event(Event::Spill { reg, slot });
        }
        let base = cfa.wrapping_sub(8 * state.units);
        let below = state.depth().max(1) + self.random.below(4);
        if state.fp {
            self.event(Event::Change { reg: numbers.fp as usize, value: base });
        }
        self.event(Event::Move { sp: if state.fp { cfa.wrapping_sub(8 * below) } else { base } });
        self.disturb(state.fp);
    }

    /// Changes and writes that leave a frame described, and others that are against the rules.
    fn disturb(&mut self, fp: bool) {
        let numbers = self.machine.numbers();
        for _ in 0..self.random.below(4) {
            let reg = self.random.below(33);
            if reg == numbers.fp as usize && fp {
                continue;
            }
            let value = self.random.value();
            self.event(Event::Change { reg, value });
            self.write();
        }
    }

    /// A write near a live slot, or anywhere in the stack.
    fn write(&mut self) {
        let (base, length) = (self.machine.stack_base, self.machine.stack.len());
        let sp = self.machine.numbers().stack_pointer(&self.machine.registers);
        let near = sp.wrapping_add(self.random.below(48)).wrapping_sub(24);
        let at = if self.random.once_in(2) { near } else { base.wrapping_add(self.random.below(length + 16)).wrapping_sub(8) };
        let value = self.random.value();
        self.event(Event::Write { at, value });
    }

    /// Any events; seldom a spill of 16, which never ends.
    fn noise(&mut self) {
        for _ in 0..self.random.below(5) {
            let cfa = self.machine.open.last().map_or(0, |frame| frame.cfa);
            let reg = self.random.pick(&[16, 31, 7, 6, 29, 30, 3, 19, 75]) + self.random.below(3);
            let slot = self.random.within(0, 20);
            let lasting = reg == 16 && !self.random.once_in(500);
            let event = match self.random.below(7) {
                0 if !lasting => Event::Spill { reg, slot },
                1 => Event::Spill { reg, slot: self.random.pick(&[0, 65535, 65536, usize::MAX]) },
                2 => Event::Change { reg, value: self.random.value() },
                3 => Event::Reload { reg },
                4 => Event::Move { sp: cfa.wrapping_add(16).wrapping_sub(8 * slot) },
                5 => Event::Call { function: self.random.below(100), ret: self.random.value() },
                _ => return self.write(),
            };
            self.event(event);
        }
    }
}
