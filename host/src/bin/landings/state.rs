//! Base, units and pairs: what a program gives at an offset, or a version 1 word (document 01, "The state program" and
//! "Version 1 frames").
use crate::numbers::Numbers;

#[derive(Clone, PartialEq, Debug)]
pub struct State {
    /// The base is fp, otherwise sp.
    pub fp: bool,
    pub units: usize,
    /// Registers with their slots.
    pub pairs: Vec<(u16, u16)>,
}

impl State {
    pub fn entry(numbers: &Numbers) -> State {
        let pairs = if numbers.pushes { vec![(numbers.ra, 1)] } else { Vec::new() };
        State { fp: false, units: pairs.len(), pairs }
    }

    pub fn save(&mut self, reg: u16, slot: u16) {
        self.remove(reg);
        self.pairs.push((reg, slot));
    }

    /// The same, where a pair that is there keeps its place.
    pub fn put(&mut self, reg: u16, slot: u16) {
        match self.pairs.iter_mut().find(|(r, _)| *r == reg) {
            Some(pair) => pair.1 = slot,
            None => self.pairs.push((reg, slot)),
        }
    }

    pub fn restore(&mut self, numbers: &Numbers, reg: u16) {
        self.remove(reg);
        if numbers.pushes && reg == numbers.ra {
            self.pairs.push((reg, 1));
        }
    }

    fn remove(&mut self, reg: u16) {
        self.pairs.retain(|(r, _)| *r != reg);
    }

    pub fn saves(&self, reg: u16) -> bool {
        self.pairs.iter().any(|(r, _)| *r == reg)
    }

    /// The highest slot, 0 where there is none.
    pub fn depth(&self) -> usize {
        self.pairs.iter().map(|(_, slot)| *slot as usize).max().unwrap_or(0)
    }

    /// A frame can be made to have this state at a call, with no slot below sp.
    pub fn can_call(&self, numbers: &Numbers) -> bool {
        let base = if self.fp { self.saves(numbers.fp) } else { self.units > 0 && self.depth() <= self.units };
        let returns = if numbers.pushes { self.pairs.contains(&(numbers.ra, 1)) } else { self.saves(numbers.ra) };
        let known = |reg: u16| reg != numbers.sp && numbers.column(reg as usize).is_some();
        base && returns && self.units < 64 && self.depth() < 64 && self.pairs.iter().all(|(reg, _)| known(*reg))
    }
}

/// A version 1 word's state, if the word passes its rules for a frame that is interrupted, or is not.
pub fn of_word(numbers: &Numbers, word: u32, interrupted: bool) -> Option<State> {
    let (kind, reversed, mask, param) = (word & 3, word & 4 != 0, word >> 3 & 0x3ffff, (word >> 21) as usize);
    if mask >> numbers.saved.len() != 0 {
        return None;
    }
    let mut state = State::entry(numbers);
    match (kind, interrupted) {
        (0, true) if mask == 0 => state.units += 2 * param,
        (1, false) if param >= 3 || mask == 0 => {
            state = State { fp: true, units: 2, pairs: vec![(numbers.ra, 1), (numbers.fp, 2)] };
            state.pairs.extend(masked(numbers, mask, reversed, param));
        }
        (2, false) => {
            state = State { fp: false, units: 2 * param, pairs: vec![(numbers.ra, 1)] };
            state.pairs.extend(masked(numbers, mask, reversed, 2));
        }
        _ => return None,
    }
    Some(state)
}

/// The registers that a mask names, in slots from the first on.
fn masked(numbers: &Numbers, mask: u32, reversed: bool, first: usize) -> Vec<(u16, u16)> {
    let regs: Vec<u16> = (0..numbers.saved.len()).filter(|i| mask >> i & 1 == 1).map(|i| numbers.saved[i]).collect();
    let slot = |i: usize| first + if reversed { regs.len() - 1 - i } else { i };
    regs.iter().enumerate().map(|(i, reg)| (*reg, slot(i) as u16)).collect()
}
