//! The functions that a section describes, each with what its record means.
use crate::numbers::Numbers;
use crate::program::{self, Program};
use crate::random::Random;
use crate::rows::{self, Row, Shares};
use crate::state::{self, State};

pub enum Code {
    /// A version 1 frame word.
    Word(u32),
    /// Version 2, program 0: the entry state everywhere.
    Entry,
    Program(Program),
}

pub struct Function {
    pub start: usize,
    pub end: usize,
    pub code: Code,
    pub rows: Option<Vec<Row>>,
    /// The table is none that an open frame may have: it does not rise, or lies outside the section.
    pub damaged: bool,
    /// Offsets that are worth a call: edges of states, and calls with a row.
    pub places: Vec<usize>,
    /// Those of them that a frame can be made to call from.
    pub calls: Vec<usize>,
}

impl Function {
    /// A function that starts at 0.
    pub fn random(numbers: &'static Numbers, random: &mut Random, version: u8, shares: Shares) -> Function {
        let tabled = !random.once_in(5);
        let (code, length) = if version == 1 { word(numbers, random) } else { program(numbers, random, tabled) };
        let tabled = tabled && !matches!(code, Code::Entry);
        let rows = tabled.then(|| rows::random(random, length, shares));
        let damaged = version == 1 && tabled && random.once_in(30);
        let mut function = Function { start: 0, end: length, code, rows, damaged, places: Vec::new(), calls: Vec::new() };
        function.places = function.places(random);
        function.calls = function.places.iter().copied().filter(|off| function.can_call(numbers, *off)).collect();
        function
    }

    pub fn holds(&self, pc: usize) -> bool {
        self.start <= pc && pc < self.end
    }

    pub fn length(&self) -> usize {
        self.end - self.start
    }

    /// Base, units and pairs at a looked-up offset.
    pub fn state(&self, numbers: &Numbers, interrupted: bool, off: usize) -> Option<State> {
        match &self.code {
            Code::Word(word) => state::of_word(numbers, *word, interrupted),
            Code::Entry => Some(State::entry(numbers)),
            Code::Program(program) => program.at(off).cloned(),
        }
    }

    /// The row at a return offset.
    pub fn row(&self, ret: usize) -> Option<Row> {
        self.rows.as_ref()?.iter().find(|row| row.ret as usize == ret).copied()
    }

    /// A frame can be made to call from this offset.
    fn can_call(&self, numbers: &Numbers, off: usize) -> bool {
        !self.damaged && self.state(numbers, false, off).is_some_and(|state| state.can_call(numbers))
    }

    fn places(&self, random: &mut Random) -> Vec<usize> {
        let mut places: Vec<usize> = (0..3).map(|_| random.below(self.end.max(1))).collect();
        if let Code::Program(program) = &self.code {
            places.extend(program.states.iter().flat_map(|(from, _)| [*from, from.wrapping_sub(1)]));
        }
        for _ in 0..5 {
            places.extend(self.rows.iter().flatten().map(|row| row.ret as usize - 1));
        }
        places.retain(|off| *off < self.end);
        places
    }
}

/// A version 1 word, mostly one that passes its rules.
fn word(numbers: &Numbers, random: &mut Random) -> (Code, usize) {
    let regs = numbers.saved.len();
    let mask = (random.word() & random.word()) as u32 & ((1 << regs) - 1);
    let order = (random.below(2) as u32) << 2;
    let count = mask.count_ones() as usize;
    let word = match random.below(10) {
        0 | 1 => (random.below(8) as u32) << 21,
        2..=5 => 1 | order | mask << 3 | (3 + random.below(6) as u32) << 21,
        6..=8 => 2 | order | mask << 3 | (count.div_ceil(2) as u32 + 1 + random.below(6) as u32) << 21,
        _ => random.word() as u32,
    };
    (Code::Word(word), random.within(0, 90))
}

/// A version 2 program; what precedes a table reads to END.
fn program(numbers: &'static Numbers, random: &mut Random, tabled: bool) -> (Code, usize) {
    if random.once_in(12) {
        return (Code::Entry, random.within(0, 30));
    }
    let broken = !tabled && random.once_in(4);
    let program = program::random(numbers, random, broken);
    let length = program.extent + random.below(14);
    (Code::Program(program), length)
}
