//! State programs: random ones, written with what they mean.
use crate::numbers::Numbers;
use crate::random::Random;
use crate::state::State;

/// A program's bytes and what it gives: from each offset on, up to the next one, that state, or a refusal.
pub struct Program {
    pub bytes: Vec<u8>,
    pub states: Vec<(usize, Option<State>)>,
    /// The sum of its advances.
    pub extent: usize,
}

impl Program {
    pub fn at(&self, off: usize) -> Option<&State> {
        let (_, state) = self.states.iter().rev().find(|(from, _)| *from <= off).expect("the first is at 0");
        state.as_ref()
    }
}

/// A number in DWARF's encoding, at times with padding, in at most five bytes.
pub fn uleb(random: &mut Random, mut n: usize, bytes: &mut Vec<u8>) {
    let least = (1..=5).find(|length| n >> (7 * length) == 0).expect("a number of 32 bits");
    let length = if random.once_in(8) { random.within(least, 5) } else { least };
    for i in 1..=length {
        bytes.push((n & 0x7f) as u8 | if i < length { 0x80 } else { 0 });
        n >>= 7;
    }
}

/// Writes a program, and keeps the state that it has come to.
struct Writer<'a> {
    numbers: &'static Numbers,
    random: &'a mut Random,
    program: Program,
    state: State,
    remembered: Vec<State>,
}

/// A random program: steps as a compiler writes them, with odd ones between. A broken one is refused where END would stand.
pub fn random(numbers: &'static Numbers, random: &mut Random, broken: bool) -> Program {
    let program = Program { bytes: Vec::new(), states: Vec::new(), extent: 0 };
    let state = State::entry(numbers);
    let mut writer = Writer { numbers, random, program, state, remembered: Vec::new() };
    for _ in 0..writer.random.below(9) {
        writer.step();
        if !writer.random.once_in(3) {
            writer.advance();
        }
    }
    writer.finish(broken)
}

impl Writer<'_> {
    fn byte(&mut self, byte: u8) {
        self.program.bytes.push(byte);
    }

    fn number(&mut self, n: usize) {
        uleb(self.random, n, &mut self.program.bytes);
    }

    /// An operation with a number of up to 6 or 5 bits in its first byte, at times in its long form.
    fn coded(&mut self, short: u8, bound: usize, long: u8, n: usize) {
        if n < bound && !self.random.once_in(6) {
            self.byte(short + n as u8);
        } else {
            self.byte(long);
            self.number(n);
        }
    }

    fn finish(mut self, broken: bool) -> Program {
        if broken && self.remembered.is_empty() {
            let byte = self.random.pick(&[0xc8, 0xcb, 0xd0, 0xdf]);
            self.byte(byte);
            self.program.states.push((self.program.extent, None));
        } else {
            self.byte(0x00);
            self.close();
        }
        self.program
    }

    /// The state holds from here on.
    fn close(&mut self) {
        self.program.states.push((self.program.extent, Some(self.state.clone())));
    }

    fn advance(&mut self) {
        self.close();
        let most = self.random.pick(&[4, 4, 12, 12, 70, 400]);
        let n = self.random.below(most + 1);
        if n > 0 && n < 0x40 && !self.random.once_in(6) {
            self.byte(n as u8);
        } else {
            self.byte(0xc3);
            self.number(n);
        }
        self.program.extent += n * self.numbers.unit;
    }

    fn units(&mut self, units: usize) {
        self.coded(0x40, 0x40, 0xc2, units);
        self.state.units = units;
    }

    fn save(&mut self, reg: u16, slot: u16) {
        self.coded(0x80, 0x40, 0xc4, reg as usize);
        self.number(slot as usize);
        self.state.save(reg, slot);
    }

    fn restore(&mut self, reg: u16) {
        self.coded(0xe0, 0x20, 0xc5, reg as usize);
        self.state.restore(self.numbers, reg);
    }

    fn base(&mut self, fp: bool, units: usize) {
        self.byte(0xc0 + fp as u8);
        self.number(units);
        self.state.fp = fp;
        self.state.units = units;
    }

    /// c9: fp, 2 units, and the two saves.
    fn frame(&mut self) {
        self.byte(0xc9);
        self.state.fp = true;
        self.state.units = 2;
        self.frame_saves();
    }

    fn frame_saves(&mut self) {
        self.state.save(self.numbers.fp, 2);
        self.state.save(self.numbers.ra, 1);
    }

    fn step(&mut self) {
        match self.random.below(16) {
            0..=2 => self.frame(),
            3 | 4 => self.pair(),
            5..=8 => self.push(),
            9 | 10 => self.grow(),
            11 => self.restore_one(),
            12 if self.remembered.len() < 4 => {
                self.byte(0xc7);
                self.remembered.push(self.state.clone());
            }
            12 | 13 => self.recall(),
            14 => {
                self.byte(0xc6);
                self.state = State::entry(self.numbers);
            }
            _ => self.odd(),
        }
    }

    /// ca: the two saves; then room for them.
    fn pair(&mut self) {
        self.byte(0xca);
        self.frame_saves();
        if !self.state.fp {
            self.units(2.max(self.state.units));
        }
    }

    /// A preserved register into the next slot, or the return register where it is not saved yet.
    fn push(&mut self) {
        let slot = 1 + self.state.depth();
        let reg = if self.state.saves(self.numbers.ra) { self.random.pick(self.numbers.preserved) } else { self.numbers.ra };
        if self.state.saves(reg) || slot > 60 {
            return self.grow();
        }
        self.save(reg, slot as u16);
        if !self.state.fp {
            self.units(self.state.units.max(slot));
        }
    }

    fn grow(&mut self) {
        let more = self.random.below(6);
        if !self.state.fp && self.state.units < 60 {
            self.units(self.state.units + more);
        }
    }

    fn restore_one(&mut self) {
        let saved: Vec<u16> = self.state.pairs.iter().map(|(reg, _)| *reg).collect();
        if !saved.is_empty() {
            let reg = self.random.pick(&saved);
            self.restore(reg);
        }
    }

    fn recall(&mut self) {
        if let Some(state) = self.remembered.pop() {
            self.byte(0xc8);
            self.state = state;
        }
    }

    /// What a compiler would hardly write.
    fn odd(&mut self) {
        let slot = self.random.within(1, 40) as u16;
        let reg = self.random.below(32) as u16;
        let units = self.random.below(12);
        match self.random.below(12) {
            0 => self.base(false, units),
            1..=4 => self.base(true, units),
            5 => self.units((self.state.units + 1) * 0x1000_0000 % 0x1_0000_0000),
            6 => self.save(self.numbers.sp, slot),
            7 => self.save(200, slot),
            8 => self.save(reg, 65535),
            9 => self.restore(reg),
            10 => self.save(self.numbers.ra, slot),
            _ => self.save(reg, slot),
        }
    }
}
