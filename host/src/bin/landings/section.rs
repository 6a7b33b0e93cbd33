//! Random sound sections (document 01, "Chunks and records"), each with the functions that its records describe.
use std::ops::Range;

use crate::function::{Code, Function};
use crate::numbers::Numbers;
use crate::random::Random;
use crate::rows::{self, Place, Shares};

pub struct Section {
    pub numbers: &'static Numbers,
    pub base: usize,
    pub bytes: Vec<u8>,
    /// In rising order of their addresses.
    pub functions: Vec<Function>,
    /// Where the rows of each function stand in the bytes.
    pub places: Vec<Vec<Place>>,
    /// Where the program of each function begins in the bytes, if it has one, and its chunk.
    pub programs: Vec<Option<usize>>,
    pub chunks: Vec<Range<usize>>,
}

/// A chunk: its version, and which functions it describes.
struct Chunk {
    version: u8,
    functions: Vec<usize>,
}

impl Section {
    /// A section for stacks of so many frames.
    pub fn random(numbers: &'static Numbers, random: &mut Random, frames: usize) -> Section {
        let base = base(numbers, random);
        let mut chunks = chunks(random);
        let shares = shares(random, frames);
        let mut functions = Vec::new();
        let mut at = code(random, base);
        let interleaved = random.once_in(2);
        let count = random.pick(&[1, 2, 4, 6, 10, 14, 20, 30, 40, 90]);
        for i in 0..count {
            let k = if interleaved { random.below(chunks.len()) } else { i * chunks.len() / count };
            let mut function = Function::random(numbers, random, chunks[k].version, shares);
            at += if random.once_in(2) { 0 } else { random.below(40) };
            function.start += at;
            function.end += at;
            at = function.end;
            chunks[k].functions.push(i);
            functions.push(function);
        }
        let (places, programs, ranges) = (vec![Vec::new(); count], vec![None; count], vec![0..0; count]);
        let mut section = Section { numbers, base, bytes: Vec::new(), functions, places, programs, chunks: ranges };
        section.write(random, &chunks);
        section
    }

    fn write(&mut self, random: &mut Random, chunks: &[Chunk]) {
        for chunk in chunks {
            self.bytes.extend([0, 0, 0, 0].repeat(random.below(4)));
            self.write_chunk(random, chunk);
        }
        let tail = random.below(16);
        self.bytes.extend((0..tail).map(|_| random.word() as u8));
    }

    fn write_chunk(&mut self, random: &mut Random, chunk: &Chunk) {
        let from = self.bytes.len();
        let stride = if chunk.version == 1 { 16 } else { 12 };
        let records = chunk.functions.len();
        self.bytes.extend([0x45, 0x4b, 0x55, 0x57, chunk.version, self.numbers.arch as u8, 1, 0]);
        self.bytes.extend((records as u32).to_le_bytes());
        self.bytes.resize(from + 16 + stride * records, 0);
        for (i, function) in chunk.functions.iter().enumerate() {
            let fields = self.write_function(random, chunk.version, from, *function);
            self.write_record(from + 16 + stride * i, *function, &fields);
        }
        let padding = self.bytes.len().wrapping_neg() % 4 + 4 * random.below(3);
        self.bytes.extend((0..padding).map(|_| 0xff));
        let size = (self.bytes.len() - from) as u32;
        self.bytes[from + 12..from + 16].copy_from_slice(&size.to_le_bytes());
        chunk.functions.iter().for_each(|function| self.chunks[*function] = from..self.bytes.len());
    }

    /// A record's start relative to its field, its length, and the fields of its version.
    fn write_record(&mut self, at: usize, function: usize, fields: &[u32]) {
        let Function { start, end, .. } = self.functions[function];
        let relative = start.wrapping_sub(self.base + at);
        assert_eq!(relative as i32 as usize, relative, "a start that a record can name");
        let words = [relative as u32, (end - start) as u32];
        for (i, word) in words.iter().chain(fields).enumerate() {
            self.bytes[at + 4 * i..at + 4 * i + 4].copy_from_slice(&word.to_le_bytes());
        }
    }

    /// Writes a function's program and rows, and gives the fields of its record.
    fn write_function(&mut self, random: &mut Random, version: u8, chunk: usize, function: usize) -> Vec<u32> {
        self.bytes.extend((0..random.below(3)).map(|_| 0xee));
        let at = (self.bytes.len() - chunk) as u32;
        let program = &mut self.programs[function];
        let (function, places) = (&self.functions[function], &mut self.places[function]);
        match &function.code {
            Code::Word(word) => {
                let Some(list) = &function.rows else {
                    return vec![*word, 0];
                };
                let mut list = list.clone();
                if function.damaged && list.len() < 2 {
                    return vec![*word, 0xffff_fff0];
                }
                if function.damaged {
                    list.reverse();
                }
                *places = rows::table(&list, &mut self.bytes);
                vec![*word, at]
            }
            Code::Entry => vec![0],
            Code::Program(code) => {
                *program = Some(self.bytes.len());
                self.bytes.extend(&code.bytes);
                let Some(list) = &function.rows else {
                    return vec![at];
                };
                *places = rows::table2(random, list, &mut self.bytes);
                assert_eq!(version, 2);
                vec![at | 1 << 31]
            }
        }
    }
}

/// 1 to 2^62; mostly such that the code is where a call may return to.
fn base(numbers: &Numbers, random: &mut Random) -> usize {
    match random.below(8) {
        0 => random.within(1, 0x2000),
        1 if numbers.pushes || random.once_in(4) => (1 << 62) - random.below(3),
        2 if numbers.pushes || random.once_in(4) => 1 + (random.word() >> 2),
        _ => 1 + (random.word() >> random.pick(&[17, 20, 32])),
    }
}

/// Where the code begins: 2^31 about the section at most. Below address 0 it lies at the end of the addresses.
fn code(random: &mut Random, base: usize) -> usize {
    let far = 0x7800_0000 >> random.below(16);
    let at = base.wrapping_add(random.below(2 * far)).wrapping_sub(far);
    if at > 0usize.wrapping_sub(0x40_0000) { at - 0x80_0000 } else { at.max(1) }
}

fn chunks(random: &mut Random) -> Vec<Chunk> {
    let count = random.pick(&[1, 2, 3, 6]);
    (0..count).map(|_| Chunk { version: 1 + random.below(2) as u8, functions: Vec::new() }).collect()
}

/// In some sections no row catches, so that a throw goes through every frame; for deep stacks few do.
fn shares(random: &mut Random, frames: usize) -> Shares {
    let catch = if frames > 90 { random.pick(&[0, 2, 5, 10, 50]) } else { random.pick(&[0, 50, 150, 300, 500, 700]) };
    Shares { catch, terminate: random.pick(&[0, 0, catch / 10, catch / 2]), refused: random.pick(&[0, 0, 0, 20]) }
}
