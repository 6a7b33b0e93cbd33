//! EKO sections (document 01, "Chunks and records", "Rows and reasons").
use morthwyga::{Action, Arch};

/// Where the samples have their section, their code and their stack.
pub const SECTION: usize = 0x40_0000;
pub const CODE: usize = 0x40_1000;
pub const STACK: usize = 0x7ffd_0000_1000;

/// Every function is so long, its call returns to this offset, and its row has this pad.
pub const SIZE: usize = 0x40;
pub const RETURN: usize = 0x14;
pub const PAD: usize = 0x30;

/// A row: a return offset, a pad, an action.
pub type Row = (usize, usize, Action);

/// The row of a function's call.
pub const CATCHES: &[Row] = &[(RETURN, PAD, Action::Catch)];
pub const CLEANS: &[Row] = &[(RETURN, PAD, Action::Cleanup)];
pub const TERMINATES: &[Row] = &[(RETURN, 0, Action::Terminate)];

/// Saves of registers 0 to 32, each in slot 1, and END. With the return register, which is one of them, a state has 33 pairs.
pub const SAVES_33: [u8; 67] = {
    let mut bytes = [0; 67];
    let mut reg = 0;
    while reg <= 32 {
        bytes[2 * reg] = 0x80 | reg as u8;
        bytes[2 * reg + 1] = 1;
        reg += 1;
    }
    bytes
};

/// A function of a version 2 chunk: its state program, and its rows.
pub struct Function {
    pub program: &'static [u8],
    pub rows: &'static [Row],
}

/// A function of a version 1 chunk: its frame word, and its rows.
pub struct Framed {
    pub word: u32,
    pub rows: &'static [Row],
}

/// Where the i-th function starts.
pub fn start(i: usize) -> usize {
    CODE + SIZE * i
}

/// Where its call returns to.
pub fn ret(i: usize) -> usize {
    start(i) + RETURN
}

/// A version 2 chunk that stands at an address of the section, for the functions from this number on.
pub fn chunk2(arch: Arch, at: usize, first: usize, functions: &[Function]) -> Vec<u8> {
    let head = 16 + 12 * functions.len();
    let (mut records, mut tail) = (Vec::new(), Vec::new());
    for (i, function) in functions.iter().enumerate() {
        let data = (head + tail.len()) as u32 | 1 << 31;
        records.extend(record(at + 16 + 12 * i, first + i, &[data]));
        tail.extend(function.program);
        tail.extend(rows2(function.rows));
    }
    chunk(arch, 2, functions.len(), &[records, tail].concat())
}

/// The same of version 1.
pub fn chunk1(arch: Arch, at: usize, first: usize, functions: &[Framed]) -> Vec<u8> {
    let head = 16 + 16 * functions.len();
    let (mut records, mut tail) = (Vec::new(), Vec::new());
    for (i, function) in functions.iter().enumerate() {
        let table = (head + tail.len()) as u32;
        records.extend(record(at + 16 + 16 * i, first + i, &[function.word, table]));
        let rows = function.rows.iter().flat_map(|(ret, pad, action)| [*ret, *pad, *action as usize]);
        tail.extend(std::iter::once(function.rows.len()).chain(rows).flat_map(|word| (word as u32).to_le_bytes()));
    }
    chunk(arch, 1, functions.len(), &[records, tail].concat())
}

/// A version 2 chunk of one function that ends with these bytes of its program and its rows, wherever they are cut. In front they
/// are filled up to whole words with the operation 41, which gives a frame one unit.
pub fn cut2(arch: Arch, at: usize, function: usize, bytes: &[u8]) -> Vec<u8> {
    let fill = vec![0x41; bytes.len().next_multiple_of(4) - bytes.len()];
    let record = record(at + 16, function, &[28 | 1 << 31]);
    chunk(arch, 2, 1, &[&record, &fill, bytes].concat())
}

/// A header before the rest of its chunk, which is filled up to whole words.
fn chunk(arch: Arch, version: u8, count: usize, rest: &[u8]) -> Vec<u8> {
    let size = (16 + rest.len()).next_multiple_of(4);
    let mut bytes = vec![0x45, 0x4b, 0x55, 0x57, version, arch as u8, 1, 0];
    bytes.extend((count as u32).to_le_bytes());
    bytes.extend((size as u32).to_le_bytes());
    bytes.extend(rest);
    bytes.resize(size, 0);
    bytes
}

/// The record at an address: the function's start relative to it, its length, and the fields of its version.
fn record(at: usize, function: usize, fields: &[u32]) -> Vec<u8> {
    let words = [(start(function) - at) as u32, SIZE as u32];
    words.iter().chain(fields).flat_map(|word| word.to_le_bytes()).collect()
}

fn rows2(rows: &[Row]) -> Vec<u8> {
    let mut bytes = uleb(rows.len());
    let mut before = 0;
    for (ret, pad, action) in rows {
        bytes.extend(uleb(ret - before));
        bytes.extend(uleb(4 * pad + *action as usize));
        before = *ret;
    }
    bytes
}

fn uleb(mut n: usize) -> Vec<u8> {
    let mut bytes = Vec::new();
    while n >= 0x80 {
        bytes.push(n as u8 | 0x80);
        n >>= 7;
    }
    bytes.push(n as u8);
    bytes
}
