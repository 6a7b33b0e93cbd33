//! What the cases read: a section, programs and rows, written where they are read.

/// The record starts of a section, one every 32 bytes.
pub const STRIDE: usize = 32;

/// A version 2 section for x86-64 with one chunk of so many functions, and where the first of them starts.
pub fn section(records: usize) -> (Vec<u8>, usize) {
    let mut bytes = Vec::with_capacity(16 + 12 * records);
    let base = bytes.as_ptr() as usize;
    let first = base + 0x20_0000;
    bytes.extend(b"EKUW\x02\x02\x01\x00");
    bytes.extend((records as u32).to_le_bytes());
    bytes.extend((16 + 12 * records as u32).to_le_bytes());
    for i in 0..records {
        let field = base + bytes.len();
        bytes.extend(((first + STRIDE * i - field) as u32).to_le_bytes());
        bytes.extend((STRIDE as u32).to_le_bytes());
        bytes.extend([0; 4]);
    }
    (bytes, first)
}

/// A program of so many operations, then END, and the code bytes that it describes. Eight operations in turn: two advances, a
/// CFA rule, two saves, a remember, a restore and a recall.
pub fn program(operations: usize) -> (Vec<u8>, usize) {
    let (mut bytes, mut code) = (Vec::new(), 0);
    for i in 0..operations {
        let which = i / 8 % 5;
        let (reg, slot) = ([3, 12, 13, 14, 15][which], 3 + which as u8);
        match i % 8 {
            0 => bytes.push(0x01),
            1 => bytes.push(0x42),
            2 => bytes.extend([0x86, 0x02]),
            3 => bytes.push(0x03),
            4 => bytes.extend([0x80 + reg, slot]),
            5 => bytes.push(0xc7),
            6 => bytes.push(0xe0 + reg),
            _ => bytes.push(0xc8),
        }
        code += [1, 0, 0, 3, 0, 0, 0, 0][i % 8];
    }
    bytes.push(0x00);
    (bytes, code)
}

/// The return offset of a table's row.
pub fn offset(i: usize) -> u32 {
    8 * i as u32 + 5
}

/// A version 1 table of cleanup and catch rows, each with its own pad.
pub fn rows(count: usize) -> Vec<u8> {
    let words = (0..count).flat_map(|i| [offset(i), 100 + i as u32, i as u32 % 2]);
    std::iter::once(count as u32).chain(words).flat_map(u32::to_le_bytes).collect()
}

/// The same rows as a version 2 table.
pub fn rows2(count: usize) -> Vec<u8> {
    let numbers = (0..count).flat_map(|i| [if i == 0 { offset(0) } else { 8 }, 4 * (100 + i as u32) + i as u32 % 2]);
    std::iter::once(count as u32).chain(numbers).flat_map(uleb).collect()
}

fn uleb(mut n: u32) -> Vec<u8> {
    let mut bytes = Vec::new();
    while n >= 0x80 {
        bytes.push(n as u8 | 0x80);
        n >>= 7;
    }
    bytes.push(n as u8);
    bytes
}
