//! Whole stacks for x86-64, and the section that describes their frames.
use ps_unwind::{arch, eko};

use crate::timing::picks;
use crate::{FP, address};

/// How many functions a section has, in all its chunks, each of 32 bytes.
const FUNCTIONS: usize = 64;
const LENGTH: usize = 32;

/// The words of a frame.
const WORDS: usize = 6;

/// What a call returns to in its function: no row, a cleanup, a catch.
const PLAIN: usize = 10;
const CLEANUP: usize = 8;
const CATCH: usize = 12;

/// Version 1: fp as base, registers 3 and 12 from slot 3 on.
const WORD: u32 = eko::KIND_FP | 3 << 3 | 3 << 21;

/// Version 2: the same after an advance of 1 and one of 3; then the rows.
const PROGRAM: [u8; 17] = [0x01, 0xc9, 0x03, 0x83, 3, 0x8c, 4, 0x00, 4, 8, 4 * 24, 4, 4 * 26 + 1, 4, 4 * 27, 4, 4 * 28];
const ROWS: [u32; 13] = [4, 8, 24, 0, 12, 26, 1, 16, 27, 0, 20, 28, 0];

/// A section of so many chunks, over which the functions are spread in order of address, and where the first of them starts. Every
/// function has 4 rows.
pub fn section(version: u8, chunks: usize) -> (Vec<u8>, usize) {
    let functions = FUNCTIONS / chunks;
    let stride = if version == 1 { 16 } else { 12 };
    let table: Vec<u8> = if version == 1 { ROWS.into_iter().flat_map(u32::to_le_bytes).collect() } else { PROGRAM.to_vec() };
    let head = 16 + stride * functions;
    let size = (head + table.len() * functions).next_multiple_of(4);
    let mut bytes = Vec::with_capacity(size * chunks);
    let first = address(&bytes) + 0x10_0000;
    for chunk in 0..chunks {
        bytes.extend([0x45, 0x4b, 0x55, 0x57, version, 2, 1, 0]);
        bytes.extend([functions as u32, size as u32].into_iter().flat_map(u32::to_le_bytes));
        for i in 0..functions {
            let start = first + LENGTH * (functions * chunk + i);
            let relative = (start - address(&bytes) - bytes.len()) as u32;
            let at = (head + table.len() * i) as u32;
            let fields = if version == 1 { vec![WORD, at] } else { vec![at | 1 << 31] };
            bytes.extend([relative, LENGTH as u32].into_iter().chain(fields).flat_map(u32::to_le_bytes));
        }
        bytes.extend(table.repeat(functions));
        bytes.resize(size * (chunk + 1), 0);
    }
    (bytes, first)
}

/// Stacks of so many frames, each frame with a function picked at random.
pub fn stacks(frames: usize, first: usize) -> Vec<(Vec<usize>, arch::Regs)> {
    picks(FUNCTIONS).collect::<Vec<_>>().chunks_exact(frames).map(|functions| stack(functions, first)).collect()
}

/// The stack of a frame in each of these functions, which starts at a multiple of 8, and the registers of the innermost one. Every
/// fourth frame has a cleanup, and the outermost a catch.
fn stack(functions: &[usize], first: usize) -> (Vec<usize>, arch::Regs) {
    let frames = functions.len();
    let pc = |k: usize| {
        let place = if k + 1 == frames { CATCH } else if k % 4 == 1 { CLEANUP } else { PLAIN };
        first + LENGTH * functions[k] + place
    };
    let mut words = vec![0; WORDS * frames];
    let base = words.as_ptr() as usize;
    let fp = |k: usize| base + 8 * (WORDS * (k + 1) - 2);
    for k in 0..frames {
        let frame = &mut words[WORDS * k..WORDS * (k + 1)];
        frame[2..4].copy_from_slice(&[1_000 + k, 2_000 + k]);
        if k + 1 < frames {
            frame[4..].copy_from_slice(&[fp(k + 1), pc(k + 1)]);
        }
    }
    let mut regs = arch::Regs { r: std::array::from_fn(|n| n), pc: pc(0) };
    regs.set_sp(base);
    regs.r[FP] = fp(0);
    (words, regs)
}

/// A stack's bytes.
pub fn bytes(words: &[usize]) -> &[u8] {
    // Safety: they are the same bytes, as many, and any bytes are bytes.
    unsafe { std::slice::from_raw_parts(words.as_ptr().cast(), size_of_val(words)) }
}
