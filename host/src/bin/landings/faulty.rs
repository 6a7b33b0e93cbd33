//! A section with a fault in a program or in the rows after it.
use std::ops::Range;

use crate::random::Random;
use crate::section::Section;

/// Five bytes of a number without end, and of one that is too large.
const BAD_NUMBERS: [[u8; 5]; 2] = [[0x80; 5], [0xff, 0xff, 0xff, 0xff, 0x1f]];

/// The bytes of the section with a function's program, or a row of it, cut by the end of its chunk, with a bad number, or with saves
/// of 33 registers; none where it has no program.
pub fn section(section: &Section, function: usize, random: &mut Random) -> Option<Vec<u8>> {
    let program = section.programs[function]?;
    let (rows, chunk) = (&section.places[function], section.chunks[function].clone());
    let row = (!rows.is_empty() && random.once_in(2)).then(|| rows[random.below(rows.len())].ret.start);
    let at = row.unwrap_or(program);
    let mut bytes = section.bytes.clone();
    match random.below(3) {
        0 => cut(&mut bytes, chunk, (at + random.below(8)).next_multiple_of(4)),
        1 => {
            let operation: &[u8] = if row.is_some() { &[] } else { &[0xc0] };
            put(&mut bytes[at..chunk.end], &[operation, &random.pick(&BAD_NUMBERS)].concat());
        }
        _ => put(&mut bytes[program..chunk.end], &(0..33).flat_map(|reg| [0x80 | reg, 1]).collect::<Vec<u8>>()),
    }
    Some(bytes)
}

/// The chunk ends at a whole word before its end; the words after it are 0.
fn cut(bytes: &mut [u8], chunk: Range<usize>, end: usize) {
    if end < chunk.end {
        put(&mut bytes[chunk.start + 12..], &((end - chunk.start) as u32).to_le_bytes());
        bytes[end..chunk.end].fill(0);
    }
}

/// As many of the bytes as there is room for.
fn put(room: &mut [u8], bytes: &[u8]) {
    room.iter_mut().zip(bytes).for_each(|(old, new)| *old = *new);
}
