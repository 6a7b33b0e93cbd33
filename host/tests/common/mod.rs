//! Sections and stacks for throws on x86-64: functions of 16 bytes, each with one call, which returns to its offset 5.
use morthwyga::{Arch, Memory, Regs};

pub const ARCH: Arch = Arch::X86_64;
pub const SECTION: usize = 0x1000;
pub const STACK: usize = 0x4000;
pub const FIRST: usize = 0x9000;
pub const EXCEPTION: usize = 77;

/// A chunk with a function of 16 bytes for each of these programs, from FIRST on.
pub fn section(programs: &[&[u8]]) -> Vec<u8> {
    let head = 16 + 12 * programs.len();
    let length = (head + programs.concat().len()).next_multiple_of(4);
    let mut words = vec![0x5755_4b45, 0x0001_0202, programs.len() as u32, length as u32];
    let mut program = head;
    for (i, bytes) in programs.iter().enumerate() {
        let field = SECTION + 4 * words.len();
        words.extend([(FIRST + 16 * i - field) as u32, 16, program as u32 | 1 << 31]);
        program += bytes.len();
    }
    let mut bytes: Vec<u8> = words.into_iter().flat_map(u32::to_le_bytes).chain(programs.concat()).collect();
    bytes.resize(length, 0);
    bytes
}

/// The return address of the call in the i-th function.
pub fn ret(i: usize) -> usize {
    FIRST + 16 * i + 5
}

pub fn stack(words: &[usize]) -> Vec<u8> {
    words.iter().flat_map(|word| word.to_le_bytes()).collect()
}

pub fn lend<'a>(section: &'a [u8], stack: &'a [u8]) -> Memory<'a> {
    Memory { section, section_base: SECTION, stack, stack_base: STACK }
}

pub fn regs(sp: usize) -> Regs {
    let mut regs = Regs { r: std::array::from_fn(|i| 100 + i) };
    regs.r[7] = sp;
    regs
}
