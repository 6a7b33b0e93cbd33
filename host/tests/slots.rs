//! Slots by the word (document 02, request (b)): a slot is the u32 at its address plus 2^32 times the u32 4 bytes on, both taken here
//! from the one slice that holds the slot; a slot that neither slice holds whole is refused. Pairs of slots at every address in and
//! around two slices, which touch, lie apart or are too short for a slot, as `apply` and `step` read them.
use morthwyga::{Arch, Failure, Memory, Regs, State, strip_pac};

/// An architecture with two registers that frames save, the first of mask bit 0.
const ARCHS: [(Arch, u16, u16); 2] = [(Arch::Aarch64, 19, 20), (Arch::X86_64, 3, 12)];
/// Bytes that no two places of a slot share, and words at the bounds of 32 and 64 bits.
const PATTERNS: [&[u8]; 7] = [
    &[1, 2, 3, 4, 5, 6, 7, 8, 9, 10, 11, 12, 13],
    &[0xff],
    &[0xff, 0xff, 0xff, 0xff, 0, 0, 0, 0],
    &[0, 0, 0, 0, 0xff, 0xff, 0xff, 0xff],
    &[0, 0, 0, 0x80],
    &[0xf7, 0xb3, 0x91, 0xd5, 0xe9],
    &[0],
];
/// Where the slices begin and how long they are: the section, then the stack.
const LENT: [((usize, usize), (usize, usize)); 9] = [
    ((0x1000, 24), (0x1018, 24)),
    ((0x1018, 24), (0x1000, 24)),
    ((0x1003, 21), (0x1018, 27)),
    ((0x1000, 7), (0x1007, 17)),
    ((0x1000, 17), (0x1011, 7)),
    ((0x1000, 4), (0x1004, 4)),
    ((0x1000, 8), (0x1010, 8)),
    ((0x1000, 0), (0x1000, 32)),
    ((0x1000, 32), (0x1020, 0)),
];

/// So many bytes of a pattern; each slice turns other bits of them, so that no two slices are alike.
fn bytes(pattern: &[u8], bits: u8, length: usize) -> Vec<u8> {
    pattern.iter().map(|byte| byte ^ bits).cycle().take(length).collect()
}

fn word(bytes: &[u8]) -> usize {
    u32::from_le_bytes(bytes.try_into().unwrap()) as usize
}

/// The slot at an address, by its two words.
fn slot(memory: Memory, address: usize) -> Result<usize, Failure> {
    for (slice, base) in [(memory.section, memory.section_base), (memory.stack, memory.stack_base)] {
        if base <= address && address + 8 <= base + slice.len() {
            let at = address - base;
            return Ok(word(&slice[at..at + 4]) + 0x1_0000_0000 * word(&slice[at + 4..at + 8]));
        }
    }
    Err(Failure::OutsideMemory)
}

fn regs(arch: Arch, sp: usize) -> Regs {
    Regs { r: std::array::from_fn(|i| 100 + i) }.set_sp(arch, sp).unwrap()
}

/// Calls a test with each memory and each sp in and around it.
fn each(test: impl Fn(Memory, usize)) {
    for (pattern, ((section_base, section), (stack_base, stack))) in PATTERNS.into_iter().flat_map(|p| LENT.map(|lent| (p, lent))) {
        let (section, stack) = (bytes(pattern, 0x5a, section), bytes(pattern, 0, stack));
        let memory = Memory { section: &section, section_base, stack: &stack, stack_base };
        (0xff0..0x1038).for_each(|sp| test(memory, sp));
    }
}

/// Two pairs: slot 1 is at sp, another one below it.
#[test]
fn apply_reads_slots_by_their_words() {
    for (arch, first, second) in ARCHS {
        each(|memory, sp| {
            for below in 0..5 {
                let mut state = State { cfa_fp: false, cfa_units: 1, count: 2, regs: [0; 32], slots: [0; 32] };
                (state.regs[0], state.slots[0]) = (first, 1);
                (state.regs[1], state.slots[1]) = (second, 1 + below);
                let told = memory.apply(arch, state, regs(arch, sp)).map(|caller| [first, second].map(|r| caller.get(arch, r).unwrap()));
                let due = slot(memory, sp).and_then(|v| Ok([v, slot(memory, sp - 8 * below as usize)?]));
                assert_eq!(told, due, "{arch:?}, sp {sp:x}, {below} slots below, {memory:x?}");
            }
        });
    }
}

/// Kind 2 with param 1: the return address is slot 1, at sp + 8, and the register of mask bit 0 slot 2, at sp.
#[test]
fn step_reads_slots_by_their_words() {
    for (arch, saved, _) in ARCHS {
        each(|memory, sp| {
            let told = memory.step(arch, 2 | 1 << 3 | 1 << 21, false, regs(arch, sp));
            let told = told.map(|caller| (caller.pc(), caller.get(arch, saved).unwrap()));
            let due = slot(memory, sp + 8).and_then(|ra| Ok((strip_pac(arch, ra)?, slot(memory, sp)?)));
            assert_eq!(told, due, "{arch:?}, sp {sp:x}, {memory:x?}");
        });
    }
}
