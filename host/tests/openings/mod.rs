//! Openings and architectures that are refused with 28.
use morthwyga::Memory;

const TOP: usize = 1 << 62;

/// Architectures that there are not.
pub const UNKNOWN: [u8; 4] = [0, 3, 4, 255];

/// What is lent with each of its bases such as no opening has, its slices also empty, and with both slices at one address.
pub fn broken(memory: Memory<'_>) -> Vec<Memory<'_>> {
    let bases = [0, TOP + 1, 1 << 63, usize::MAX];
    let lent = [memory, Memory { section: &[], ..memory }, Memory { stack: &[], ..memory }];
    let sections = lent.iter().flat_map(|lent| bases.map(|section_base| Memory { section_base, ..*lent }));
    let stacks = lent.iter().flat_map(|lent| bases.map(|stack_base| Memory { stack_base, ..*lent }));
    let section_end = memory.section_base + memory.section.len();
    let met = [memory.section_base, section_end - 1, memory.section_base + 1 - memory.stack.len()];
    sections.chain(stacks).chain(met.map(|stack_base| Memory { stack_base, ..memory })).collect()
}

/// What is lent with the lowest and the highest bases, slices that touch, and empty slices at the address of the other.
fn accepted(memory: Memory<'_>) -> Vec<Memory<'_>> {
    let section_end = memory.section_base + memory.section.len();
    let stacks = [1, TOP, section_end, memory.section_base - memory.stack.len()];
    let sections = [1, TOP].map(|section_base| Memory { section_base, ..memory });
    let empty = [
        Memory { stack: &[], stack_base: memory.section_base, ..memory },
        Memory { stack: &[], stack_base: memory.section_base + 1, ..memory },
        Memory { section: &[], section_base: memory.stack_base, ..memory },
    ];
    let stacks = stacks.map(|stack_base| Memory { stack_base, ..memory });
    stacks.into_iter().chain(sections).chain(empty).chain([memory]).collect()
}

/// The call is refused with 28 for every broken opening, and is not for the others.
pub fn openings(memory: Memory, status: impl Fn(Memory) -> u32) {
    for broken in broken(memory) {
        assert_eq!(status(broken), 28, "section {:x}, stack {:x}", broken.section_base, broken.stack_base);
    }
    for accepted in accepted(memory) {
        assert_ne!(status(accepted), 28, "section {:x}, stack {:x}", accepted.section_base, accepted.stack_base);
    }
}

/// The call is refused with 28 for every architecture that is not 1 or 2.
pub fn architectures(status: impl Fn(u8) -> u32) {
    for arch in UNKNOWN {
        assert_eq!(status(arch), 28, "architecture {arch}");
    }
}
