//! Requests for `step`: the caller's registers from a version 1 frame word.

use crate::file::File;
use crate::memory::{NONE, Range, TOP, request};
use crate::random::Random;

const STACK: u64 = 0x1000;

const LEAF: u64 = 0;
const FP: u64 = 1;
const SP: u64 = 2;

pub fn requests(arch: u64, random: &mut Random) -> Vec<String> {
    let mut list = Vec::new();
    rules(&mut list, arch);
    mask_bits(&mut list, arch);
    whole_masks(&mut list, arch);
    edges(&mut list, arch);
    across(&mut list, arch);
    bases(&mut list, arch);
    for _ in 0..110 {
        list.push(random_case(arch, random));
    }
    list
}

pub fn word(kind: u64, order: u64, mask: u64, param: u64) -> u64 {
    kind | order << 2 | mask << 3 | param << 21
}

fn step(section: Range, stack: Range, frame: u64, first: bool, file: &File) -> String {
    request(section, stack, &format!("step {frame} {} {}", u64::from(first), file.token()))
}

/// How many registers the SAVED table has.
pub fn table(arch: u64) -> u64 {
    if arch == 1 { 18 } else { 5 }
}

fn bytes(count: u8) -> Vec<u8> {
    (1..=count).collect()
}

/// Every kind, first or not, with masks and params on either side of each rule.
fn rules(list: &mut Vec<String>, arch: u64) {
    let stack = bytes(16);
    let masks = [0, 1, 1 << (table(arch) - 1), 1 << table(arch) & 0x3_ffff, 1 << 17, 0x3_ffff];
    for kind in 0..4 {
        for mask in masks {
            for param in [2, 3, 2047] {
                for first in [false, true] {
                    let order = u64::from(first) ^ mask & 1;
                    let file = File::new(arch).sp(STACK).fp(STACK + 8 * (param & 1));
                    list.push(step(
                        NONE,
                        (STACK, &stack),
                        word(kind, order, mask, param),
                        first,
                        &file,
                    ));
                }
            }
        }
    }
}

/// Each bit of the mask alone, in either order, at the first and the second slot that it can have.
fn mask_bits(list: &mut Vec<String>, arch: u64) {
    let stack = bytes(32);
    for bit in 0..18 {
        for (kind, param) in [(FP, 4), (SP, 2)] {
            for order in [0, 1] {
                let file = File::new(arch).sp(STACK).fp(STACK + 16);
                list.push(step(
                    NONE,
                    (STACK, &stack),
                    word(kind, order, 1 << bit, param),
                    false,
                    &file,
                ));
            }
        }
    }
}

/// The first bits of the mask, up to all, in either order; the stack holds all slots, or all but the last.
fn whole_masks(list: &mut Vec<String>, arch: u64) {
    for count in 1..=table(arch) {
        let slots = count + 2;
        let stack = bytes(8 * slots as u8);
        let end = STACK + 8 * slots;
        for (kind, order, cut) in [(FP, 0, 0), (FP, 1, 0), (SP, 0, 1), (SP, 1, 1), (FP, 1, 1)] {
            let file = File::new(arch).sp(end - 8 * (slots & !1)).fp(end - 16);
            let frame = word(kind, order, (1 << count) - 1, if kind == FP { 3 } else { slots / 2 });
            list.push(step(NONE, (STACK + cut, &stack[cut as usize..]), frame, false, &file));
        }
    }
}

/// The slots at every address about the stack's two ends, for each kind; the first refusal counts.
fn edges(list: &mut Vec<String>, arch: u64) {
    let stack = bytes(24);
    for cfa in STACK - 1..=STACK + 33 {
        let file =
            File::new(arch).sp(cfa.wrapping_sub(16)).fp(cfa.wrapping_sub(16)).ra(1 << 48 | 5);
        list.push(step(NONE, (STACK, &stack), word(SP, 0, 3, 1), false, &file));
        list.push(step(NONE, (STACK, &stack), word(SP, 1, 1, 1), false, &file));
        list.push(step(NONE, (STACK, &stack), word(LEAF, 0, 0, 1), true, &file));
    }
    for cfa in (STACK..=STACK + 40).step_by(8) {
        for (mask, param) in [(0, 0), (1, 3), (3, 3), (2, 65)] {
            let file = File::new(arch).fp(cfa.wrapping_sub(16)).ra(1 << 48 | 5);
            list.push(step(NONE, (STACK, &stack), word(FP, mask & 1, mask, param), false, &file));
        }
    }
    for cfa in TOP..=TOP + 17 {
        let file = File::new(arch).sp(cfa - 32);
        list.push(step(NONE, (TOP, &stack[..16]), word(SP, 0, 0, 2), false, &file));
    }
}

/// A slot across two adjacent ranges, in either order.
fn across(list: &mut Vec<String>, arch: u64) {
    let (low, high) = (bytes(12), bytes(24));
    let (below, above) = ((STACK - 12, &low[..]), (STACK, &high[12..]));
    for cfa in STACK - 5..=STACK + 13 {
        let file = File::new(arch).sp(cfa - 16).fp(cfa - 16);
        for frame in [word(SP, 0, 0, 1), word(LEAF, 0, 0, 1), word(FP, 0, 0, 1)] {
            let first = frame & 3 == LEAF;
            let (section, stack) =
                if cfa & 1 == frame >> 1 & 1 { (below, above) } else { (above, below) };
            list.push(step(section, stack, frame, first, &file));
        }
    }
}

/// fp and sp at 0, misaligned and near 2^64: a CFA of 0 is no refusal, sums wrap.
fn bases(list: &mut Vec<String>, arch: u64) {
    let stack = bytes(16);
    let near = (0..=9).chain((1..=17).map(|n| 0u64.wrapping_sub(n)));
    for base in near {
        let (fp, sp) = (File::new(arch).fp(base), File::new(arch).sp(base).ra(u64::MAX - base));
        list.push(step(NONE, (8, &stack), word(FP, 0, 0, 0), false, &fp));
        list.push(step(NONE, (8, &stack), word(FP, 0, 1, 3), false, &fp));
        for param in [0, 1] {
            list.push(step(NONE, (8, &stack), word(LEAF, 0, 0, param), true, &sp));
        }
        list.push(step(NONE, (8, &stack), word(SP, 0, 0, 1), false, &sp));
    }
    for param in [2046, 2047] {
        for kind in [LEAF, SP] {
            for at in [0, 8, 16, 24] {
                let file = File::new(arch).sp(STACK.wrapping_add(at).wrapping_sub(16 * param));
                list.push(step(
                    NONE,
                    (STACK, &stack),
                    word(kind, 0, 0, param),
                    kind == LEAF,
                    &file,
                ));
            }
        }
    }
}

fn random_case(arch: u64, random: &mut Random) -> String {
    let stack: Vec<u8> = (0..40).map(|_| random.any_width() as u8).collect();
    let kind = random.pick(&[LEAF, FP, FP, SP, SP]);
    let mask = random.word() & random.word() & random.word() & ((1 << table(arch)) - 1);
    let mask = if kind == LEAF { 0 } else { mask };
    let param = if kind == FP { 3 + random.below(2) } else { random.below(4) };
    let base = STACK + 8 * random.below(4);
    let file = File::new(arch).sp(base).fp(base + 8).ra(random.any_width());
    step(NONE, (STACK, &stack), word(kind, random.below(2), mask, param), kind == LEAF, &file)
}
