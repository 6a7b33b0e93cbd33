//! Requests for `apply`: the caller's registers from an unwind state.

use crate::file::File;
use crate::memory::{NONE, Range, TOP, request};
use crate::random::Random;

const STACK: u64 = 0x1000;

/// A register and its slot.
type Pair = (u64, u64);

/// A state: base, units, count and the pairs that are written, the first count of which it has.
struct State<'a> {
    fp: bool,
    units: u64,
    count: usize,
    pairs: &'a [Pair],
}

pub fn requests(arch: u64, random: &mut Random) -> Vec<String> {
    let mut list = Vec::new();
    edges(&mut list, arch);
    across(&mut list, arch);
    registers(&mut list, arch, random);
    bases(&mut list, arch);
    wraps(&mut list, arch);
    counts(&mut list, arch, random);
    for _ in 0..150 {
        list.push(random_case(arch, random));
    }
    list
}

fn apply(section: Range, stack: Range, state: &State, file: &File) -> String {
    let pairs: Vec<String> =
        state.pairs.iter().map(|(reg, slot)| format!("{reg}:{slot}")).collect();
    let pairs = if pairs.is_empty() { "-".to_string() } else { pairs.join(",") };
    let (fp, units, count) = (u64::from(state.fp), state.units, state.count);
    request(section, stack, &format!("apply {fp} {units} {count} {pairs} {}", file.token()))
}

/// A state on sp with all its pairs.
fn on_sp<'a>(units: u64, pairs: &'a [Pair]) -> State<'a> {
    State { fp: false, units, count: pairs.len(), pairs }
}

/// The preserved registers of the SAVED table, without fp.
pub fn saved(arch: u64) -> &'static [u64] {
    if arch == 1 { &[19, 20, 21, 28, 72, 79] } else { &[3, 12, 13, 14, 15] }
}

pub fn ra(arch: u64) -> u64 {
    if arch == 1 { 30 } else { 16 }
}

fn bytes(count: u8) -> Vec<u8> {
    (1..=count).collect()
}

/// A slot at every address about the stack's two ends, near and far from the CFA.
fn edges(list: &mut Vec<String>, arch: u64) {
    let stack = bytes(24);
    for slot in [1, 65535] {
        for at in STACK - 9..=STACK + 25 {
            let pairs = [(ra(arch), slot)];
            let file = File::new(arch).sp(at + 8 * slot);
            list.push(apply(NONE, (STACK, &stack), &on_sp(0, &pairs), &file));
        }
    }
    for at in TOP - 9..=TOP + 9 {
        let pairs = [(ra(arch), 3)];
        let file = File::new(arch).sp(at + 16);
        list.push(apply(NONE, (TOP, &stack[..16]), &on_sp(1, &pairs), &file));
    }
}

/// A slot that lies in one of two adjacent ranges, or across them, in either order, or with a byte between.
fn across(list: &mut Vec<String>, arch: u64) {
    let (low, high) = (bytes(12), bytes(24));
    for at in STACK - 13..=STACK + 6 {
        let pairs = [(ra(arch), 1)];
        let (state, file) = (on_sp(0, &pairs), File::new(arch).sp(at + 8));
        let (below, above) = ((STACK - 12, &low[..]), (STACK, &high[12..]));
        list.push(apply(below, above, &state, &file));
        list.push(apply(above, below, &state, &file));
        list.push(apply(below, (STACK + 1, &high[12..]), &state, &file));
    }
}

/// Every register number, in a slot inside and in one outside; the first refusal counts.
fn registers(list: &mut Vec<String>, arch: u64, random: &mut Random) {
    let stack = bytes(16);
    for reg in (0..=90).chain([127, 128, 255, 256, 65535]) {
        let pairs = [(reg, 1 + random.below(2))];
        list.push(apply(NONE, (STACK, &stack), &on_sp(2, &pairs), &File::new(arch).sp(STACK)));
    }
    for reg in [0, 16, 30, 31, 71, 72, 79, 80, 65535] {
        for other in [1, 80] {
            for pairs in [
                [(reg, 3), (other, 1)],
                [(other, 1), (reg, 3)],
                [(reg, 1), (other, 2)],
                [(other, 2), (reg, 1)],
            ] {
                list.push(apply(
                    NONE,
                    (STACK, &stack),
                    &on_sp(2, &pairs),
                    &File::new(arch).sp(STACK),
                ));
            }
        }
    }
}

/// fp and sp as base: 0, misaligned, and sums about 0.
fn bases(list: &mut Vec<String>, arch: u64) {
    let stack = bytes(16);
    let near = (0..=9).chain((1..=9).map(|n| 0u64.wrapping_sub(n)));
    for base in near {
        for (fp, units) in [(true, 0), (true, 1), (false, 0), (false, 1)] {
            let state = State { fp, units, count: 0, pairs: &[] };
            let file =
                File::new(arch).sp(if fp { STACK } else { base }).fp(if fp { base } else { 7 });
            list.push(apply(NONE, (STACK, &stack), &state, &file));
        }
    }
    for units in [u64::from(u32::MAX), 1 << 31, 65536] {
        for base in [
            0u64.wrapping_sub(8 * units),
            8u64.wrapping_sub(8 * units),
            (STACK + 16).wrapping_sub(8 * units),
        ] {
            for fp in [true, false] {
                let pairs = [(ra(arch), 1)];
                let state = State { fp, units, count: 1, pairs: &pairs };
                list.push(apply(NONE, (STACK, &stack), &state, &File::new(arch).sp(base).fp(base)));
            }
        }
    }
}

/// Sums and differences that wrap: the CFA back into the stack, slots below address 0.
fn wraps(list: &mut Vec<String>, arch: u64) {
    let stack = bytes(16);
    for base in [1u64, 2, 8] {
        for slot in [1, 2, 3, 65535] {
            let pairs = [(ra(arch), slot)];
            let file = File::new(arch).sp(base.wrapping_sub(8)).fp(5);
            for units in [1, 2, 3] {
                list.push(apply(NONE, (base, &stack), &on_sp(units, &pairs), &file));
            }
        }
    }
}

/// Every count from 0 to 32 with pairs past it, a register saved twice, sp, fp and the return register among them.
fn counts(list: &mut Vec<String>, arch: u64, random: &mut Random) {
    let stack = bytes(32);
    let known =
        [saved(arch), &[6, 7, 29, 31][if arch == 1 { 2..4 } else { 0..2 }], &[ra(arch)]].concat();
    for count in 0..=32 {
        let written = (count + random.below(4) as usize).min(32);
        let mut pairs: Vec<Pair> =
            (0..written).map(|_| (random.pick(&known), 1 + random.below(4))).collect();
        if written > count {
            pairs[count] = (random.pick(&[80, 65535, ra(arch)]), random.pick(&[0, 9, 65535]));
        }
        let state = State { fp: random.below(2) == 0, units: 2, count, pairs: &pairs };
        let file = File::new(arch).sp(STACK + 16).fp(STACK + 16);
        list.push(apply(NONE, (STACK, &stack), &state, &file));
    }
}

fn random_case(arch: u64, random: &mut Random) -> String {
    let stack: Vec<u8> = (0..24).map(|_| random.any_width() as u8).collect();
    let base = STACK + random.pick(&[0, 4, 8, 8, 16, 16, 24]);
    let units = random.below(4);
    let count = random.below(5) as usize;
    let mut pairs: Vec<Pair> =
        (0..count).map(|_| (random.pick(saved(arch)), 1 + random.below(4))).collect();
    if random.below(2) == 0 {
        pairs.push((ra(arch), 1));
    }
    if random.below(8) == 0 {
        pairs.push((random.below(90), 1));
    }
    let state = State { fp: random.below(2) == 0, units, count: pairs.len(), pairs: &pairs };
    let file = File::new(arch).sp(base).fp(base).ra(random.any_width());
    apply(NONE, (STACK, &stack), &state, &file)
}
