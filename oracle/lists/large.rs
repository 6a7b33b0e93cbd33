//! Requests for comparisons at large, four kinds of them for every function that reads memory.

use crate::file::File;
use crate::lookup;
use crate::memory::{NONE, TOP, request};
use crate::program::state;
use crate::random::Random;
use crate::sample::{LARGE, functions};

/// Samples of every size, with memory of every length about their ends; some of large sizes; many records; states and registers
/// of every size.
pub fn lengths(arch: u64, random: &mut Random) -> Vec<String> {
    let mut list = Vec::new();
    for (make, largest) in functions(arch) {
        for size in 0..=largest {
            let mut sample = make(arch, size, random);
            let limit = sample.end();
            let len = sample.bytes.len();
            let lowest = if len <= 16 { 0 } else { len - random.pick(&[8, 16]) };
            sample.bytes.extend([random.word() as u8, random.word() as u8]);
            for _ in lowest..=len + 2 {
                list.push(sample.whole(limit, random));
                list.push(sample.whole(sample.end(), random));
                sample.bytes.pop();
            }
        }
    }
    larger(&mut list, arch, random);
    lookup::many(&mut list, arch, random);
    states(&mut list, random);
    registers(&mut list, arch, random);
    list
}

/// Samples of large sizes, whole and without their last byte.
fn larger(list: &mut Vec<String>, arch: u64, random: &mut Random) {
    for (make, sizes) in LARGE {
        for size in sizes {
            for _ in 0..if *size < 2000 { 4 } else { 1 } {
                let mut sample = make(arch, *size, random);
                let limit = sample.end();
                list.push(sample.whole(limit, random));
                sample.bytes.pop();
                list.push(sample.whole(limit, random));
                list.push(sample.whole(limit - 1, random));
            }
        }
    }
}

/// Saves, restores and slots of states of every count.
fn states(list: &mut Vec<String>, random: &mut Random) {
    for count in 0..=32 {
        for _ in 0..4 {
            let spread = random.pick(&[8, 40, 65536]);
            let written = count + random.below(33 - count as u64) as usize;
            let pairs: Vec<(u64, u64)> = (0..written).map(|_| (random.below(spread), random.below(65536))).collect();
            let state = state(random.below(2), random.below(1 << 32), count, &pairs);
            let held = if pairs.is_empty() { 0 } else { random.pick(&pairs).0 };
            let (some, wide, slot) = (random.below(spread), random.any_width(), random.below(65536));
            let reg = random.pick(&[held, some, 16, wide]);
            let slot = random.pick(&[slot, wide]);
            list.push(request(NONE, NONE, &format!("save {state} {reg} {slot}")));
            list.push(request(NONE, NONE, &format!("restore {state} {reg}")));
            list.extend([held, some, 16].map(|reg| request(NONE, NONE, &format!("slot {state} {reg}"))));
        }
    }
}

/// Register numbers and values of every width.
fn registers(list: &mut Vec<String>, arch: u64, random: &mut Random) {
    for width in 0..64 {
        let (value, file) = (random.word() >> width, File::random(arch, random).token());
        let spread = random.pick(&[18, 90, 65536]);
        let reg = random.below(spread);
        for operation in [
            format!("get {reg} {file}"),
            format!("set {reg} {value} {file}"),
            format!("set_sp {value} {file}"),
            format!("fp {file}"),
            format!("sp {file}"),
            format!("strip {value}"),
        ] {
            list.push(request(NONE, NONE, &operation));
        }
    }
}

/// Samples with one to three bytes changed, taken out, put in or put elsewhere.
pub fn damaged(arch: u64, random: &mut Random) -> Vec<String> {
    let mut list = Vec::new();
    for (make, largest) in functions(arch) {
        for _ in 0..240 {
            let size = random.below(largest.min(10) + 1);
            let mut sample = make(arch, size, random);
            let limit = sample.end();
            for _ in 0..1 + random.below(3) {
                damage(&mut sample.bytes, random);
            }
            list.push(sample.whole(limit, random));
        }
    }
    list
}

fn damage(bytes: &mut Vec<u8>, random: &mut Random) {
    if bytes.is_empty() {
        return;
    }
    let at = random.below(bytes.len() as u64) as usize;
    match random.below(7) {
        0 => bytes[at] ^= 1 << random.below(8),
        1 => bytes[at] = random.word() as u8,
        2 => bytes[at] = random.pick(&[0, 1, 2, 3, 0x7f, 0x80, 0xff]),
        3 => bytes[at] = bytes[at].wrapping_add(random.pick(&[1, 0xff])),
        4 => {
            bytes.remove(at);
        }
        5 => bytes.insert(at, random.word() as u8),
        _ => bytes.swap(at, 0),
    }
}

/// Samples in two ranges that touch, cut at every byte, in either order.
pub fn touching(arch: u64, random: &mut Random) -> Vec<String> {
    let mut list = Vec::new();
    for (make, largest) in functions(arch) {
        for size in 0..=largest.min(7) {
            let sample = make(arch, size, random);
            for at in 1..sample.bytes.len() {
                list.extend(sample.cut(at));
            }
        }
    }
    list
}

/// Samples beside ranges that are refused or just accepted, and at such bases; more pairs than a state holds.
pub fn openings(arch: u64, random: &mut Random) -> Vec<String> {
    let mut list = Vec::new();
    for (make, _) in functions(arch) {
        for size in 1..=3 {
            let sample = make(arch, size, random);
            let (base, end) = (sample.base, sample.end());
            for at in [0, 1, TOP, TOP + 1, u64::MAX, base - 1, base, base + 1, end - 1, end] {
                for count in [0, 1, 2, 9] {
                    list.extend(sample.beside((at, &vec![0; count])));
                }
            }
            list.extend([0, TOP, TOP + 1, 1 << 63, u64::MAX].map(|base| sample.moved(base)));
        }
    }
    let file = File::random(arch, random).token();
    for count in [31, 32, 33, 34, 255, 1 << 32, usize::MAX] {
        let state = state(random.below(2), random.below(4), count, &[]);
        let slot = random.below(3);
        for operation in [
            format!("apply {state} {file}"),
            format!("save {state} 3 {slot}"),
            format!("restore {state} 3"),
            format!("slot {state} 3"),
        ] {
            list.push(request(NONE, NONE, &operation));
        }
    }
    list
}
