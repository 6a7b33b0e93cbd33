//! Requests for state programs: run, save, restore.

use crate::memory::{NONE, Range, TOP, request};
use crate::random::Random;
use crate::sizes;

const SECTION: u64 = 0x1000;
const STACK: u64 = 0x2000;
const MAX: u64 = u64::MAX;

const REGISTERS: [u64; 18] = [
    0, 3, 6, 7, 16, 29, 30, 31, 63, 64, 71, 72, 79, 80, 65535, 65536, 65552, 0xffff_ffff,
];

/// Numbers as ULEB128: slots, registers, units and advances at their bounds, padded, too large, without end.
const NUMBERS: [&[u8]; 16] = [
    &[0x00],
    &[0x01],
    &[0x02],
    &[0x3f],
    &[0x40],
    &[0x7f],
    &[0x80, 0x00],
    &[0x80, 0x01],
    &[0x81, 0x80, 0x00],
    &[0xff, 0xff, 0x03],
    &[0x80, 0x80, 0x04],
    &[0x81, 0x80, 0x80, 0x80, 0x00],
    &[0xff, 0xff, 0xff, 0xff, 0x0f],
    &[0x80, 0x80, 0x80, 0x80, 0x10],
    &[0xff, 0xff, 0xff, 0xff, 0x1f],
    &[0x80, 0x80, 0x80, 0x80, 0x80],
];

pub fn requests(arch: u64, random: &mut Random) -> Vec<String> {
    let mut list = Vec::new();
    every_byte(&mut list);
    numbers(&mut list);
    pairs(&mut list);
    advances(&mut list);
    remembers(&mut list);
    full(&mut list);
    restores(&mut list);
    cuts(&mut list);
    places(&mut list);
    for _ in 0..250 {
        list.push(random_run(random));
    }
    saved_states(&mut list, random);
    sizes::programs(&mut list, arch);
    sizes::full_states(&mut list, arch);
    list
}

fn run(section: Range, stack: Range, program: u64, limit: u64, off: u64) -> String {
    request(section, stack, &format!("run {program} {limit} {off}"))
}

/// The whole section is the program.
fn plain(program: &[u8], off: u64) -> String {
    run((SECTION, program), NONE, SECTION, SECTION + program.len() as u64, off)
}

pub fn uleb(mut n: u64) -> Vec<u8> {
    let mut bytes = Vec::new();
    while n >= 0x80 {
        bytes.push(n as u8 | 0x80);
        n >>= 7;
    }
    bytes.push(n as u8);
    bytes
}

/// Every first byte, with numbers to follow, alone, and after two saves and a remember.
fn every_byte(list: &mut Vec<String>) {
    for byte in 0..=255 {
        list.push(plain(&[byte, 0x03, 0x02, 0x45, 0x00], MAX));
        list.push(plain(&[0x83, 0x04, 0x90, 0x05, 0xc7, 0x42, byte, 0x06, 0x10, 0x00], 5));
    }
}

/// Each operation that takes a number, at the bounds of the number.
fn numbers(list: &mut Vec<String>) {
    for number in NUMBERS {
        for head in [&[0x83][..], &[0xc0], &[0xc1], &[0xc2], &[0xc3], &[0xc4], &[0xc4, 0x03], &[0xc5]] {
            let mut program = head.to_vec();
            program.extend(number);
            if head == [0xc4] {
                program.push(0x07);
            }
            program.extend([0x49, 0x00]);
            list.push(plain(&program, 0));
            if head == [0xc3] {
                list.extend([1, 127, 128, 4 * 127, 0xffff_ffff, MAX].map(|off| plain(&program, off)));
            }
        }
    }
}

/// Registers and slots at their bounds, and what a restore of the register leaves.
fn pairs(list: &mut Vec<String>) {
    for reg in REGISTERS {
        for slot in [0, 1, 65535, 65536] {
            let mut program = vec![0xc4];
            program.extend(uleb(reg));
            program.extend(uleb(slot));
            program.extend([0x86, 0x02]);
            program.push(0x00);
            list.push(plain(&program, 0));
        }
        let mut program = vec![0x83, 0x04, 0x8c, 0x05, 0xc4];
        program.extend(uleb(reg % 65536));
        program.extend([0x06, 0x8d, 0x07, 0xc5]);
        program.extend(uleb(reg));
        program.push(0x00);
        list.push(plain(&program, 0));
    }
}

/// Offsets around every sum of the advances, in bytes and in units of 4.
fn advances(list: &mut Vec<String>) {
    let programs: [&[u8]; 7] = [
        &[0x02, 0xc9, 0x04, 0x00],
        &[0x41, 0x01, 0x42, 0x02, 0x43, 0xc3, 0x00, 0x44, 0x03, 0x45, 0x00],
        &[0xc3, 0x80, 0x01, 0x83, 0x02, 0x3f, 0x84, 0x02, 0x00],
        &[0xc3, 0xff, 0xff, 0xff, 0xff, 0x0f, 0x42, 0x01, 0x43, 0x00],
        &[0xc3, 0xff, 0xff, 0xff, 0xff, 0x0f, 0xc3, 0xff, 0xff, 0xff, 0xff, 0x0f, 0x42, 0x00],
        &[0x90, 0x05, 0xf0, 0x01, 0x00],
        &[0x01, 0xcb],
    ];
    for program in programs {
        let sums: [u64; 9] = [0, 1, 2, 3, 6, 128, 191, 0xffff_ffff, 0x1_0000_0000];
        for sum in sums {
            for off in [sum.saturating_sub(1), sum, (4 * sum).saturating_sub(1), 4 * sum] {
                list.push(plain(program, off));
            }
        }
        list.push(plain(program, 1 << 63));
        list.push(plain(program, MAX));
    }
}

/// Every depth of remember and recall, each state another one.
fn remembers(list: &mut Vec<String>) {
    for kept in 0..=5u8 {
        for recalled in 0..=5u8 {
            let mut program = Vec::new();
            for k in 0..kept {
                program.extend([0x41 + k, 0x80 + k, 0x02 + k, 0xc7]);
            }
            program.extend([0xc6, 0x7f]);
            program.extend((0..recalled).map(|_| 0xc8));
            program.push(0x00);
            list.push(plain(&program, 0));
        }
    }
    list.push(plain(&[0xc7, 0x83, 0x02, 0x84, 0x03, 0xc8, 0x85, 0x04, 0x00], 0));
    list.push(plain(&[0x83, 0x02, 0xc7, 0xe3, 0xc8, 0xc7, 0xc8, 0x00], 0));
}

/// Around 32 pairs: one more, one again, one less, and the entry state.
fn full(list: &mut Vec<String>) {
    for count in 29..=34u8 {
        let mut program = Vec::new();
        for reg in 0..count {
            program.extend([0x80 + reg, reg + 1]);
        }
        for tail in [&[0x00][..], &[0x85, 0x7f, 0x00], &[0xe5, 0xbf, 0x01, 0x00], &[0xf0, 0x00], &[0xca, 0x00], &[0xc9, 0x00], &[
            0xc6, 0x00,
        ]] {
            let mut program = program.clone();
            program.extend(tail);
            list.push(plain(&program, 0));
        }
    }
}

/// A restore of each pair, of one that is not there, and of one that was removed.
fn restores(list: &mut Vec<String>) {
    let saves = [0x83, 0x02, 0x86, 0x03, 0x8c, 0x04, 0x8d, 0x05, 0x9e, 0x06];
    for first in [0xe3, 0xe6, 0xec, 0xed, 0xfe, 0xf0, 0xe0, 0xff] {
        for second in [0xe3, 0xe6, 0xec, 0xed, 0xfe, 0xf0, 0x00] {
            let mut program = saves.to_vec();
            program.extend([first, second, 0x00]);
            list.push(plain(&program, 0));
        }
    }
}

/// A program cut by the limit, by the end of memory, and by the border between section and stack.
fn cuts(list: &mut Vec<String>) {
    let program: &[u8] = &[0x42, 0xc4, 0x83, 0x80, 0x00, 0x84, 0x01, 0x02, 0xc7, 0xc9, 0xc8, 0xc3, 0x85, 0x00, 0xc5, 0x83, 0x00, 0x00];
    let end = SECTION + program.len() as u64;
    for limit in (SECTION - 1..=end + 2).chain([0, 1, MAX]) {
        list.push(run((SECTION, program), NONE, SECTION, limit, MAX));
        list.push(run((SECTION, program), (end, &[0x11, 0x00]), SECTION, limit, 6));
    }
    for cut in 0..=program.len() {
        let (head, tail) = program.split_at(cut);
        let next = SECTION + cut as u64;
        list.push(run((SECTION, head), NONE, SECTION, end, MAX));
        list.push(run((SECTION, head), (next, tail), SECTION, end, MAX));
        list.push(run((next, tail), (SECTION, head), SECTION, end, MAX));
        list.push(run((SECTION, head), (next + 1, tail), SECTION, end + 1, 1));
        list.push(run((SECTION, &program[..cut]), (next, tail), SECTION, next, MAX));
    }
}

/// Program 0, and programs in the stack, at the largest base, behind other bytes, and nowhere.
fn places(list: &mut Vec<String>) {
    let program: &[u8] = &[0x01, 0xc9, 0x00];
    for off in [0, 1, 3, 4, MAX] {
        list.push(run((SECTION, program), NONE, 0, 0, off));
        list.push(run((SECTION, program), NONE, 0, SECTION + 3, off));
        list.push(run(NONE, (STACK, program), STACK, STACK + 3, off));
        list.push(run((SECTION, &[0xcb, 0x01, 0xc9, 0x00, 0x77]), (STACK, program), SECTION + 1, SECTION + 5, off));
        list.push(run((TOP, program), (TOP - 3, &[1, 2, 3]), TOP, TOP + 3, off));
        list.push(run((TOP, program), (TOP - 2, &[0x41, 0x42]), TOP - 2, TOP + 3, off));
        list.push(run((TOP - 3, program), (TOP, &[0x00]), TOP - 3, MAX, off));
        list.push(run((1, program), (5, &[0x00]), 1, 4, off));
    }
    for at in [1, SECTION - 1, SECTION + 3, STACK + 3, TOP, 1 << 63, MAX - 1, MAX] {
        list.push(run((SECTION, program), (STACK, program), at, at, 0));
        list.push(run((SECTION, program), (STACK, program), at, MAX, 0));
    }
}

/// Up to 24 operations, most of them complete, in either range or across both.
fn random_run(random: &mut Random) -> String {
    let mut program = Vec::new();
    for _ in 0..random.below(24) {
        operation(random, &mut program);
    }
    if random.below(8) > 0 {
        program.push(0x00);
    }
    let len = program.len() as u64;
    let (head, tail) = program.split_at(random.below(len + 1) as usize);
    let next = SECTION + head.len() as u64;
    let limit = SECTION + len - random.pick(&[0, 0, 0, 0, 0, 1, 2]).min(len);
    let off = random.pick(&[0, 3, 8, 20, 60, 200, 1000, 0xffff_ffff, MAX]) ^ random.below(2);
    match random.below(3) {
        0 => run((SECTION, &program), NONE, SECTION, limit, off),
        1 => run((SECTION, head), (next, tail), SECTION, limit, off),
        _ => run((next, tail), (SECTION, head), SECTION, limit, off),
    }
}

pub fn operation(random: &mut Random, program: &mut Vec<u8>) {
    let reg = random.pick(&[0, 3, 6, 12, 16, 29, 30, 31, 63]);
    let slot = random.pick(&[1, 2, 3, 4, 5, 127, 128, 65535]);
    match random.below(14) {
        0 => program.push(1 + random.below(12) as u8),
        1 => program.push(0x40 + random.below(64) as u8),
        2..=4 => {
            program.push(0x80 + reg as u8);
            program.extend(uleb(slot));
        }
        5 => {
            program.push(0xc0 + random.below(4) as u8);
            program.extend(uleb(random.below(300)));
        }
        6 => {
            program.push(0xc4);
            program.extend(uleb(random.pick(&REGISTERS[..15])));
            program.extend(uleb(slot));
        }
        7 => {
            program.push(0xc5);
            program.extend(uleb(random.pick(&REGISTERS)));
        }
        8 => program.push(0xc6),
        9 => program.push(0xc7),
        10 => program.push(random.pick(&[0xc7, 0xc8])),
        11 => program.push(0xc9 + random.below(2) as u8),
        12 => program.push(0xe0 + (reg % 32) as u8),
        _ => program.push(if random.below(6) == 0 { random.below(256) as u8 } else { 0x02 }),
    }
}

/// So many operations of which none is refused.
pub fn accepted(size: u64, random: &mut Random, program: &mut Vec<u8>) {
    let mut depth = 0;
    for _ in 0..size {
        let reg = random.pick(&[0, 3, 6, 12, 16, 29, 30, 31, 63]);
        match random.below(9) {
            0 => program.push(1 + random.below(63) as u8),
            1 => program.push(0x40 + random.below(64) as u8),
            2 => program.extend([0x80 + reg, 1 + random.below(127) as u8]),
            3 => program.extend([&[0xc4, reg][..], &uleb(1 + random.below(65535))].concat()),
            4 => program.extend([&[0xc0 + random.below(4) as u8][..], &uleb(random.any_width() >> 32)].concat()),
            5 => program.push(0xe0 + reg % 32),
            6 if depth < 4 => {
                program.push(0xc7);
                depth += 1;
            }
            7 if depth > 0 => {
                program.push(0xc8);
                depth -= 1;
            }
            _ => program.push(random.pick(&[0xc6, 0xc9, 0xca])),
        }
    }
}

/// Base, units, count, and pairs that may go on past the count.
pub fn state(fp: u64, units: u64, count: usize, pairs: &[(u64, u64)]) -> String {
    let written: Vec<String> = pairs.iter().map(|(reg, slot)| format!("{reg}:{slot}")).collect();
    let pairs = if written.is_empty() { "-".to_string() } else { written.join(",") };
    format!("{fp} {units} {count} {pairs}")
}

/// Saves, restores and slots of states with leftovers past the count, with a register twice, and with 31 and 32 pairs.
fn saved_states(list: &mut Vec<String>, random: &mut Random) {
    let bounds = [(16, 1), (30, 2), (31, 3), (71, 4), (72, 5), (79, 6), (80, 7), (65535, 65535)];
    let many = |n: u64| -> Vec<(u64, u64)> { (0..n).map(|k| (k, k + 1)).collect() };
    let other = |n: u64| -> Vec<(u64, u64)> { (0..n).map(|k| (100 + k, 65535 - k)).collect() };
    let twice = [(3, 1), (16, 9), (3, 2), (16, 8), (30, 4)];
    let states = [
        state(0, 0, 0, &[]),
        state(0, 1, 1, &[(16, 1)]),
        state(1, 2, 2, &[(16, 1), (6, 2), (80, 3), (30, 4)]),
        state(1, 0xffff_ffff, 8, &bounds),
        state(0, 7, 4, &bounds),
        state(0, 7, 5, &twice),
        state(0, 7, 2, &[(0, 0), (16, 0), (0, 0), (16, 3)]),
        state(1, 3, 31, &many(32)),
        state(0, 3, 32, &many(32)),
        state(0, 3, 32, &other(32)),
        state(0, 3, 31, &other(31)),
    ];
    let registers = [0, 3, 16, 30, 31, 71, 72, 79, 80, 65535, 65536, 65552, 1 << 32, MAX];
    for state in &states {
        for reg in registers {
            list.push(asked(&format!("save {state} {reg} 65535")));
            list.push(asked(&format!("restore {state} {reg}")));
        }
        for reg in registers.into_iter().filter(|reg| *reg < 65536) {
            list.push(asked(&format!("slot {state} {reg}")));
        }
        for slot in [0, 1, 65534, 65536, MAX] {
            list.push(asked(&format!("save {state} 16 {slot}")));
            list.push(asked(&format!("save {state} 65536 {slot}")));
        }
    }
    for _ in 0..40 {
        let written = random.below(33);
        let count = random.below(written + 1);
        let pairs: Vec<(u64, u64)> = (0..written).map(|_| (random.below(40), random.below(65536))).collect();
        let state = state(random.below(2), random.below(1 << 32), count as usize, &pairs);
        let reg = random.below(40);
        list.push(asked(&format!("save {state} {reg} {}", random.below(65540))));
        list.push(asked(&format!("restore {state} {reg}")));
        list.push(asked(&format!("slot {state} {reg}")));
    }
}

/// A request that reads no memory.
fn asked(operation: &str) -> String {
    request(NONE, NONE, operation)
}
