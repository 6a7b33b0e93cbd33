//! Every short input of each function: all bytes, numbers and words up to a small bound. Too many to record; `host/compare`
//! asks them.

use std::iter::once;

use crate::file::File;
use crate::handler::{self, Row};
use crate::lookup::{self, Chunk};
use crate::memory::{NONE, Range, request};
use crate::program::state;
use crate::step;

const SECTION: u64 = 0x1000;
const STACK: u64 = 0x8000;
const START: u64 = 0x5000;
const MAX: u64 = u64::MAX;

pub fn requests(arch: u64) -> Vec<String> {
    let mut list = Vec::new();
    numbers(&mut list);
    programs(&mut list);
    tables(&mut list);
    tables_changed(&mut list);
    tables2(&mut list);
    sections(&mut list, arch);
    sections_changed(&mut list, arch);
    states(&mut list, arch);
    frames(&mut list, arch);
    registers(&mut list, arch);
    addresses(&mut list);
    reasons(&mut list, arch);
    reasons2(&mut list, arch);
    list
}

fn section(bytes: &[u8]) -> Range<'_> {
    (SECTION, bytes)
}

fn end(bytes: &[u8]) -> u64 {
    SECTION + bytes.len() as u64
}

/// All strings of two bytes.
fn two_bytes() -> impl Iterator<Item = [u8; 2]> {
    (0..=u16::MAX).map(u16::to_be_bytes)
}

/// All strings of up to two bytes.
fn up_to_two() -> impl Iterator<Item = Vec<u8>> {
    let one = (0..=255).map(|byte| vec![byte]);
    once(Vec::new()).chain(one).chain(two_bytes().map(|bytes| bytes.to_vec()))
}

/// Up to two bytes, cut by the limit and by the memory's end; every first and fifth byte of five.
fn numbers(list: &mut Vec<String>) {
    for bytes in up_to_two() {
        let limit = end(&bytes);
        list.push(request(section(&bytes), NONE, &format!("uleb {SECTION} {limit}")));
        list.push(request(NONE, section(&bytes), &format!("uleb {SECTION} {}", limit + 1)));
    }
    for (first, byte) in two_bytes().map(|[first, byte]| (first | 0x80, byte)) {
        let bytes = [first, 0x80, 0xff, 0x80, byte];
        list.push(request(section(&bytes), NONE, &format!("uleb {SECTION} {}", end(&bytes))));
    }
}

/// Up to two bytes as a whole program, before END, and between other operations and END.
fn programs(list: &mut Vec<String>) {
    let mut run = |bytes: &[u8], off: u64| {
        list.push(request(section(bytes), NONE, &format!("run {SECTION} {} {off}", end(bytes))));
    };
    for bytes in up_to_two() {
        run(&bytes, 0);
        let ended = [&bytes, &[0x00][..]].concat();
        run(&ended, 1);
        run(&ended, MAX);
        run(&[&[0x83, 0x02, 0x90, 0x05, 0xc7, 0x43, 0x83, 0x04], &ended[..]].concat(), MAX);
    }
}

/// Every way to choose so many of the choices.
fn each_of<T: Copy>(count: usize, choices: &[T]) -> Vec<Vec<T>> {
    let mut all = vec![Vec::new()];
    for _ in 0..count {
        all = all.iter().flat_map(|made| choices.iter().map(|one| [&made[..], &[*one]].concat())).collect();
    }
    all
}

/// One or two rows of small words, up to four of small return offsets; 0 to 3 bytes.
fn tables(list: &mut Vec<String>) {
    let words: Vec<Row> = (0..24).map(|n| (n % 3, n / 3 % 2, n / 6)).collect();
    let offsets: Vec<Row> = (0..6).map(|n| (n % 3, n / 3, 1)).collect();
    let mut rows: Vec<Vec<Row>> = (0..=2).flat_map(|count| each_of(count, &words)).collect();
    rows.extend((3..=4).flat_map(|count| each_of(count, &offsets)));
    let tables = rows.iter().map(|rows| handler::table(rows));
    for table in tables.chain((0..=3).map(|count| vec![1; count])) {
        for ret in 0..4 {
            list.push(request(section(&table), NONE, &format!("handler {SECTION} {ret}")));
        }
    }
}

/// A table of three rows with each byte changed to every other.
fn tables_changed(list: &mut Vec<String>) {
    let good = handler::table(&[(5, 10, 1), (9, 16, 0), (13, 0, 2)]);
    for at in 0..good.len() {
        for byte in 0..=255 {
            let mut table = good.clone();
            table[at] = byte;
            for ret in [5, 9, 13] {
                list.push(request(section(&table), NONE, &format!("handler {SECTION} {ret}")));
            }
        }
    }
}

/// Up to two bytes as a table; every row of two bytes; every byte as the delta after a row.
fn tables2(list: &mut Vec<String>) {
    let mut ask = |bytes: &[u8], ret: u64| {
        list.push(request(section(bytes), NONE, &format!("handler2 {SECTION} {} {ret}", end(bytes))));
    };
    for bytes in up_to_two() {
        ask(&bytes, 1);
    }
    for [delta, word] in two_bytes() {
        ask(&[0x01, delta, word], u64::from(delta));
    }
    for delta in 0..=255 {
        for ret in [5, 5 + u64::from(delta)] {
            ask(&[0x02, 0x05, 0x29, delta], ret);
            ask(&[0x02, 0x05, 0x29, delta, 0x40], ret);
        }
    }
}

/// Up to three records of small starts and lengths, in either version; up to 20 bytes, equal ones.
fn sections(list: &mut Vec<String>, arch: u64) {
    let choices: Vec<(u64, u32)> = (0..12).map(|n| (START + n % 4, n as u32 / 4)).collect();
    for chosen in (0..=3).flat_map(|count| each_of(count, &choices)) {
        for version in [1, 2] {
            let rows = chosen.iter().map(|(start, len)| lookup::row(*start, *len, 0)).collect();
            let bytes = lookup::section(SECTION, &[(0, Chunk { arch, version, rows, rest: 4 })]);
            for pc in START - 1..START + 6 {
                list.push(request(section(&bytes), NONE, &format!("lookup {pc}")));
            }
        }
    }
    for count in 0..=20 {
        for byte in 0..=255 {
            list.push(request(section(&vec![byte; count]), NONE, &format!("lookup {START}")));
        }
    }
}

/// A chunk of each version with each byte changed to every other.
fn sections_changed(list: &mut Vec<String>, arch: u64) {
    let rows = |start| vec![lookup::row(start, 8, 40), lookup::row(start + 8, 4, 44)];
    let chunk = |version, start| (0, Chunk { arch, version, rows: rows(start), rest: 8 });
    let good = lookup::section(SECTION, &[chunk(1, START), chunk(2, START + 32)]);
    for at in 0..good.len() {
        for byte in 0..=255 {
            let mut bytes = good.clone();
            bytes[at] = byte;
            for pc in [START + 8, START + 40] {
                list.push(request(section(&bytes), NONE, &format!("lookup {pc}")));
            }
        }
    }
}

/// Registers, slots and units from 0 to 300, and every place of the stack pointer.
fn states(list: &mut Vec<String>, arch: u64) {
    let stack: Vec<u8> = (1..=64).collect();
    let file = File::new(arch).sp(STACK + 48).fp(STACK + 48);
    let mut apply = |fp: u64, units: u64, pair: (u64, u64), file: &File| {
        let operation = format!("apply {} {}", state(fp, units, 1, &[pair]), file.token());
        list.push(request(NONE, (STACK, &stack), &operation));
    };
    for n in 0..=300 {
        for fp in [0, 1] {
            (1..=3).for_each(|slot| apply(fp, 2, (n, slot), &file));
            apply(fp, 2, (3, n), &file);
            apply(fp, n, (3, n), &file);
            let moved = File::new(arch).sp(STACK - 100 + n).fp(STACK - 100 + n);
            (1..=3).for_each(|slot| apply(fp, 1, (3, slot), &moved));
        }
    }
    let full: Vec<(u64, u64)> = (0..32).map(|n| (8 * n, n + 1)).collect();
    for (count, n) in [0, 1, 31, 32].into_iter().flat_map(|count| (0..=300).map(move |n| (count, n))) {
        let state = state(0, 1, count, &full);
        for operation in [
            format!("save {state} {n} 7"),
            format!("save {state} 8 {n}"),
            format!("restore {state} {n}"),
            format!("slot {state} {n}"),
        ] {
            list.push(request(NONE, NONE, &operation));
        }
    }
}

/// Every kind and order, with params of up to 5 and masks of few bits.
fn frames(list: &mut Vec<String>, arch: u64) {
    let stack: Vec<u8> = (1..=200).collect();
    let file = File::new(arch).sp(STACK + 96).fp(STACK + 160).token();
    let few = |mask: &u64| if arch == 1 { mask.count_ones() <= 2 } else { *mask < 64 };
    for mask in (0..1 << 18).filter(few) {
        for n in 0..4 * 2 * 6 {
            let frame = step::word(n % 4, n / 4 % 2, mask, n / 8);
            for first in [0, 1] {
                list.push(request(NONE, (STACK, &stack), &format!("step {frame} {first} {file}")));
            }
        }
    }
}

/// Register numbers from 0 to 300, and of one or two bits.
fn registers(list: &mut Vec<String>, arch: u64) {
    let file = File::new(arch).token();
    for reg in (0..=300).chain(few_bits(16)) {
        list.push(request(NONE, NONE, &format!("get {reg} {file}")));
        list.push(request(NONE, NONE, &format!("set {reg} 99 {file}")));
    }
}

/// Numbers with one or two bits of so many.
fn few_bits(width: u32) -> impl Iterator<Item = u64> {
    (0..width).flat_map(|high| (0..=high).map(move |low| 1 << high | 1 << low))
}

/// Addresses with one or two bits, or all but those.
fn addresses(list: &mut Vec<String>) {
    for addr in few_bits(64).flat_map(|addr| [addr, !addr]).chain([0, MAX]) {
        list.push(request(NONE, NONE, &format!("strip {addr}")));
    }
}

/// A call of the personality on bytes that are program and table at once, with pc so far from the start.
fn reason(list: &mut Vec<String>, phase: u64, bytes: &[u8], version: u64, off: u64, file: &File) {
    let record = format!("{START} {SECTION} {version} 0 {SECTION} {}", end(bytes));
    let file = file.clone().pc(START.wrapping_add(off)).token();
    list.push(request(section(bytes), NONE, &format!("personality {phase} 77 0 {record} {file}")));
}

/// Every version, and every offset from 0 to 300, in both phases.
fn reasons(list: &mut Vec<String>, arch: u64) {
    let (table, file) = (handler::table(&[(5, 10, 1), (9, 16, 0), (13, 0, 2), (299, 1, 1)]), File::new(arch));
    let program = [0x02, 0xc9, 0x00, 0x03, 0x05, 0x29, 0x04, 0x40, 0x04, 0x02];
    for phase in [1, 2] {
        for n in 0..=300 {
            reason(list, phase, &table, 1, n, &file);
            reason(list, phase, &program, 2, n, &file);
            reason(list, phase, &table, n.min(255), 5, &file);
            reason(list, phase, &program, n.min(255), 5, &file);
        }
    }
}

/// Every program of two bytes before END and a row; every row of two bytes after END.
fn reasons2(list: &mut Vec<String>, arch: u64) {
    let file = File::new(arch);
    for [first, second] in two_bytes() {
        reason(list, 2, &[first, second, 0x00, 0x01, 0x05, 0x29], 2, 5, &file);
        reason(list, 1 + u64::from(second % 2), &[0x00, 0x01, first, second], 2, u64::from(first), &file);
    }
}
