//! Requests of large sizes: long programs and tables, many records, chunks far into the section, deep slots, wide numbers; states
//! that are full. Few of each, since they are recorded: where a case does not go by the architecture, each has cases of its own.
//! `large` has more and longer ones.

use crate::apply;
use crate::file::File;
use crate::handler;
use crate::handler2;
use crate::lookup::{self, Chunk};
use crate::memory::{NONE, request};
use crate::program::uleb;
use crate::step;

const SECTION: u64 = 0x1000;
const STACK: u64 = 0x10_0000;
const START: u64 = 0x9000;
const MAX: u64 = u64::MAX;
const WIDE: u64 = 1 << 32;

/// Five bytes without an end, then more: a reader that goes on has a number of its own to give.
const UNENDED: [&[u8]; 4] = [
    &[0x80, 0x80, 0x80, 0x80, 0x80, 0x00],
    &[0x85, 0x80, 0x80, 0x80, 0x80, 0x00],
    &[0x85, 0x80, 0x80, 0x80, 0x80, 0x80, 0x00],
    &[0xff, 0xff, 0xff, 0xff, 0x8f, 0x00],
];

fn end(bytes: &[u8]) -> u64 {
    SECTION + bytes.len() as u64
}

/// The whole section is what is read, or some bytes of it.
fn asked(list: &mut Vec<String>, bytes: &[u8], operation: &str) {
    list.push(request((SECTION, bytes), NONE, operation));
}

/// Five unended bytes with the limit just after them, and further on.
pub fn numbers(list: &mut Vec<String>) {
    for number in UNENDED {
        let bytes = [number, &[0x05, 0x00]].concat();
        for limit in [SECTION + 5, SECTION + 6, end(&bytes), end(&bytes) + 100, MAX] {
            asked(list, &bytes, &format!("uleb {SECTION} {limit}"));
        }
    }
}

/// A program of so many operations that is not refused: every fifth saves or restores, the others advance and set the units.
fn steady(size: u64) -> Vec<u8> {
    let mut bytes = Vec::new();
    for k in 0..size {
        match k % 5 {
            0 | 3 => bytes.push(0x01),
            1 => bytes.push(0x40 + (k % 61) as u8),
            2 => bytes.extend([0x80 + (k % 23) as u8, 1 + (k % 127) as u8]),
            _ => bytes.push(0xe0 + (k % 19) as u8),
        }
    }
    bytes
}

/// How far the first so many operations advance.
fn advanced(size: u64, unit: u64) -> u64 {
    unit * (0..size).filter(|k| [0, 3].contains(&(k % 5))).count() as u64
}

fn run(list: &mut Vec<String>, bytes: &[u8], off: u64) {
    asked(list, bytes, &format!("run {SECTION} {} {off}", end(bytes)));
}

/// Programs of more than 64 and more than 1,000 operations, up to END and up to the last advance.
pub fn programs(list: &mut Vec<String>, arch: u64) {
    let unit = if arch == 1 { 4 } else { 1 };
    for size in [64, 65, 66, 101, 257, 1001] {
        let ended = [&steady(size)[..], &[0x47, 0x00]].concat();
        let whole = advanced(size, unit);
        run(list, &ended, MAX);
        run(list, &ended, whole - 1);
        if size < 200 {
            run(list, &ended, whole);
            run(list, &ended[..ended.len() - 1], MAX);
        }
    }
    units(list);
    unended(list);
}

/// Units about 2^31 and 2^32 that stay to the end, from each operation that sets them.
fn units(list: &mut Vec<String>) {
    for head in [0xc0, 0xc1, 0xc2] {
        for units in [(1 << 31) - 1, 1 << 31, (1 << 31) + 1, 3 << 30, WIDE - 2, WIDE - 1, WIDE] {
            for off in [0, MAX] {
                run(list, &[&[0xc1, 0x03, head], &uleb(units)[..], &[0x00]].concat(), off);
            }
        }
    }
}

/// Five unended bytes as each number of an operation, with bytes to go on with.
fn unended(list: &mut Vec<String>) {
    for number in UNENDED {
        for head in [&[0x83][..], &[0xc0], &[0xc1], &[0xc2], &[0xc3], &[0xc4], &[0xc4, 0x03], &[0xc5]] {
            run(list, &[head, number, &[0x05, 0x00, 0x00]].concat(), MAX);
        }
    }
}

/// c9 and ca where 30, 31 and 32 registers are saved, fp and the return register among them or not; once more after a restore.
pub fn full_states(list: &mut Vec<String>, arch: u64) {
    let (fp, ra) = if arch == 1 { (0x1d, 0x1e) } else { (0x06, 0x10) };
    for count in [30, 31, 32] {
        for (with_fp, with_ra) in [(false, false), (true, false), (false, true), (true, true)] {
            let first = with_fp.then_some(fp).into_iter();
            let last = with_ra.then_some(ra).into_iter();
            let own = count - u8::from(with_fp) - u8::from(with_ra || arch == 2);
            let saves: Vec<u8> =
                first.chain((0..own).map(|k| 0x20 + k)).chain(last).flat_map(|reg| [0x80 + reg, 0x09]).collect();
            for operation in [0xc9, 0xca] {
                run(list, &[&saves[..], &[operation, 0x45, 0x00]].concat(), 0);
            }
            if count == 32 {
                run(list, &[&saves[..], &[0xc7, 0xe0 + fp, 0xe0 + ra, 0xc9, 0xc8, 0xca, 0x00]].concat(), 0);
            }
        }
    }
}

/// Chunks from offset 4,096 on: after padding, and after another chunk; a header there that is at fault.
pub fn lookups(list: &mut Vec<String>, arch: u64) {
    let rows = |start: u64| vec![lookup::row(start, 8, 60), lookup::row(start + 8, 4, 61)];
    let chunk = |version, start, rest| Chunk { arch, version, rows: rows(start), rest };
    let (version, other) = if arch == 1 { (1, 2) } else { (2, 1) };
    let padded = lookup::section(SECTION, &[(4096, chunk(version, START, 64))]);
    asked(list, &padded, &format!("lookup {}", START + 9));
    let before = chunk(version, START + 0x100, 4096);
    let mut second = lookup::section(SECTION, &[(0, before), (4, chunk(other, START, 64))]);
    asked(list, &second, &format!("lookup {START}"));
    if arch == 2 {
        let header = second.len() - 112;
        second[header + 5] = 1;
        asked(list, &second, &format!("lookup {START}"));
    }
    many_records(list, arch);
    far_programs(list, arch);
}

/// Chunks of 5 to 40 records and of 300: the first, a middle and the last one, edges and gaps.
fn many_records(list: &mut Vec<String>, arch: u64) {
    for (count, version) in [(5, 1), (5, 2), (8, arch), (13, 3 - arch), (21, arch), (40, 3 - arch), (300, arch)] {
        let (rows, starts) = spaced(count);
        let bytes = lookup::section(SECTION, &[(0, Chunk { arch, version: version as u8, rows, rest: 4 })]);
        let (middle, last) = (starts[starts.len() / 2 + 1], starts[starts.len() - 1]);
        let pcs = [middle + 1, START, middle - 1, middle, middle + 3, last, last + 3, last + 4];
        let few = if count == 300 { 1 } else { pcs.len() };
        for pc in &pcs[..few] {
            asked(list, &bytes, &format!("lookup {pc}"));
        }
    }
}

/// So many records of four bytes with a gap after each, and their starts.
fn spaced(count: u64) -> (Vec<lookup::Row>, Vec<u64>) {
    let starts: Vec<u64> = (0..count).map(|k| START + 5 * k).collect();
    (starts.iter().map(|start| lookup::row(*start, 4, 20)).collect(), starts)
}

/// Version 2 program offsets with one bit up to bit 30 above an offset inside the chunk.
fn far_programs(list: &mut Vec<String>, arch: u64) {
    for bit in [0, 8, 15, 16, 24, 29, 30] {
        for table in [0, 1 << 31] {
            let data = if bit == 0 { 28 | table } else { 28 | 1 << bit | table };
            let rows = vec![lookup::row(START, 8, data)];
            let bytes = lookup::section(SECTION, &[(0, Chunk { arch, version: 2, rows, rest: 8 })]);
            asked(list, &bytes, &format!("lookup {}", START + 1));
        }
    }
}

/// A stack of so many words, each another number, and where it ends.
fn words(count: u64) -> (Vec<u8>, u64) {
    ((1..=count).flat_map(u64::to_le_bytes).collect(), STACK + 8 * count)
}

/// Slots above 64 in the stack, and one just below it; the section above the stack and below it.
pub fn slots(list: &mut Vec<String>, arch: u64) {
    let (bytes, cfa) = words(100);
    let stack = (STACK, &bytes[..]);
    let saved = apply::saved(arch);
    let states = [
        (65, NONE, 0, 0),
        (66, (STACK - 9, &[7; 9][..]), 1, 4),
        (99, (cfa, &[7; 9][..]), 0, 4),
        (100, NONE, 1, 0),
        (101, NONE, 0, 0),
    ];
    for (deepest, section, fp, units) in states {
        let pairs = format!("{}:{deepest},{}:2,{}:1", saved[1], saved[2], apply::ra(arch));
        let file = File::new(arch).sp(cfa - 8 * units).fp(cfa - 8 * units).token();
        list.push(request(section, stack, &format!("apply {fp} {units} 3 {pairs} {file}")));
    }
    for (kind, param, order, mask) in [(1, 65, 1, 0x13), (1, 96, 0, 0x1f), (1, 97, 0, 0x1f), (2, 40, 1, 0x1f)] {
        let file = File::new(arch).sp(cfa - 16 * param.min(50)).fp(cfa - 16).token();
        list.push(request(NONE, stack, &format!("step {} 0 {file}", step::word(kind, order, mask, param))));
    }
}

/// A version 1 table of so many rows, their return offsets two apart from 4 on.
fn rows(count: u32) -> Vec<handler::Row> {
    (0..count).map(|k| (4 + 2 * k, if k % 3 == 2 { 0 } else { 1 + k % 5 }, k % 3)).collect()
}

/// Version 1 tables of 256 and more rows: rows on either side of the 256th, and a neighbour there that breaks the order.
pub fn tables(list: &mut Vec<String>, arch: u64) {
    let (count, index) = if arch == 1 { (256, 255) } else { (300, 256) };
    let mut table = rows(count);
    let ret = table[index].0;
    asked(list, &handler::table(&table), &format!("handler {SECTION} {ret}"));
    table[index - 1].0 = ret;
    asked(list, &handler::table(&table), &format!("handler {SECTION} {ret}"));
}

/// A version 2 table of so many rows, their deltas 1 to 3, and each row's offset.
fn rows2(count: u64) -> (Vec<(u64, u64)>, Vec<u64>) {
    let rows: Vec<(u64, u64)> = (0..count).map(|k| (1 + k % 3, [5, 8, 2, 9][k as usize % 4])).collect();
    let offsets = rows.iter().scan(0, |at, row| {
        *at += row.0;
        Some(*at)
    });
    let offsets = offsets.collect();
    (rows, offsets)
}

/// The whole section is the table.
fn table2(list: &mut Vec<String>, table: &[u8], ret: u64) {
    asked(list, table, &format!("handler2 {SECTION} {} {ret}", end(table)));
}

/// Version 2 tables of more than 100 and more than 1,000 rows: the last rows, none, and a delta of 0 late.
pub fn tables2(list: &mut Vec<String>, arch: u64) {
    for count in [100, 101, 127, 128] {
        let (rows, offsets) = rows2(count);
        let last = offsets[offsets.len() - 1];
        for ret in [offsets[offsets.len() - 2], last, last + 1] {
            table2(list, &handler2::table(&rows), ret);
        }
    }
    let (mut rows, offsets) = rows2(if arch == 1 { 1001 } else { 1040 });
    table2(list, &handler2::table(&rows), if arch == 1 { offsets[1000] } else { 9000 });
    rows[1000].0 = 0;
    table2(list, &handler2::table(&rows), offsets[999]);
    sums2(list);
    unended2(list);
}

/// Offsets from 2^31 on; sums of deltas past 2^32, where a later row would be at the return offset if they wrapped.
fn sums2(list: &mut Vec<String>) {
    for rows in [
        &[(1 << 31, 41), (1 << 30, 5), ((1 << 30) - 1, 12), (1, 9)][..],
        &[(5, 41), (WIDE - 1, 64), (6, 9)],
        &[(1 << 31, 41), (1 << 31, 64), ((1 << 31) + 5, 9)],
        &[(7, 41), (WIDE - 1, 64), (WIDE - 1, 5), (10, 9), (WIDE - 1, 12), (3, 9)],
    ] {
        let mut at = 0;
        for row in rows {
            at += row.0;
            for ret in [at - 1, at, at + 1] {
                table2(list, &handler2::table(rows), ret % WIDE);
            }
        }
    }
}

/// Five unended bytes as count, delta, word, and the delta after the match, with bytes to go on with.
fn unended2(list: &mut Vec<String>) {
    let around: [(&[u8], &[u8]); 4] =
        [(&[], &[0x05, 0x29]), (&[0x01], &[0x29, 0x29]), (&[0x01, 0x05], &[0x29]), (&[0x02, 0x05, 0x29], &[0x40])];
    for number in UNENDED {
        for (head, tail) in around {
            table2(list, &[head, number, tail].concat(), 5);
        }
    }
}

/// A call of the personality on a section, program and table at its base, with pc so far from the start.
fn reason(list: &mut Vec<String>, arch: u64, phase: u64, version: u64, bytes: &[u8], off: u64) {
    let record = format!("{START} {SECTION} {version} 0 {SECTION} {}", end(bytes));
    let file = File::new(arch).pc(START.wrapping_add(off)).token();
    asked(list, bytes, &format!("personality {phase} 77 0 {record} {file}"));
}

/// A large table of either version, and a long program before one.
pub fn reasons(list: &mut Vec<String>, arch: u64) {
    if arch == 1 {
        reason(list, arch, 2, 1, &handler::table(&rows(257)), 4 + 2 * 255);
    }
    for (operations, count, phases) in [(65, 101, &[1, 2][..]), (1001, 1001, &[2])] {
        let (rows, offsets) = rows2(count);
        let both = [&steady(operations)[..], &[0x00], &handler2::table(&rows)].concat();
        for phase in phases {
            reason(list, arch, *phase, 2, &both, offsets[offsets.len() - 1]);
        }
    }
    far_reasons(list, arch);
}

/// Return offsets from 2^31 on in either version, and rows at a sum past 2^32.
fn far_reasons(list: &mut Vec<String>, arch: u64) {
    let far = [(1 << 31) - 1, 1 << 31, 3 << 30, WIDE - 1];
    let one = handler::table(&far.map(|at| (at as u32, 16, 1)));
    let deltas = [far[0], 1, 1 << 30, (1 << 30) - 1];
    let two = [&[0x00], &handler2::table(&deltas.map(|delta| (delta, 65)))[..]].concat();
    for off in far.into_iter().flat_map(|at| [at, at - 1, at + WIDE]) {
        for (version, bytes) in [(1, &one), (2, &two)] {
            reason(list, arch, 1 + off % 2, version, bytes, off);
        }
    }
    let wraps = [&[0x00], &handler2::table(&[(5, 65), (WIDE - 1, 69), (6, 73)])[..]].concat();
    for off in [4, 5, 10, WIDE + 4, WIDE + 5, WIDE + 10] {
        reason(list, arch, 2, 2, &wraps, off);
    }
}
