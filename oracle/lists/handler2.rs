//! Requests for `handler2`: the rows of a version 2 table, read one after the other.

use crate::memory::{NONE, Range, TOP, request};
use crate::program::uleb;
use crate::random::Random;

const SECTION: u64 = 0x1000;
const STACK: u64 = 0x2000;
const MAX: u64 = 0xffff_ffff;

/// Rows at 5, 8 and 12, the first delta padded: catch, cleanup, terminate.
const THREE: [u8; 9] = [0x03, 0x85, 0x00, 0x29, 0x03, 0xc0, 0x00, 0x04, 0x02];

/// Numbers padded, at the largest value and above it, and without end.
const NUMBERS: [&[u8]; 9] = [
    &[0x80, 0x00],
    &[0x85, 0x80, 0x80, 0x80, 0x00],
    &[0xff, 0xff, 0xff, 0xff, 0x0f],
    &[0x80, 0x80, 0x80, 0x80, 0x10],
    &[0xff, 0xff, 0xff, 0xff, 0x7f],
    &[0x80, 0x80, 0x80, 0x80, 0x80],
    &[0x85, 0x80, 0x80, 0x80, 0x80, 0x00],
    &[0xff, 0xff, 0xff, 0xff, 0xff, 0xff],
    &[0x85],
];

pub fn requests(random: &mut Random) -> Vec<String> {
    let mut list = Vec::new();
    sizes(&mut list);
    widths(&mut list);
    zeros(&mut list);
    actions(&mut list);
    counts(&mut list);
    numbers(&mut list);
    limits(&mut list);
    across(&mut list);
    places(&mut list);
    for _ in 0..18 {
        list.push(random_case(random));
        list.push(damaged(random));
    }
    list
}

fn handler2(section: Range, stack: Range, table: u64, limit: u64, ret: u64) -> String {
    request(section, stack, &format!("handler2 {table} {limit} {ret}"))
}

/// The whole section is the table.
fn plain(table: &[u8], ret: u64) -> String {
    handler2((SECTION, table), NONE, SECTION, SECTION + table.len() as u64, ret)
}

/// A table of rows, each its delta and its word: pad times 4 and action.
pub fn table(rows: &[(u64, u64)]) -> Vec<u8> {
    let numbers = rows.iter().flat_map(|row| [row.0, row.1]);
    std::iter::once(rows.len() as u64).chain(numbers).flat_map(uleb).collect()
}

/// The number in at least so many bytes.
fn padded(n: u64, width: usize) -> Vec<u8> {
    let mut bytes = uleb(n);
    while bytes.len() < width {
        *bytes.last_mut().expect("a number has a byte") |= 0x80;
        bytes.push(0);
    }
    bytes
}

/// Each row's offset, one below and above it, 0 and the largest.
fn every_edge(list: &mut Vec<String>, rows: &[(u64, u64)]) {
    let (table, mut at) = (table(rows), 0);
    for row in rows {
        at += row.0;
        list.extend([at - 1, at, at + 1].map(|ret| plain(&table, ret.min(MAX))));
    }
    list.extend([0, MAX].map(|ret| plain(&table, ret)));
}

/// 0 to 6 rows of all actions.
fn sizes(list: &mut Vec<String>) {
    let rows = [(5, 41), (3, 64), (4, 2), (1, 1200), (2, 5), (300, 4)];
    for count in 0..=6 {
        every_edge(list, &rows[..count]);
    }
}

/// Deltas and words of 1 to 5 bytes, padded and not; sums about 2^32.
fn widths(list: &mut Vec<String>) {
    for power in [7, 14, 21, 28] {
        for delta in [(1 << power) - 1, 1 << power] {
            let table = table(&[(delta, 4 * delta), (3, 41)]);
            list.extend([delta - 1, delta, delta + 3].map(|ret| plain(&table, ret)));
        }
    }
    every_edge(list, &[(MAX - 1, 41), (1, 64), (6, 68)]);
    every_edge(list, &[(MAX - 1, 41), (5, 64), (MAX - 3, 68)]);
    every_edge(list, &[(1 << 31, 41), ((1 << 31) - 1, 64), (MAX, 68)]);
    for width in 2..=5 {
        let numbers = [2, 5, 41, 3, 64].map(|n| padded(n, width)).concat();
        list.extend([4, 5, 8].map(|ret| plain(&numbers, ret)));
    }
}

/// Delta 0 in each place, padded too, beside invalid rows and with its word cut.
fn zeros(list: &mut Vec<String>) {
    let tables: [&[u8]; 13] = [
        &[0x01, 0x00, 0x29],
        &[0x02, 0x00, 0x29, 0x05, 0x29],
        &[0x02, 0x05, 0x29, 0x00, 0x40],
        &[0x03, 0x05, 0x29, 0x00, 0x40, 0x03, 0x40],
        &[0x03, 0x05, 0x29, 0x03, 0x40, 0x00, 0x40],
        &[0x02, 0x05, 0x29, 0x80, 0x80, 0x00, 0x40],
        &[0x02, 0x05, 0x01, 0x00, 0x40],
        &[0x02, 0x05, 0x2b, 0x00, 0x40],
        &[0x02, 0x05, 0x01, 0x03, 0x40],
        &[0x02, 0x05, 0x29, 0x00],
        &[0x02, 0x05, 0x29, 0x00, 0x80],
        &[0x01, 0x00],
        &[0x01, 0x05, 0x29, 0x00, 0x40],
    ];
    for table in tables {
        list.extend([4, 5, 6].map(|ret| plain(table, ret)));
    }
    // The same cut words, by the end of memory.
    for table in [tables[9], tables[10], tables[11]] {
        list.extend([5, 6].map(|ret| handler2((SECTION, table), NONE, SECTION, SECTION + 9, ret)));
    }
}

/// Each action with pads from 0 to the largest: alone, before a good row, and before delta 0.
fn actions(list: &mut Vec<String>) {
    for action in 0..4 {
        for pad in [0, 1, (1 << 30) - 1] {
            let word = 4 * pad + action;
            list.push(plain(&table(&[(5, word)]), 5));
            list.push(plain(&table(&[(5, word), (3, 4)]), 5));
            list.push(plain(&table(&[(5, word), (0, 4)]), 5));
        }
    }
}

/// Counts below and above the rows that are there: a row that answers is enough.
fn counts(list: &mut Vec<String>) {
    for count in [0, 1, 2, 4, 0x80, MAX] {
        let table = [&uleb(count), &THREE[1..]].concat();
        list.extend([5, 8, 12, 13].map(|ret| plain(&table, ret)));
    }
}

/// Each form of a number as count, delta, word, and the delta after the match.
fn numbers(list: &mut Vec<String>) {
    for number in NUMBERS {
        for (head, tail) in [
            (&[][..], &[0x05, 0x29][..]),
            (&[0x01], &[0x29]),
            (&[0x01, 0x05], &[]),
            (&[0x02, 0x05, 0x29], &[0x40]),
        ] {
            list.push(plain(&[head, number, tail].concat(), 5));
        }
    }
}

/// The limit at every byte of a table, and the memory's end at every byte before the limit.
fn limits(list: &mut Vec<String>) {
    let end = SECTION + THREE.len() as u64;
    for ret in [4, 5, 12] {
        for limit in (SECTION - 1..=end + 1).chain([0, u64::MAX]) {
            list.push(handler2((SECTION, &THREE), NONE, SECTION, limit, ret));
        }
        for cut in 0..THREE.len() {
            list.push(handler2((SECTION, &THREE[..cut]), NONE, SECTION, end, ret));
        }
    }
}

/// A table that runs from one range into the other: adjacent, or with a byte between.
fn across(list: &mut Vec<String>) {
    let end = SECTION + THREE.len() as u64;
    for cut in 0..=THREE.len() {
        let (head, tail) = THREE.split_at(cut);
        let next = SECTION + cut as u64;
        list.push(handler2((SECTION, head), (next, tail), SECTION, end, 8));
        list.push(handler2((next, tail), (SECTION, head), SECTION, end, 12));
        list.push(handler2((SECTION, head), (next + 1, tail), SECTION, end + 1, 5));
    }
}

/// In the stack, behind other bytes, at the ends of the bases, and outside.
fn places(list: &mut Vec<String>) {
    let len = THREE.len() as u64;
    let behind = [&[0xff, 0x80], &THREE[..]].concat();
    for ret in [5, 7] {
        list.push(handler2((SECTION, &[0x11]), (STACK, &THREE), STACK, STACK + len, ret));
        list.push(handler2((SECTION, &behind), NONE, SECTION + 2, SECTION + 2 + len, ret));
        list.push(handler2((TOP, &THREE), (1, &THREE), TOP, TOP + len, ret));
        list.push(handler2((TOP, &THREE), (1, &THREE), 1, 1 + len, ret));
    }
    let near = [SECTION - 1, SECTION + 1, SECTION + len, STACK + len];
    let aliases = [0, 1, SECTION + (1 << 32), SECTION + (1 << 63), TOP, u64::MAX];
    for at in near.into_iter().chain(aliases) {
        list.push(handler2((SECTION, &THREE), (STACK, &THREE), at, at, 5));
        list.push(handler2((SECTION, &THREE), (STACK, &THREE), at, u64::MAX, 5));
    }
}

/// Up to six rows, most of them good; a return offset near one of them.
fn random_table(random: &mut Random) -> (Vec<u8>, u64) {
    let (mut rows, mut at, mut offsets) = (Vec::new(), 0, vec![0]);
    for _ in 0..random.below(7) {
        let delta = random.pick(&[0, 1, 1, 2, 2, 3, 3, 4, 5, 130, 70_000]);
        at += delta;
        offsets.push(at);
        rows.push((delta, if random.below(5) == 0 { 2 } else { random.below(100) }));
    }
    (table(&rows), random.pick(&offsets) + random.pick(&[0, 0, 0, 1]))
}

/// In either range, or across both at any byte.
fn random_case(random: &mut Random) -> String {
    let (table, ret) = random_table(random);
    let len = table.len() as u64;
    let base = random.pick(&[1, SECTION, TOP - 64]);
    let (head, tail) = table.split_at(random.below(len + 1) as usize);
    let next = base + head.len() as u64;
    let limit = base + len + random.pick(&[0, 0, 0, 0, 3]);
    match random.below(3) {
        0 => handler2((base, &table), NONE, base, limit, ret),
        1 => handler2((base, head), (next, tail), base, limit, ret),
        _ => handler2((next, tail), (base, head), base, limit, ret),
    }
}

/// A table with one or two bytes changed.
fn damaged(random: &mut Random) -> String {
    let (mut table, ret) = random_table(random);
    for _ in 0..1 + random.below(2) {
        let at = random.below(table.len() as u64) as usize;
        table[at] = random.pick(&[0, 1, 3, 0x80, 0xff, table[at].wrapping_add(1), table[at] ^ 8]);
    }
    plain(&table, ret)
}
