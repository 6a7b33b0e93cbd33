//! Requests for `handler`: the rows of a version 1 table, found by halving.

use crate::memory::{NONE, Range, TOP, request};
use crate::random::Random;

const SECTION: u64 = 0x1000;
const STACK: u64 = 0x8000;
const MAX: u32 = u32::MAX;

/// Return offset, pad, action.
pub type Row = (u32, u32, u32);

const FOUR: [Row; 4] = [(5, 10, 1), (9, 16, 0), (13, 0, 2), (17, 300, 1)];

pub fn requests(random: &mut Random) -> Vec<String> {
    let mut list = Vec::new();
    sizes(&mut list);
    widths(&mut list);
    orders(&mut list);
    actions(&mut list);
    counts(&mut list);
    far(&mut list);
    cuts(&mut list);
    across(&mut list);
    gaps(&mut list);
    places(&mut list);
    for _ in 0..20 {
        list.push(random_case(random));
        list.push(damaged(random));
    }
    list
}

fn handler(section: Range, stack: Range, table: u64, ret: u32) -> String {
    request(section, stack, &format!("handler {table} {ret}"))
}

/// The whole section is the table.
fn plain(table: &[u8], ret: u32) -> String {
    handler((SECTION, table), NONE, SECTION, ret)
}

pub fn table(rows: &[Row]) -> Vec<u8> {
    counted(rows.len() as u32, rows)
}

/// A table that counts as many rows as it says.
fn counted(count: u32, rows: &[Row]) -> Vec<u8> {
    let words = rows.iter().flat_map(|row| [row.0, row.1, row.2]);
    std::iter::once(count).chain(words).flat_map(u32::to_le_bytes).collect()
}

/// A valid row; the return offset gives its pad and action.
pub fn valid(ret: u32) -> Row {
    let action = ret % 3;
    (ret, if action == 2 { 0 } else { ret / 2 + 1 }, action)
}

/// Each return offset, one below and above it, 0 and the largest.
fn every_edge(list: &mut Vec<String>, rows: &[Row]) {
    let table = table(rows);
    for (ret, _, _) in rows {
        let near = [ret.saturating_sub(1), *ret, ret.saturating_add(1)];
        list.extend(near.map(|ret| plain(&table, ret)));
    }
    list.extend([0, MAX].map(|ret| plain(&table, ret)));
}

fn sizes(list: &mut Vec<String>) {
    for count in [0, 1, 2, 3, 4, 7, 8, 20] {
        let rows: Vec<Row> = (0..count).map(|i| valid(4 + 2 * i)).collect();
        every_edge(list, &rows);
    }
}

/// Return offsets at the ends, about 2^31, and such as differ in the order of their bytes.
fn widths(list: &mut Vec<String>) {
    let tables: [&[u32]; 4] = [
        &[0, 1, 2, MAX - 1, MAX],
        &[1, 0x7fff_ffff, 0x8000_0000, 0xffff_0000],
        &[0xff, 0x100, 0x1_0000, 0x100_0000],
        &[0, MAX],
    ];
    for offsets in tables {
        let rows: Vec<Row> = offsets.iter().map(|ret| valid(*ret)).collect();
        every_edge(list, &rows);
    }
}

/// Every order of three return offsets, equal ones among them; some orders of four; some of invalid rows.
fn orders(list: &mut Vec<String>) {
    for n in 0..27 {
        let offsets = [5 + n % 3, 5 + n / 3 % 3, 5 + n / 9];
        list.extend(offsets.map(|ret| plain(&table(&offsets.map(valid)), ret)));
    }
    for offsets in [[5, 5, 6, 7], [5, 6, 6, 7], [5, 6, 7, 7], [8, 5, 6, 7], [5, 8, 6, 7]] {
        list.extend(offsets.map(|ret| plain(&table(&offsets.map(valid)), ret)));
    }
    for offsets in [[5, 5, 6], [5, 6, 6], [6, 6, 6], [7, 6, 8], [4, 6, 5], [7, 6, 5], [5, 6, 7]] {
        let rows = offsets.map(|ret| (ret, 0, ret % 2));
        list.extend([5, 6].map(|ret| plain(&table(&rows), ret)));
    }
}

/// Each action with pad 0 and above: alone, beside good neighbours, and beside one that breaks the order.
fn actions(list: &mut Vec<String>) {
    for action in [0, 1, 2, 3, 4, MAX] {
        for pad in [0, 1, MAX] {
            list.push(plain(&table(&[(5, pad, action)]), 5));
        }
        for row in [(5, 0, action), (5, 9, action)] {
            for (left, right) in [(1, 9), (5, 9), (1, 5)] {
                list.push(plain(&table(&[valid(left), row, valid(right)]), 5));
            }
        }
        list.push(plain(&table(&[(1, 7, 0), (5, 0, action), (9, 8, 1)]), 9));
    }
    for row in [(5, 9, 0x100), (5, 9, 0x1_0001), (5, 0, 0x102)] {
        list.push(plain(&table(&[row]), 5));
    }
}

/// Counts below and above the four rows that are there. A row past the count is no neighbour.
fn counts(list: &mut Vec<String>) {
    for count in [0, 1, 2, 3, 5, 6, 7, 8, 16, 0x8000_0000, MAX] {
        list.extend([5, 9, 17].map(|ret| plain(&counted(count, &FOUR), ret)));
    }
    let falling = [valid(5), valid(9), valid(9), valid(3)];
    for count in 1..=4 {
        list.extend([3, 5, 9].map(|ret| plain(&counted(count, &falling), ret)));
    }
}

/// Counts near 2^32, where the stack holds some of the three rows in the middle. With the last
/// count the second middle would be row 0 if its sum were taken modulo 2^32.
fn far(list: &mut Vec<String>) {
    for count in [MAX, 0x8000_0000, 0xaaaa_aaab] {
        let head = counted(count, &FOUR[..2]);
        let left = SECTION + 4 + 12 * (u64::from(count) / 2 - 1);
        for middle in [[12, 20, 28], [20, 20, 28], [12, 20, 20]] {
            let rows = &table(&middle.map(valid))[4..];
            for (from, to) in [(0, 36), (12, 36), (0, 24)] {
                let stack = (left + from as u64, &rows[from..to]);
                list.push(handler((SECTION, &head), stack, SECTION, 20));
            }
            list.push(handler((SECTION, &head), (left, rows), SECTION, 12));
        }
        let low = &table(&[1, 2, 3].map(valid))[4..];
        list.push(handler((SECTION, &head), (left, low), SECTION, 5));
    }
}

/// A table of three rows cut at every byte, and for the outer rows at every word.
fn cuts(list: &mut Vec<String>) {
    let table = table(&FOUR[..3]);
    for cut in 0..=table.len() {
        list.push(plain(&table[..cut], 9));
        if cut % 4 == 0 {
            list.extend([5, 13].map(|ret| plain(&table[..cut], ret)));
        }
    }
}

/// A table that runs from one range into the other: cut at every byte, and in either order at every word.
fn across(list: &mut Vec<String>) {
    let table = table(&FOUR[..2]);
    for cut in 0..=table.len() {
        let (head, tail) = table.split_at(cut);
        let next = SECTION + cut as u64;
        list.push(handler((SECTION, head), (next, tail), SECTION, 5));
        if cut % 4 == 0 {
            list.push(handler((next, tail), (SECTION, head), SECTION, 9));
        }
    }
}

/// One word of the table in neither range: it counts only where its row is looked at.
fn gaps(list: &mut Vec<String>) {
    let table = table(&FOUR);
    for gap in (0..table.len()).step_by(4) {
        let (head, tail) = (&table[..gap], &table[gap + 4..]);
        let next = SECTION + gap as u64 + 4;
        list.extend([5, 13, 17].map(|ret| handler((SECTION, head), (next, tail), SECTION, ret)));
    }
}

/// In the stack, behind other bytes, at the ends of the bases, and outside.
fn places(list: &mut Vec<String>) {
    let table = table(&FOUR[..2]);
    let behind = [&[0xff, 1, 2], &table[..]].concat();
    for ret in [6, 9] {
        list.push(handler((SECTION, &[7; 30]), (STACK, &table), STACK, ret));
        list.push(handler(NONE, (STACK, &table), STACK, ret));
        list.push(handler((SECTION, &behind), NONE, SECTION + 3, ret));
        list.push(handler((1, &table), (TOP, &table), 1, ret));
        list.push(handler((TOP, &table), (1, &table), TOP, ret));
        list.push(handler((1, &table), (TOP, &table), TOP, ret));
    }
    let ends = [SECTION, STACK].map(|base| [base - 4, base - 1, base + 1, base + 25, base + 28]);
    let aliases = [0, 1, SECTION + (1 << 32), SECTION + (1 << 63), 1 << 62, u64::MAX - 3, u64::MAX];
    for at in ends.into_iter().flatten().chain(aliases) {
        list.push(handler((SECTION, &table), (STACK, &table), at, 5));
    }
}

/// Up to eight rows, most of them rising and valid; a return offset near one of them.
fn random_table(random: &mut Random) -> (Vec<u8>, u32) {
    let (mut rows, mut at) = (Vec::new(), random.below(4) as u32);
    for _ in 0..random.below(9) {
        at += random.pick(&[0, 1, 1, 2, 3, 4, 300]);
        rows.push(if random.below(8) == 0 { (at, 0, random.below(4) as u32) } else { valid(at) });
    }
    let near = if rows.is_empty() { 0 } else { random.pick(&rows).0 };
    (table(&rows), near + random.pick(&[0, 0, 0, 1]))
}

/// In either range, or across both at a row's edge.
fn random_case(random: &mut Random) -> String {
    let (table, ret) = random_table(random);
    let base = random.pick(&[1, SECTION + 3, TOP - 100]);
    let cut = table.len() - 12 * random.below(table.len() as u64 / 12 + 1) as usize;
    let (low, high) = ((base, &table[..cut]), (base + cut as u64, &table[cut..]));
    match random.below(3) {
        0 => handler((base, &table), NONE, base, ret),
        1 => handler(low, high, base, ret),
        _ => handler(high, low, base, ret),
    }
}

/// A table with one to three bytes changed.
fn damaged(random: &mut Random) -> String {
    let (mut table, ret) = random_table(random);
    for _ in 0..1 + random.below(3) {
        let at = random.below(table.len() as u64) as usize;
        table[at] = random.pick(&[0, 1, 2, 3, 0xff, table[at].wrapping_add(1), table[at] ^ 8]);
    }
    plain(&table, ret)
}
