//! Requests for the number reader.

use crate::memory::{NONE, Range, TOP, request};
use crate::random::Random;

const SECTION: u64 = 0x1000;
const STACK: u64 = 0x2000;

/// Shortest, padded, largest, too large and endless numbers.
const FORMS: [&[u8]; 24] = [
    &[0x00],
    &[0x01],
    &[0x7f],
    &[0x80, 0x00],
    &[0x80, 0x01],
    &[0xb9, 0x64],
    &[0xff, 0x7f],
    &[0x80, 0x80, 0x00],
    &[0xff, 0xff, 0x7f],
    &[0x80, 0x80, 0x80, 0x00],
    &[0xff, 0xff, 0xff, 0x7f],
    &[0x80, 0x80, 0x80, 0x80, 0x00],
    &[0x81, 0x80, 0x80, 0x80, 0x00],
    &[0x80, 0x80, 0x80, 0x80, 0x01],
    &[0x80, 0x80, 0x80, 0x80, 0x0f],
    &[0xff, 0xff, 0xff, 0xff, 0x0f],
    &[0x80, 0x80, 0x80, 0x80, 0x10],
    &[0xff, 0xff, 0xff, 0xff, 0x10],
    &[0xff, 0xff, 0xff, 0xff, 0x1f],
    &[0xff, 0xff, 0xff, 0xff, 0x7f],
    &[0x80, 0x80, 0x80, 0x80, 0x80],
    &[0xff, 0xff, 0xff, 0xff, 0x8f],
    &[0x80, 0x80, 0x80, 0x80, 0x80, 0x00],
    &[0xff, 0xff, 0xff, 0xff, 0xff, 0x7f],
];

pub fn requests(random: &mut Random) -> Vec<String> {
    let mut list = Vec::new();
    every_byte(&mut list);
    for form in FORMS {
        limits(&mut list, form);
        memory_ends(&mut list, form);
        across(&mut list, form);
        places(&mut list, form);
    }
    corners(&mut list);
    for _ in 0..300 {
        list.push(random_case(random));
    }
    list
}

fn uleb(section: Range, stack: Range, pos: u64, limit: u64) -> String {
    request(section, stack, &format!("uleb {pos} {limit}"))
}

fn every_byte(list: &mut Vec<String>) {
    for byte in 0..=255 {
        list.push(uleb((SECTION, &[byte]), NONE, SECTION, SECTION + 1));
    }
}

/// The limit cuts the number at every length, lies below it and beyond the memory.
fn limits(list: &mut Vec<String>, form: &[u8]) {
    let near = SECTION - 1..=SECTION + 6;
    for limit in near.chain([0, 1, SECTION + 100, u64::MAX]) {
        list.push(uleb((SECTION, form), NONE, SECTION, limit));
    }
}

/// The memory ends within the number at every length, before the limit.
fn memory_ends(list: &mut Vec<String>, form: &[u8]) {
    for cut in 0..=form.len() {
        list.push(uleb((SECTION, &form[..cut]), (STACK, &[5]), SECTION, SECTION + 7));
    }
}

/// The number runs from one range into the other: adjacent, or with a byte between.
fn across(list: &mut Vec<String>, form: &[u8]) {
    let limit = SECTION + form.len() as u64;
    for cut in 0..=form.len() {
        let (head, tail) = form.split_at(cut);
        let next = SECTION + cut as u64;
        list.push(uleb((SECTION, head), (next, tail), SECTION, limit));
        list.push(uleb((next, tail), (SECTION, head), SECTION, limit));
        list.push(uleb((SECTION, head), (next + 1, tail), SECTION, limit + 1));
    }
}

/// In the stack, behind other bytes, and at the largest base.
fn places(list: &mut Vec<String>, form: &[u8]) {
    let len = form.len() as u64;
    let mut behind = vec![0x80, 0xff];
    behind.extend(form);
    list.push(uleb((SECTION, &[0x11]), (STACK, form), STACK, STACK + len));
    list.push(uleb(NONE, (STACK, form), STACK, STACK + 6));
    list.push(uleb((SECTION, &behind), NONE, SECTION + 2, SECTION + 2 + len));
    list.push(uleb((TOP, form), (TOP - 3, &[1, 2, 3]), TOP, TOP + len));
    list.push(uleb((TOP - 1, &[0x80]), (TOP, form), TOP - 1, TOP + len));
    list.push(uleb((TOP, form), (TOP - 1, &[0x80]), TOP - 1, u64::MAX));
}

/// Positions and limits at the ends of both ranges and of the address space,
/// with both ranges, either one, or none.
fn corners(list: &mut Vec<String>) {
    let section: Range = (SECTION, &[5, 0x86]);
    let stack: Range = (STACK, &[7]);
    let wide = [0, 1 << 32, 1 << 62, 1 << 63, u64::MAX - 1, u64::MAX];
    let near = [SECTION - 1, SECTION, SECTION + 1, SECTION + 2, STACK - 1, STACK, STACK + 1];
    let aliases = [SECTION + (1 << 32), SECTION + (1 << 63), STACK + (1 << 48)];
    for (section, stack) in [(section, stack), (section, NONE), (NONE, stack), (NONE, NONE)] {
        for pos in wide.into_iter().chain(near).chain(aliases) {
            list.push(uleb(section, stack, pos, pos));
            list.push(uleb(section, stack, pos, u64::MAX));
        }
    }
}

/// Up to 7 bytes, most of them with a byte to follow, somewhere in either range.
fn random_case(random: &mut Random) -> String {
    let count = random.below(8);
    let bytes: Vec<u8> = (0..count).map(|_| random_byte(random)).collect();
    let (head, tail) = bytes.split_at(random.below(count + 1) as usize);
    let span = random.pick(&[16, 0x10000, TOP - 8]);
    let low = 1 + random.below(span);
    let high = low + head.len() as u64 + random.pick(&[0, 0, 0, 1]);
    let pos = low + random.pick(&[0, 0, 0, 1, 2]);
    let limit = pos + random.below(9);
    if random.below(2) == 0 {
        uleb((low, head), (high, tail), pos, limit)
    } else {
        uleb((high, tail), (low, head), pos, limit)
    }
}

fn random_byte(random: &mut Random) -> u8 {
    let byte = random.below(128) as u8;
    if random.below(4) == 0 { byte } else { byte | 0x80 }
}
