//! Requests for the register file.

use crate::memory::{NONE, request};
use crate::random::Random;

const EDGES: [u64; 8] = [0, 1, 255, 1 << 32, (1 << 48) - 1, 1 << 48, 1 << 63, u64::MAX];

/// What a register file is filled with.
#[derive(Clone, Copy)]
enum Fill {
    /// Each number its own place plus 1.
    Places,
    Small,
    Edges,
    Full,
}

pub fn requests(arch: u64, random: &mut Random) -> Vec<String> {
    let mut list = Vec::new();
    for reg in (0..=90).chain([127, 128, 255, 256, 65535]) {
        for fill in [Fill::Places, Fill::Small, wide(reg)] {
            let (value, file) = (value(random), file(arch, random, fill));
            list.push(plain(&format!("get {reg} {file}")));
            list.push(plain(&format!("set {reg} {value} {file}")));
        }
    }
    for i in 0..32 {
        let fill = [Fill::Places, Fill::Small, Fill::Edges, Fill::Full][i % 4];
        let (value, file) = (value(random), file(arch, random, fill));
        list.push(plain(&format!("fp {file}")));
        list.push(plain(&format!("sp {file}")));
        list.push(plain(&format!("set_sp {value} {file}")));
    }
    strips(&mut list, random);
    list
}

/// Every power of two with its neighbours, and random addresses.
fn strips(list: &mut Vec<String>, random: &mut Random) {
    for power in (0..64).map(|bit| 1u64 << bit) {
        for addr in [power - 1, power, power + 1] {
            list.push(plain(&format!("strip {addr}")));
        }
    }
    list.push(plain(&format!("strip {}", u64::MAX)));
    for _ in 0..100 {
        list.push(plain(&format!("strip {}", random.any_width())));
    }
}

/// A request that reads no memory.
fn plain(operation: &str) -> String {
    request(NONE, NONE, operation)
}

/// Files of long numbers make long lines: every third register gets one.
fn wide(reg: u64) -> Fill {
    if reg.is_multiple_of(3) { Fill::Full } else { Fill::Edges }
}

fn value(random: &mut Random) -> u64 {
    if random.below(4) == 0 { random.pick(&EDGES) } else { random.any_width() }
}

/// 41 numbers on aarch64, 17 on x86-64.
fn file(arch: u64, random: &mut Random, fill: Fill) -> String {
    let count = if arch == 1 { 41 } else { 17 };
    let number = |place: u64| match fill {
        Fill::Places => place + 1,
        Fill::Small => random.below(256),
        Fill::Edges => random.pick(&EDGES),
        Fill::Full => random.word(),
    };
    let numbers: Vec<String> = (0..count).map(number).map(|n| n.to_string()).collect();
    numbers.join(",")
}
