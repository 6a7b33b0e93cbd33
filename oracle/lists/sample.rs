//! Inputs for comparisons at large: for each function that reads memory one that is good, or nearly so.

use crate::file::File;
use crate::memory::{NONE, Range, TOP, any_request, request};
use crate::random::Random;
use crate::{apply, handler, handler2, lookup, program, step};

const MAX: u64 = u64::MAX;

/// The bytes that a request reads, where they lie, and what is asked of them below a limit.
pub struct Sample {
    pub base: u64,
    pub bytes: Vec<u8>,
    ask: Box<dyn Fn(u64) -> String>,
}

impl Sample {
    fn new(base: u64, bytes: Vec<u8>, ask: impl Fn(u64) -> String + 'static) -> Sample {
        Sample { base, bytes, ask: Box::new(ask) }
    }

    pub fn end(&self) -> u64 {
        self.base + self.bytes.len() as u64
    }

    /// The request with all its bytes in one range, the section more often than the stack.
    pub fn whole(&self, limit: u64, random: &mut Random) -> String {
        let (range, operation) = ((self.base, &self.bytes[..]), (self.ask)(limit));
        if random.below(4) > 0 { request(range, NONE, &operation) } else { request(NONE, range, &operation) }
    }

    /// The request with its bytes in two ranges that touch, in either order.
    pub fn cut(&self, at: usize) -> [String; 2] {
        let (head, tail) = self.bytes.split_at(at);
        let (low, high) = ((self.base, head), (self.base + at as u64, tail));
        let operation = (self.ask)(self.end());
        [request(low, high, &operation), request(high, low, &operation)]
    }

    /// The request beside another range, section first and stack first, where both may be refused.
    pub fn beside(&self, other: Range) -> [String; 2] {
        let (range, operation) = ((self.base, &self.bytes[..]), (self.ask)(self.end()));
        [any_request(range, other, &operation), any_request(other, range, &operation)]
    }

    /// The same bytes and the same operation, with the bytes at another base that may be refused.
    pub fn moved(&self, base: u64) -> String {
        any_request((base, &self.bytes), NONE, &(self.ask)(self.end()))
    }
}

/// Makes a sample of a size: of so many bytes, records, operations, pairs, registers or rows.
pub type Make = fn(u64, u64, &mut Random) -> Sample;

/// Every function that reads memory, with the largest size of its samples.
pub fn functions(arch: u64) -> [(Make, u64); 10] {
    [
        (uleb, 7),
        (lookup, 40),
        (run, 40),
        (run_full, 33),
        (apply, 32),
        (step, step::table(arch)),
        (handler, 20),
        (handler2, 20),
        (personality, 12),
        (personality2, 20),
    ]
}

/// The functions that go through many of something, with large sizes of their samples.
pub const LARGE: [(Make, &[u64]); 8] = [
    (lookup, &[41, 100, 300, 1100, 5000]),
    (run, &[64, 65, 66, 128, 300, 1001, 1100, 5000, 70_000]),
    (deep_apply, &[64, 65, 66, 130, 1000, 65535]),
    (deep_step, &[64, 65, 66, 130, 2047]),
    (handler, &[255, 256, 257, 300, 1100, 5000]),
    (handler2, &[100, 101, 128, 300, 1001, 1100, 5000, 70_000]),
    (personality, &[256, 1100]),
    (personality2, &[130, 300, 2100, 9000]),
];

fn base(random: &mut Random) -> u64 {
    random.pick(&[1, 0x1000, 0x1003, TOP - 0x400])
}

/// Most often a multiple of 8.
fn stack_base(random: &mut Random) -> u64 {
    random.pick(&[8, 0x1000, TOP - 0x400]) + random.pick(&[0, 0, 0, 1, 4])
}

/// Most often the number itself.
fn near(n: u64, random: &mut Random) -> u64 {
    n.wrapping_add(random.pick(&[0, 0, 0, 0, 0, 0, 1, 4, 8, MAX, MAX - 7]))
}

fn uleb(_: u64, size: u64, random: &mut Random) -> Sample {
    let base = base(random);
    let byte = |i| {
        if i + 1 < size { 0x80 | random.word() as u8 } else { random.word() as u8 & random.pick(&[0x0f, 0x7f, 0xff]) }
    };
    let bytes = (0..size).map(byte).collect();
    Sample::new(base, bytes, move |limit| format!("uleb {base} {limit}"))
}

/// One or two chunks of either version; a pc at an edge of a record.
fn lookup(arch: u64, size: u64, random: &mut Random) -> Sample {
    let base = base(random);
    let some = random.below(size + 1);
    let first = random.pick(&[size, some]);
    let (mut at, mut pcs) = (base + 0x4000, vec![base]);
    let mut chunks = Vec::new();
    for count in [first, size - first] {
        let mut rows = Vec::new();
        for _ in 0..count {
            let len = random.pick(&[0, 1, 4, 8, 16]);
            rows.push(lookup::row(at, len, random.below(96) as u32 | random.pick(&[0, 0, 1 << 31])));
            pcs.extend([at, at + u64::from(len)]);
            at += u64::from(len) + random.pick(&[0, 0, 4]);
        }
        let (version, rest) = (random.pick(&[1, 2]), random.pick(&[0, 4, 64]));
        chunks.push((random.pick(&[0, 0, 4]), lookup::Chunk { arch, version, rows, rest }));
    }
    let pc = random.pick(&pcs).wrapping_sub(random.below(2));
    Sample::new(base, lookup::section(base, &chunks), move |_| format!("lookup {pc}"))
}

/// Any operations; so many that one of them would surely be refused are such as are not.
fn operations(size: u64, random: &mut Random) -> Vec<u8> {
    let mut bytes = Vec::new();
    if size > 40 {
        program::accepted(size, random, &mut bytes);
    } else {
        (0..size).for_each(|_| program::operation(random, &mut bytes));
    }
    bytes.push(0x00);
    bytes
}

/// So many saves, or about as many as a state holds, then operations that save or restore.
fn run_full(arch: u64, size: u64, random: &mut Random) -> Sample {
    let base = base(random);
    let saves = random.pick(&[size, 30 + size % 4]);
    let mut registers: Vec<u8> = (0..64).collect();
    let mut bytes = Vec::new();
    for _ in 0..saves {
        let reg = registers.remove(random.below(registers.len() as u64) as usize);
        bytes.extend([0x80 + reg, 1 + random.below(127) as u8]);
    }
    let (fp, ra) = if arch == 1 { (29, 30) } else { (6, 16) };
    for _ in 0..random.below(5) {
        let some = random.below(64) as u8;
        match random.below(7) {
            0 | 1 => bytes.push(0xc9),
            2 | 3 => bytes.push(0xca),
            4 => bytes.push(0xe0 + random.pick(&[fp, ra, some % 32])),
            5 => bytes.push(random.pick(&[0xc7, 0xc8])),
            _ => bytes.extend([0x80 + random.pick(&[fp, ra, some]), 0x05]),
        }
    }
    bytes.push(0x00);
    Sample::new(base, bytes, move |limit| format!("run {base} {limit} {MAX}"))
}

fn run(_: u64, size: u64, random: &mut Random) -> Sample {
    let base = base(random);
    let off = random.pick(&[0, 1, 3, 8, 20, 60, 200, 1000, MAX]);
    Sample::new(base, operations(size, random), move |limit| format!("run {base} {limit} {off}"))
}

fn words(count: u64, random: &mut Random) -> Vec<u8> {
    (0..count).flat_map(|_| random.any_width().to_le_bytes()).collect()
}

/// A state whose slots end at the stack's end.
fn apply(arch: u64, size: u64, random: &mut Random) -> Sample {
    let base = stack_base(random);
    let slots = 1 + random.below(6);
    let bytes = words(slots, random);
    let units = random.below(4);
    let from = near(base.wrapping_add(8 * (slots - units.min(slots))), random);
    let mut pairs: Vec<String> =
        (1..size).map(|_| format!("{}:{}", random.pick(apply::saved(arch)), 1 + random.below(slots))).collect();
    if size > 0 {
        let reg = if random.below(3) > 0 { apply::ra(arch) } else { random.below(90) };
        pairs.push(format!("{reg}:{}", 1 + random.below(slots)));
    }
    let pairs = if pairs.is_empty() { "-".to_string() } else { pairs.join(",") };
    let file = File::random(arch, random).sp(from).fp(from).token();
    let fp = random.below(2);
    Sample::new(base, bytes, move |_| format!("apply {fp} {units} {size} {pairs} {file}"))
}

/// A state with a pair at so deep a slot, and others at or above it; the stack ends at the CFA.
fn deep_apply(arch: u64, size: u64, random: &mut Random) -> Sample {
    let base = stack_base(random);
    let bytes = words(size, random);
    let units = random.below(4);
    let from = near(base.wrapping_add(8 * (size - units)), random);
    let other = 1 + random.below(size);
    let [first, second, ra] = [random.pick(apply::saved(arch)), random.pick(apply::saved(arch)), apply::ra(arch)];
    let file = File::random(arch, random).sp(from).fp(from).token();
    let fp = random.below(2);
    Sample::new(base, bytes, move |_| format!("apply {fp} {units} 3 {first}:{size},{second}:{other},{ra}:1 {file}"))
}

/// A frame word of kind 1 whose slots go from so deep a one on; the stack has them all, or not the last.
fn deep_step(arch: u64, size: u64, random: &mut Random) -> Sample {
    let base = stack_base(random);
    let mask = random.below(1 << step::table(arch));
    let bytes = words(size + u64::from(mask.count_ones()) - random.below(2), random);
    let fp = near(base + bytes.len() as u64 - 16, random);
    let frame = step::word(1, random.below(2), mask, size);
    let file = File::random(arch, random).fp(fp).token();
    Sample::new(base, bytes, move |_| format!("step {frame} 0 {file}"))
}

/// A frame word with so many registers, whose slots end at the stack's end.
fn step(arch: u64, size: u64, random: &mut Random) -> Sample {
    let base = stack_base(random);
    let bytes = words(size + 1 + random.below(4), random);
    let end = base + bytes.len() as u64;
    let mut mask = 0u64;
    while u64::from(mask.count_ones()) < size {
        mask |= 1 << random.below(step::table(arch));
    }
    let kind = if size == 0 { random.below(3) } else { 1 + random.below(2) };
    let param = if kind == 1 { random.pick(&[2, 3, 3, 3, 4]) } else { random.below(5) };
    let frame = step::word(kind, random.below(2), mask, param);
    let sp = near(end.wrapping_sub(16 * param), random);
    let file = File::random(arch, random).sp(sp).fp(near(end.wrapping_sub(16), random)).token();
    let first = u64::from(kind == 0) ^ u64::from(random.below(16) == 0);
    Sample::new(base, bytes, move |_| format!("step {frame} {first} {file}"))
}

/// A version 1 table and a return offset at one of its rows.
fn table(size: u64, random: &mut Random) -> (Vec<u8>, u64) {
    let mut at = random.below(3) as u32;
    let mut rows = Vec::new();
    for _ in 0..size {
        rows.push(if random.below(8) == 0 { (at, 0, random.below(4) as u32) } else { handler::valid(at) });
        at += if random.below(32) == 0 { 0 } else { random.pick(&[1, 1, 2, 3, 300]) };
    }
    let ret = if rows.is_empty() { 0 } else { random.pick(&rows).0 };
    (handler::table(&rows), u64::from(ret) + random.pick(&[0, 0, 0, 1]))
}

fn handler(_: u64, size: u64, random: &mut Random) -> Sample {
    let (base, (bytes, ret)) = (base(random), table(size, random));
    Sample::new(base, bytes, move |_| format!("handler {base} {ret}"))
}

/// A version 2 table and a return offset at one of its rows.
fn table2(size: u64, random: &mut Random) -> (Vec<u8>, u64) {
    let (mut at, mut rows, mut offsets) = (0, Vec::new(), vec![0]);
    for _ in 0..size {
        let (some, wide) = (random.pick(&[1, 1, 2, 3, 5, 130, 70_000]), random.below(1 << 32));
        let delta = match random.below(size.max(32)) {
            0 => 0,
            1 => wide,
            _ => some,
        };
        at += delta;
        offsets.push(at);
        let word = random.below(400);
        rows.push((delta, random.pick(&[2, 4, 5, word])));
    }
    let ret = random.pick(&offsets) + random.pick(&[0, 0, 0, 1]);
    (handler2::table(&rows), ret % (1 << 32))
}

fn handler2(_: u64, size: u64, random: &mut Random) -> Sample {
    let (base, (bytes, ret)) = (base(random), table2(size, random));
    Sample::new(base, bytes, move |limit| format!("handler2 {base} {limit} {ret}"))
}

/// Phase, exception and interrupted; start; file with pc at the return offset.
fn call(arch: u64, ret: u64, random: &mut Random) -> (String, u64, String) {
    let wide = random.any_width();
    let start = random.pick(&[0x5000, wide]);
    let pc = near(start.wrapping_add(ret), random);
    let interrupted = u64::from(random.below(16) == 0);
    let head = format!("personality {} {} {interrupted}", 1 + random.below(2), random.any_width());
    (head, start, File::random(arch, random).pc(pc).token())
}

fn personality(arch: u64, size: u64, random: &mut Random) -> Sample {
    let (base, (bytes, ret)) = (base(random), table(size, random));
    let (head, start, file) = call(arch, ret, random);
    let (version, frame) = (random.pick(&[1, 1, 1, 0, 3]), random.below(1 << 32));
    Sample::new(base, bytes, move |limit| format!("{head} {start} {base} {version} {frame} 0 {limit} {file}"))
}

/// Half of the size in operations, the rest in rows.
fn personality2(arch: u64, size: u64, random: &mut Random) -> Sample {
    let base = base(random);
    let mut bytes = operations(size / 2, random);
    let (rows, ret) = table2(size - size / 2, random);
    bytes.extend(rows);
    let (head, start, file) = call(arch, ret, random);
    Sample::new(base, bytes, move |limit| format!("{head} {start} {base} 2 0 {base} {limit} {file}"))
}
