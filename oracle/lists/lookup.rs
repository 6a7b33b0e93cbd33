//! Requests for lookup: sections of chunks, with a pc at each edge.

use crate::memory::{NONE, Range, TOP, request};
use crate::random::Random;

const SECTION: u64 = 0x1000;
const STACK: u64 = 0x100_0000;
const HEADER: usize = 16;
const MAGIC: u32 = 0x5755_4b45;

/// A record before it is written: version 1 has `first` as frame and `second` as handler offset,
/// version 2 has `first` as data.
#[derive(Clone, Copy)]
pub struct Row {
    start: u64,
    len: u32,
    first: u32,
    second: u32,
}

/// A chunk before it is written, with bytes after its records.
#[derive(Clone)]
pub struct Chunk {
    pub arch: u64,
    pub version: u8,
    pub rows: Vec<Row>,
    pub rest: usize,
}

impl Chunk {
    fn stride(&self) -> usize {
        if self.version == 1 { 16 } else { 12 }
    }

    fn size(&self) -> usize {
        HEADER + self.rows.len() * self.stride() + self.rest
    }

    /// The bytes at an address, from which the starts count.
    fn write(&self, at: u64, out: &mut Vec<u8>) {
        out.extend(MAGIC.to_le_bytes());
        out.extend([self.version, self.arch as u8, 1, 0]);
        out.extend((self.rows.len() as u32).to_le_bytes());
        out.extend((self.size() as u32).to_le_bytes());
        for (i, row) in self.rows.iter().enumerate() {
            let field = at + (HEADER + i * self.stride()) as u64;
            out.extend((row.start.wrapping_sub(field) as u32).to_le_bytes());
            out.extend(row.len.to_le_bytes());
            out.extend(row.first.to_le_bytes());
            if self.version == 1 {
                out.extend(row.second.to_le_bytes());
            }
        }
        out.extend(std::iter::repeat_n(0, self.rest));
    }
}

/// A section of chunks at a base, each after so many bytes of padding.
pub fn section(base: u64, chunks: &[(usize, Chunk)]) -> Vec<u8> {
    let mut bytes = Vec::new();
    for (padding, chunk) in chunks {
        bytes.extend(std::iter::repeat_n(0, *padding));
        chunk.write(base + bytes.len() as u64, &mut bytes);
    }
    bytes
}

pub fn row(start: u64, len: u32, first: u32) -> Row {
    Row { start, len, first, second: first }
}

pub fn requests(arch: u64, random: &mut Random) -> Vec<String> {
    let mut list = Vec::new();
    for version in [1, 2] {
        let make = |rows: &[Row], rest| Chunk { arch, version, rows: rows.to_vec(), rest };
        edges(&mut list, &make);
        several(&mut list, &make);
        wraps(&mut list, &make);
        order(&mut list, &make);
        headers(&mut list, &make);
        tails(&mut list, &make);
    }
    programs(&mut list, arch);
    both_versions(&mut list, arch);
    for _ in 0..60 {
        damaged(&mut list, arch, random);
    }
    for _ in 0..110 {
        random_case(&mut list, arch, random);
    }
    list
}

fn lookup(list: &mut Vec<String>, section: Range, stack: Range, pc: u64) {
    list.push(request(section, stack, &format!("lookup {pc}")));
}

/// Every edge of every record, and the ends of the address space.
fn every_edge(list: &mut Vec<String>, base: u64, bytes: &[u8], chunks: &[(usize, Chunk)]) {
    for row in chunks.iter().flat_map(|(_, chunk)| &chunk.rows) {
        let end = row.start.wrapping_add(row.len as u64);
        for edge in [row.start, end] {
            for pc in [edge.wrapping_sub(1), edge, edge.wrapping_add(1)] {
                lookup(list, (base, bytes), NONE, pc);
            }
        }
    }
    for pc in [0, u64::MAX] {
        lookup(list, (base, bytes), NONE, pc);
    }
}

fn try_edges(list: &mut Vec<String>, base: u64, chunks: &[(usize, Chunk)]) {
    every_edge(list, base, &section(base, chunks), chunks);
}

/// One chunk: gaps, no gaps, equal starts, records without length, none at all.
fn edges(list: &mut Vec<String>, make: &dyn Fn(&[Row], usize) -> Chunk) {
    let tables: [&[Row]; 8] = [
        &[],
        &[row(0x2000, 16, 20)],
        &[row(0x2000, 0, 20)],
        &[row(0x2000, 16, 0), row(0x2010, 16, 64)],
        &[row(0x2000, 8, 20), row(0x2010, 4, 0), row(0x2020, 1, 24)],
        &[row(0x2000, 0, 20), row(0x2000, 0, 24), row(0x2000, 5, 28)],
        &[row(0x2000, 4, 20), row(0x2004, 0, 24), row(0x2004, 4, 28), row(0x2008, 0, 0)],
        &[row(0x10, 1, 16), row(0x11, 2, 17), row(0x13, 3, 18), row(0x16, 4, 19), row(0x1a, 5, 20)],
    ];
    for rows in tables {
        try_edges(list, SECTION, &[(0, make(rows, 16))]);
    }
    let far = &[row(0x4000_1000, 16, 20), row(0x8000_0f00, 0x7000_0000, 24)];
    try_edges(list, SECTION, &[(0, make(far, 16))]);
    try_edges(list, TOP, &[(0, make(&[row(TOP - 16, 16, 20), row(TOP, 8, 0)], 16))]);
}

/// Chunks in any order of addresses, with padding, with and without records.
fn several(list: &mut Vec<String>, make: &dyn Fn(&[Row], usize) -> Chunk) {
    let low = make(&[row(0x2000, 8, 20), row(0x2008, 8, 24)], 8);
    let high = make(&[row(0x3000, 4, 20)], 4);
    let around = make(&[row(0x1f00, 4, 20), row(0x3100, 4, 24)], 8);
    let none = make(&[], 0);
    try_edges(list, SECTION, &[(0, low.clone()), (0, high.clone())]);
    try_edges(list, SECTION, &[(4, high.clone()), (12, none), (8, low.clone())]);
    try_edges(list, SECTION, &[(0, around.clone()), (4, low.clone())]);
    // The first chunk that has the pc answers, even where a later one has it too or is broken.
    let twice = make(&[row(0x2004, 8, 28)], 8);
    try_edges(list, SECTION, &[(0, low.clone()), (0, twice)]);
    let mut broken = section(SECTION, &[(0, low.clone()), (0, high.clone())]);
    broken[low.size()] ^= 1;
    every_edge(list, SECTION, &broken, &[(0, low), (0, high)]);
}

/// Starts below 0 and ends past 2^64.
fn wraps(list: &mut Vec<String>, make: &dyn Fn(&[Row], usize) -> Chunk) {
    let below = 0u64.wrapping_sub(0x100);
    let tables: [&[Row]; 6] = [
        &[row(below, 0x80, 20), row(below + 0x80, 0x7f, 24)],
        &[row(below, 0x100, 20)],
        &[row(below, 0x101, 20)],
        &[row(below, 0x80, 20), row(below + 0x80, 0x100, 24)],
        &[row(below, 0x200, 20), row(0x40, 0x10, 24)],
        &[row(0x20, 0x10, 20), row(below, 0x200, 24), row(below + 0x10, 8, 28)],
    ];
    for rows in tables {
        try_edges(list, 1, &[(0, make(rows, 16))]);
    }
    try_edges(list, SECTION, &[(0, make(&[row(0x1010, u32::MAX, 20)], 8))]);
}

/// Neighbours that meet, by one byte and by more, and starts that fall.
fn order(list: &mut Vec<String>, make: &dyn Fn(&[Row], usize) -> Chunk) {
    let tables: [&[Row]; 5] = [
        &[row(0x2000, 9, 20), row(0x2008, 8, 24)],
        &[row(0x2000, 8, 20), row(0x2008, 9, 24), row(0x2010, 8, 28)],
        &[row(0x2010, 8, 20), row(0x2000, 8, 24), row(0x2020, 8, 28)],
        &[row(0x2000, 0x40, 20), row(0x2008, 4, 24), row(0x2010, 4, 28), row(0x2018, 8, 0)],
        &[row(0x2000, 4, 20), row(0x2000, 4, 24)],
    ];
    for rows in tables {
        try_edges(list, SECTION, &[(0, make(rows, 16))]);
    }
}

/// One field of a header off, in the first chunk and in the second.
fn headers(list: &mut Vec<String>, make: &dyn Fn(&[Row], usize) -> Chunk) {
    let good = make(&[row(0x2000, 8, 20), row(0x2008, 8, 24)], 8);
    let size = good.size() as u32;
    let room = size - 8;
    let first = section(SECTION, &[(0, good.clone())]);
    let second = section(SECTION, &[(0, make(&[row(0x3000, 4, 20)], 0)), (4, good.clone())]);
    let mut try_field = |at: usize, value: &[u8]| {
        for whole in [&first, &second] {
            let mut bytes = whole.clone();
            let chunk = bytes.len() - good.size();
            bytes[chunk + at..chunk + at + value.len()].copy_from_slice(value);
            for pc in [0x200c, 0x3000] {
                lookup(list, (SECTION, &bytes), NONE, pc);
            }
        }
    };
    for magic in [MAGIC + 1, MAGIC ^ 0x8000_0000, MAGIC.swap_bytes()] {
        try_field(0, &magic.to_le_bytes());
    }
    for version in [0, 1, 2, 3, 0x81] {
        try_field(4, &[version]);
    }
    for arch in [0, 1, 2, 3, 0x81] {
        try_field(5, &[arch]);
    }
    for flags in [0u16, 2, 3, 0x101, 0x8001] {
        try_field(6, &flags.to_le_bytes());
    }
    for count in [0u32, 1, 3, 0x0aaa_aaaa, 0x1000_0000, 0x1555_5556, u32::MAX - 1, u32::MAX] {
        try_field(8, &count.to_le_bytes());
    }
    for off in [
        room - 4,
        room - 1,
        room,
        room + 4,
        size - 1,
        size + 1,
        size + 4,
        0,
        16,
        u32::MAX,
        u32::MAX - 3,
    ] {
        try_field(12, &off.to_le_bytes());
    }
}

/// Sections that end within a header: tails of 0 to 16 bytes, zero or not, and sections cut short.
fn tails(list: &mut Vec<String>, make: &dyn Fn(&[Row], usize) -> Chunk) {
    let good = section(SECTION, &[(0, make(&[row(0x2000, 8, 20)], 0))]);
    for tail in 0..=16 {
        for fill in [0, 0x45] {
            let mut bytes = good.clone();
            bytes.extend(std::iter::repeat_n(fill, tail));
            lookup(list, (SECTION, &bytes), NONE, 0x2008);
        }
    }
    for cut in 1..=16 {
        lookup(list, (SECTION, &good[..good.len() - cut]), NONE, 0x2004);
    }
    for count in 0..=20 {
        lookup(list, (SECTION, &good[..count.min(15)]), (STACK, &good), 0x2004);
        lookup(list, (SECTION, &vec![0; count]), NONE, 0x2004);
    }
}

/// Version 2 data words: no program, a program before, at and past the chunk's end, each with and
/// without a table, in the record of the pc and in its neighbours.
fn programs(list: &mut Vec<String>, arch: u64) {
    let end = HEADER as u32 + 3 * 12 + 8;
    for off in [0, 1, 16, end - 1, end, end + 1, 0x7fff_ffff] {
        for data in [off, off | 1 << 31] {
            let rows = vec![row(0x2000, 8, 52), row(0x2008, 8, data), row(0x2010, 8, 52)];
            let bytes = section(SECTION, &[(0, Chunk { arch, version: 2, rows, rest: 8 })]);
            for pc in [0x2007, 0x2008, 0x200f, 0x2010, 0x2018] {
                lookup(list, (SECTION, &bytes), NONE, pc);
            }
        }
    }
}

/// A chunk of each version, and the other architecture's in between.
fn both_versions(list: &mut Vec<String>, arch: u64) {
    let rows = |start| vec![row(start, 8, 20), row(start + 8, 4, 1 << 31 | 24)];
    let chunk = |arch, version, start| Chunk { arch, version, rows: rows(start), rest: 8 };
    for (first, second) in [(1, 2), (2, 1)] {
        let two = [(4, chunk(arch, first, 0x2000)), (8, chunk(arch, second, 0x1f00))];
        try_edges(list, SECTION, &two);
        let other = [(0, chunk(arch, first, 0x2000)), (0, chunk(3 - arch, second, 0x3000))];
        try_edges(list, SECTION, &other);
    }
}

/// Up to three chunks whose records rise, most of them; a pc near one of them.
fn random_section(arch: u64, random: &mut Random) -> (u64, Vec<u8>, u64) {
    let base = random.pick(&[1, 0x100, SECTION, SECTION + 4, TOP - 8]);
    let mut chunks = Vec::new();
    let mut pcs = vec![0, base];
    let mut at = base.wrapping_add(random.below(0x1000)).wrapping_sub(0x800);
    for _ in 0..1 + random.below(3) {
        let mut rows = Vec::new();
        for _ in 0..random.below(5) {
            let len = random.pick(&[0, 1, 4, 8, 16]);
            rows.push(Row {
                start: at,
                len,
                first: random.below(128) as u32,
                second: random.below(64) as u32,
            });
            pcs.extend([at, at.wrapping_add(len as u64 / 2), at.wrapping_add(len as u64)]);
            at = at.wrapping_add(len as u64 + random.pick(&[0, 0, 4]));
            if random.below(24) == 0 {
                at = at.wrapping_sub(random.below(32));
            }
        }
        let (version, rest) = (random.pick(&[1, 2]), random.pick(&[0, 4, 16]));
        chunks.push((random.pick(&[0, 0, 4, 8]), Chunk { arch, version, rows, rest }));
    }
    if random.below(2) == 0 {
        chunks.reverse();
    }
    (base, section(base, &chunks), random.pick(&pcs))
}

/// Chunks of 5 to 40 records of either version, alone or after another chunk, most of them in order; a pc at edges of some records.
pub fn many(list: &mut Vec<String>, arch: u64, random: &mut Random) {
    for (count, version) in (5..=40).flat_map(|count| [(count, 1), (count, 2)]) {
        let base = random.pick(&[1, SECTION, SECTION + 4, TOP - 8]);
        let (mut rows, mut at) = (Vec::new(), base + 0x1_0000);
        for _ in 0..count {
            let len = random.pick(&[1, 4, 8, 16]);
            rows.push(row(at, len, random.below(96) as u32 | random.pick(&[0, 0, 1 << 31])));
            at += u64::from(len) + random.pick(&[0, 0, 4]);
        }
        let broken = random.below(4 * count) as usize;
        if let Some(row) = rows.get_mut(broken) {
            row.len += random.below(24) as u32;
        }
        let before = Chunk { arch, version: 3 - version, rows: vec![row(base + 0x8000, 8, 20)], rest: 8 };
        let chunk = Chunk { arch, version, rows: rows.clone(), rest: random.pick(&[0, 4, 64]) };
        let alone = random.below(2) == 0;
        let chunks = if alone { vec![(0, chunk)] } else { vec![(4, before), (0, chunk)] };
        let bytes = section(base, &chunks);
        for _ in 0..8 {
            let at = random.pick(&rows);
            let end = at.start + u64::from(at.len);
            for pc in [at.start - 1, at.start, end - 1, end] {
                lookup(list, (base, &bytes), NONE, pc);
            }
        }
    }
}

fn random_case(list: &mut Vec<String>, arch: u64, random: &mut Random) {
    let (base, bytes, pc) = random_section(arch, random);
    for pc in [pc, pc.wrapping_sub(1)] {
        lookup(list, (base, &bytes), NONE, pc);
    }
}

/// A section with one to three bytes changed.
fn damaged(list: &mut Vec<String>, arch: u64, random: &mut Random) {
    let (base, mut bytes, pc) = random_section(arch, random);
    for _ in 0..1 + random.below(3) {
        let at = random.below(bytes.len() as u64) as usize;
        bytes[at] =
            random.pick(&[0, 1, 2, 0x7f, 0x80, 0xff, bytes[at].wrapping_add(1), bytes[at] ^ 0x10]);
    }
    lookup(list, (base, &bytes), (STACK, &[0x45, 0x4b, 0x55, 0x57]), pc);
}
