//! Requests for `personality`: the reason and the file after it, from a frame and its rows.

use crate::file::File;
use crate::handler::{self, Row};
use crate::handler2;
use crate::memory::{NONE, Range, TOP, request};
use crate::random::Random;

const SECTION: u64 = 0x1000;
const STACK: u64 = 0x2000;
const START: u64 = 0x5000;
const WIDE: u64 = 1 << 32;

/// Catch, cleanup and terminate rows, then two invalid ones.
const ROWS: [Row; 5] = [(5, 10, 1), (8, 16, 0), (12, 0, 2), (20, 0, 1), (24, 7, 3)];

/// A program that reads to END, then the same rows, as deltas and words.
const PROGRAM: [u8; 15] =
    [0x02, 0xc9, 0x04, 0x00, 0x05, 0x05, 0x29, 0x03, 0x40, 0x04, 0x02, 0x08, 0x01, 0x04, 0x1f];

/// One request, before its phase is chosen.
#[derive(Clone)]
struct Ask<'a> {
    section: Range<'a>,
    stack: Range<'a>,
    exception: u64,
    interrupted: bool,
    start: u64,
    handlers: u64,
    version: u64,
    frame: u64,
    program: u64,
    limit: u64,
    file: File,
}

impl<'a> Ask<'a> {
    /// A version 1 frame, its table at the section's base.
    fn one(arch: u64, section: Range<'a>) -> Ask<'a> {
        Ask {
            section,
            stack: NONE,
            exception: 77,
            interrupted: false,
            start: START,
            handlers: section.0,
            version: 1,
            frame: 0,
            program: 0,
            limit: 0,
            file: File::new(arch),
        }
    }

    /// A version 2 frame, its program at the section's base and its limit at the section's end.
    fn two(arch: u64, section: Range<'a>) -> Ask<'a> {
        let (program, limit) = (section.0, section.0 + section.1.len() as u64);
        Ask { version: 2, program, limit, ..Ask::one(arch, section) }
    }

    /// The same with pc so far from the start.
    fn at(&self, off: u64) -> Ask<'a> {
        Ask { file: self.file.clone().pc(self.start.wrapping_add(off)), ..self.clone() }
    }

    fn in_phase(&self, phase: u64) -> String {
        let Ask { exception, start, handlers, version, frame, program, limit, .. } = self;
        let (interrupted, file) = (u64::from(self.interrupted), self.file.token());
        let call = format!("personality {phase} {exception} {interrupted}");
        let record = format!("{start} {handlers} {version} {frame} {program} {limit}");
        request(self.section, self.stack, &format!("{call} {record} {file}"))
    }

    fn search(&self) -> String {
        self.in_phase(1)
    }

    fn cleanup(&self) -> String {
        self.in_phase(2)
    }

    fn both(&self) -> [String; 2] {
        [self.search(), self.cleanup()]
    }
}

pub fn requests(arch: u64, random: &mut Random) -> Vec<String> {
    let mut list = Vec::new();
    offsets(&mut list, arch);
    starts(&mut list, arch);
    pads(&mut list, arch);
    no_table(&mut list, arch);
    versions(&mut list, arch);
    tables(&mut list, arch);
    tables2(&mut list, arch);
    programs(&mut list, arch);
    program_0(&mut list, arch);
    long_advances(&mut list, arch);
    cuts(&mut list, arch);
    places(&mut list, arch);
    for _ in 0..16 {
        list.extend(random_case(arch, random));
        list.push(damaged(arch, random));
        list.push(damaged(arch, random));
    }
    list
}

/// pc below, at and above the start and each row, and offsets that come back to a row at 2^32.
fn offsets(list: &mut Vec<String>, arch: u64) {
    let table = handler::table(&ROWS);
    for ask in [Ask::one(arch, (SECTION, &table)), Ask::two(arch, (SECTION, &PROGRAM))] {
        let near = [0, 4, 5, 8, 12, 20, 24, 25, WIDE - 1];
        let wrapped = [WIDE, WIDE + 5, 7 * WIDE + 12, (1 << 63) + 8, u64::MAX - WIDE + 6];
        let below = [u64::MAX];
        for off in near.into_iter().chain(wrapped).chain(below) {
            list.extend(ask.at(off).both());
        }
        let interrupted = Ask { interrupted: true, ..ask };
        for off in [5, 12, 20] {
            list.extend(interrupted.at(off).both());
        }
    }
}

/// Low and high starts: pc is compared whole, the offset is taken modulo 2^32.
fn starts(list: &mut Vec<String>, arch: u64) {
    let table = handler::table(&ROWS);
    for ask in [Ask::one(arch, (SECTION, &table)), Ask::two(arch, (SECTION, &PROGRAM))] {
        for start in [0, WIDE - 3, 1 << 63, u64::MAX - 5, u64::MAX - 4] {
            for off in [5, WIDE + 5] {
                list.push(Ask { start, ..ask.clone() }.at(off).cleanup());
            }
        }
        let low = Ask { start: 9, ..ask.clone() };
        list.extend(
            [u64::MAX - 8, u64::MAX - 9, u64::MAX - WIDE + 6].map(|off| low.at(off).cleanup()),
        );
    }
}

/// Start + pad about 2^64, and the largest pads.
fn pads(list: &mut Vec<String>, arch: u64) {
    for pad in [1, 15, 16, (1 << 30) - 1] {
        let table = handler::table(&[(0, pad, 0), (5, pad, 1)]);
        let program = [&[0x00], &handler2::table(&[(5, 4 * u64::from(pad) + 1)])[..]].concat();
        let one = Ask::one(arch, (SECTION, &table));
        let two = Ask::two(arch, (SECTION, &program));
        for start in [u64::MAX - 15, u64::MAX] {
            list.push(Ask { start, ..one.clone() }.at(0).cleanup());
            list.push(Ask { start, ..one.clone() }.at(5).cleanup());
            list.push(Ask { start, ..two.clone() }.at(5).cleanup());
        }
    }
    let table = handler::table(&[(5, u32::MAX, 0)]);
    for start in [0, START, u64::MAX - WIDE, u64::MAX - WIDE + 2, u64::MAX - 5] {
        list.push(Ask { start, ..Ask::one(arch, (SECTION, &table)) }.at(5).cleanup());
    }
}

/// Handlers 0: neither table nor program is read.
fn no_table(list: &mut Vec<String>, arch: u64) {
    for version in [1, 2, 3] {
        for program in [&PROGRAM[..], &[0xcb], &[]] {
            let ask = Ask { version, handlers: 0, ..Ask::two(arch, (SECTION, program)) };
            list.extend(ask.at(5).both());
        }
    }
}

/// Every version but 2 counts as 1; each takes its own fields only.
fn versions(list: &mut Vec<String>, arch: u64) {
    let table = handler::table(&[(5, 99, 1)]);
    let section = [&PROGRAM[..], &table].concat();
    let handlers = SECTION + PROGRAM.len() as u64;
    let limit = handlers;
    for version in [0, 1, 2, 3, 130, 255] {
        let ask = Ask { version, handlers, limit, ..Ask::two(arch, (SECTION, &section)) };
        list.extend(ask.at(5).both());
        list.push(Ask { handlers: 1, frame: 0xffff_ffff, ..ask.clone() }.at(8).cleanup());
        list.push(Ask { program: 1, frame: 3, ..ask.clone() }.at(5).cleanup());
        list.push(Ask { limit: SECTION, ..ask }.at(5).cleanup());
    }
}

/// Version 1 tables with a row refused in each way, in both phases and interrupted.
fn tables(list: &mut Vec<String>, arch: u64) {
    let good = handler::table(&ROWS[..2]);
    let tables = [
        handler::table(&[(5, 10, 1), (5, 16, 0)]),
        handler::table(&[(8, 10, 1), (5, 0, 0)]),
        handler::table(&[(5, 9, 2)]),
        handler::table(&[(5, 9, u32::MAX)]),
        handler::table(&[]),
        good[..4].to_vec(),
        good[..15].to_vec(),
        good[..27].to_vec(),
        Vec::new(),
    ];
    for table in &tables {
        let ask = Ask::one(arch, (SECTION, table));
        list.extend(ask.at(5).both());
        list.push(Ask { interrupted: true, ..ask }.at(5).cleanup());
    }
}

/// Version 2 tables after an empty program, likewise.
fn tables2(list: &mut Vec<String>, arch: u64) {
    let tables: [&[u8]; 8] = [
        &[0x01, 0x00, 0x29],
        &[0x02, 0x05, 0x29, 0x00, 0x40],
        &[0x02, 0x05, 0x01, 0x00, 0x40],
        &[0x01, 0x05, 0x2b],
        &[0x02, 0x05, 0x29],
        &[0x01, 0x05, 0xa9],
        &[0x00],
        &[],
    ];
    for table in tables {
        let section = [&[0x00], table].concat();
        let ask = Ask::two(arch, (SECTION, &section));
        list.extend(ask.at(5).both());
        list.push(Ask { interrupted: true, ..ask }.at(5).cleanup());
    }
}

/// Programs that read to END, that never do, and that are refused; then one row.
fn programs(list: &mut Vec<String>, arch: u64) {
    let saves: Vec<u8> = (0..33).flat_map(|reg| [0x80 + reg, 0x01]).chain([0x00]).collect();
    let programs: [&[u8]; 18] = [
        &[0x00],
        &[0x3f, 0x7f, 0x83, 0x02, 0xe3, 0xca, 0xc6, 0x00],
        &[0xc0, 0x05, 0xc1, 0x00, 0xc2, 0x81, 0x00, 0xc5, 0x00, 0x00],
        &[0xc7, 0xc7, 0xc7, 0xc7, 0xc8, 0xc8, 0xc8, 0xc8, 0x00],
        &[0xc7, 0xc7, 0xc7, 0xc7, 0xc7, 0x00],
        &[0xc7, 0xc8, 0xc8, 0x00],
        &[0xcb, 0x00],
        &[0x00, 0x00],
        &[0x83, 0x00, 0x00],
        &[0xc4, 0x03, 0x80, 0x80, 0x04, 0x00],
        &[0xc4, 0x80, 0x80, 0x04, 0x01, 0x00],
        &[0xc2, 0x80, 0x80, 0x80, 0x80, 0x10, 0x00],
        &[0xc3, 0x80, 0x80, 0x80, 0x80, 0x80, 0x00],
        &saves,
        &[0x02, 0xc9],
        &[0x02, 0x83],
        &[0xc3, 0x85],
        &[],
    ];
    for program in programs {
        let section = [program, &[0x01, 0x05, 0x29]].concat();
        let ask = Ask::two(arch, (SECTION, &section));
        list.push(ask.at(5).cleanup());
        list.push(Ask { limit: SECTION + 200, ..ask.clone() }.at(5).search());
        list.push(Ask { interrupted: true, ..ask }.at(5).cleanup());
    }
}

/// Program 0 with a table: its rows are looked for at address 0, below every limit but 0.
fn program_0(list: &mut Vec<String>, arch: u64) {
    for base in [1, SECTION] {
        for limit in [0, 1, base + 15, u64::MAX] {
            let ask = Ask { program: 0, limit, ..Ask::two(arch, (base, &PROGRAM)) };
            list.extend(ask.at(5).both());
            list.push(ask.at(u64::MAX).cleanup());
        }
    }
}

/// Advances that pass 2^32 - 1 before END, or just do not, in bytes and in units of 4.
fn long_advances(list: &mut Vec<String>, arch: u64) {
    let full = [0xc3, 0xff, 0xff, 0xff, 0xff, 0x0f];
    let quarter = [0xc3, 0xff, 0xff, 0xff, 0xff, 0x03];
    let programs = [
        [&full[..], &[0x01]].concat(),
        full.to_vec(),
        [&[0x01], &full[..]].concat(),
        full.repeat(6),
        quarter.to_vec(),
        [&quarter[..], &[0x01]].concat(),
        quarter.repeat(4),
        [&full[..], &[0xcb]].concat(),
        [&full[..], &full[..4]].concat(),
    ];
    for program in &programs {
        let section = [program, &[0x00, 0x01, 0x01, 0x04][..]].concat();
        let ask = Ask::two(arch, (SECTION, &section));
        list.extend(ask.at(1).both());
    }
}

/// Program and rows cut at every byte by the limit, by the memory's end, and by the border of the ranges.
fn cuts(list: &mut Vec<String>, arch: u64) {
    let bytes = &PROGRAM[..11];
    let whole = Ask::two(arch, (SECTION, bytes));
    for cut in 0..=bytes.len() {
        let (head, tail) = bytes.split_at(cut);
        let next = SECTION + cut as u64;
        list.push(Ask { limit: next, ..whole.clone() }.at(8).cleanup());
        list.push(Ask { section: (SECTION, head), ..whole.clone() }.at(5).cleanup());
        let (low, high) = ((SECTION, head), (next, tail));
        list.push(Ask { section: low, stack: high, ..whole.clone() }.at(8).cleanup());
        list.push(Ask { section: high, stack: low, ..whole.clone() }.at(5).search());
    }
}

/// Program or table in the stack, at the largest base, and outside.
fn places(list: &mut Vec<String>, arch: u64) {
    let table = handler::table(&ROWS[..2]);
    let one = Ask { stack: (STACK, &table), ..Ask::one(arch, (SECTION, &PROGRAM)) };
    let two = Ask { stack: (STACK, &PROGRAM), ..Ask::two(arch, (SECTION, &table)) };
    for at in [STACK, 1, SECTION - 1, STACK - 1, STACK + 28, TOP, u64::MAX] {
        list.push(Ask { handlers: at, ..one.clone() }.at(8).cleanup());
        list.push(Ask { program: at, limit: STACK + 15, ..two.clone() }.at(8).cleanup());
        list.push(Ask { program: at, limit: u64::MAX, ..two.clone() }.at(5).search());
    }
    list.extend(Ask::one(arch, (TOP, &table)).at(5).both());
    list.extend(Ask::two(arch, (TOP, &PROGRAM)).at(5).both());
}

/// Random exception, start and file; a table of either version; an offset at a row or near it.
fn random_case(arch: u64, random: &mut Random) -> [String; 2] {
    let table = handler::table(&ROWS);
    let (one, two) = (Ask::one(arch, (SECTION, &table)), Ask::two(arch, (SECTION, &PROGRAM)));
    let ask = if random.below(2) == 0 { one } else { two };
    let ask = Ask {
        exception: random.any_width(),
        interrupted: random.below(8) == 0,
        start: random.any_width(),
        frame: random.below(WIDE),
        file: File::random(arch, random),
        ..ask
    };
    ask.at(random.pick(&[5, 5, 8, 8, 12, 20, 6, 0])).both()
}

/// A section of either version with one to three bytes changed.
fn damaged(arch: u64, random: &mut Random) -> String {
    let version = random.pick(&[1, 2]);
    let mut bytes = if version == 1 { handler::table(&ROWS[..3]) } else { PROGRAM.to_vec() };
    for _ in 0..1 + random.below(3) {
        let at = random.below(bytes.len() as u64) as usize;
        bytes[at] = random.pick(&[0, 1, 2, 0x80, 0xff, bytes[at].wrapping_add(1), bytes[at] ^ 4]);
    }
    let ask = Ask { version, ..Ask::two(arch, (SECTION, &bytes)) };
    ask.at(random.pick(&[5, 8, 12])).in_phase(random.pick(&[1, 2]))
}
