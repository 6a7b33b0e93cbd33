//! Every refusal of the functions that take no frame, with what it hands back: `checked` compares each field. What comes in has
//! another value in each field.
#[allow(dead_code)]
#[path = "../src/checked.rs"]
mod checked;
mod openings;
#[allow(dead_code)]
#[path = "../src/raw.rs"]
mod raw;

use checked::NONE;
use morthwyga::{Memory, RawUnwinding, Record, Regs, State};
use openings::{UNKNOWN, openings};

const SECTION: usize = 0x1000;
const STACK: usize = 0x8000;
const AARCH64: u8 = 1;
const X86_64: u8 = 2;

fn lend<'a>(section: &'a [u8], stack: &'a [u8]) -> Memory<'a> {
    Memory { section, section_base: SECTION, stack, stack_base: STACK }
}

fn regs() -> Regs {
    Regs { r: std::array::from_fn(|i| 0x1_0000_0001 * (i + 1)) }
}

fn with(mut regs: Regs, column: usize, value: usize) -> Regs {
    regs.r[column] = value;
    regs
}

fn state(count: usize) -> State {
    State {
        cfa_fp: true,
        cfa_units: 77,
        count,
        regs: std::array::from_fn(|i| 100 + i as u16),
        slots: std::array::from_fn(|i| 200 + i as u16),
    }
}

/// The call is refused with 28 for every architecture that is not 1 or 2, and only for those.
fn architectures(status: impl Fn(u8) -> u32) {
    assert!(status(AARCH64) != 28 && status(X86_64) != 28);
    openings::architectures(status);
}

#[test]
fn registers() {
    architectures(|arch| checked::strip_pac(arch, usize::MAX).unwrap().status);
    architectures(|arch| checked::get(arch, regs(), 7).unwrap().status);
    architectures(|arch| checked::fp(arch, regs()).unwrap().status);
    architectures(|arch| checked::sp(arch, regs()).unwrap().status);
    architectures(|arch| checked::set(arch, regs(), 7, 5).unwrap().status);
    architectures(|arch| checked::set_sp(arch, regs(), 5).unwrap().status);
    let unknown = [(AARCH64, 32), (AARCH64, 71), (AARCH64, 80), (X86_64, 17), (X86_64, 31), (X86_64, 72), (X86_64, 65535)];
    for (arch, reg) in unknown {
        assert_eq!(checked::get(arch, regs(), reg).unwrap().status, 11);
        assert_eq!(checked::set(arch, regs(), reg, 5).unwrap().status, 11);
    }
}

#[test]
fn states() {
    architectures(|arch| checked::entry(arch).unwrap().status);
    architectures(|arch| checked::restore(arch, state(5), 3).unwrap().status);
    for count in [33, 34, 255, 1 << 32, usize::MAX] {
        assert_eq!(checked::slot(state(count), 100).unwrap().status, 28);
        assert_eq!(checked::save(state(count), 100, 1).unwrap().status, 28);
        assert_eq!(checked::save(state(count), 100, 0).unwrap().status, 28);
        for arch in [AARCH64, X86_64, 0, 3] {
            assert_eq!(checked::restore(arch, state(count), 100).unwrap().status, 28);
        }
    }
    for count in [0, 5, 32] {
        assert_eq!(checked::slot(state(count), 3).unwrap().status, NONE);
        for (reg, slot) in [(100, 0), (100, 65536), (65536, 1), (usize::MAX, 1), (100, usize::MAX)] {
            assert_eq!(checked::save(state(count), reg, slot).unwrap().status, 18);
        }
    }
    assert_eq!(checked::save(state(32), 3, 1).unwrap().status, 32);
    assert_eq!(checked::restore(X86_64, state(32), 16).unwrap().status, 32);
}

#[test]
fn numbers() {
    let uleb = |memory: Memory, pos, limit| checked::read_uleb(memory, pos, limit).unwrap().status;
    let memory = lend(&[0xb9, 0x64, 0x80], &[0x7f, 0x80]);
    openings(memory, |memory| uleb(memory, SECTION, SECTION + 2));
    assert_eq!(uleb(memory, SECTION, SECTION + 1), 30);
    assert_eq!(uleb(memory, SECTION + 2, SECTION + 9), 27);
    assert_eq!(uleb(memory, STACK + 1, usize::MAX), 27);
    assert_eq!(uleb(lend(&[0x80; 5], &[1]), SECTION, SECTION + 5), 31);
    assert_eq!(uleb(lend(&[0xff, 0xff, 0xff, 0xff, 0x1f], &[1]), SECTION, SECTION + 5), 31);
}

/// A chunk with two functions of 16 bytes that touch, from 2000 hexadecimal on.
fn chunk(arch: u8, version: u8, fields: [u32; 2]) -> Vec<u8> {
    let stride = if version == 1 { 16 } else { 12 };
    let mut bytes = vec![0x45, 0x4b, 0x55, 0x57, version, arch, 1, 0];
    bytes.extend([2u32, 16 + 2 * stride + 4].iter().flat_map(|word| word.to_le_bytes()));
    for (i, field) in fields.into_iter().enumerate() {
        let start = 0x2000 + 16 * i - (SECTION + 16 + stride as usize * i);
        let words = [start as u32, 16, field, 0];
        bytes.extend(words.iter().take(stride as usize / 4).flat_map(|word| word.to_le_bytes()));
    }
    bytes.extend([0; 4]);
    bytes
}

#[test]
fn lookups() {
    for arch in [AARCH64, X86_64] {
        for (version, fields) in [(1, [0, 0]), (2, [0, 40])] {
            let good = chunk(arch, version, fields);
            let at = |section: &[u8]| checked::lookup(lend(section, &[1]), arch, 0x2018).unwrap().status;
            openings(lend(&good, &[1, 2]), |memory| checked::lookup(memory, arch, 0x2018).unwrap().status);
            for unknown in UNKNOWN {
                assert_eq!(checked::lookup(lend(&good, &[]), unknown, 0x2018).unwrap().status, 28);
            }
            assert_eq!(checked::lookup(lend(&good, &[]), arch, 0x2020).unwrap().status, NONE);
            for (place, byte, number) in [(6, 3, 17), (4, 3, 17), (5, 3 - arch, 17), (0, 1, 17), (12, 17, 17), (20, 17, 19)] {
                let mut section = good.clone();
                section[place] = byte;
                assert_eq!(at(&section), number, "byte {place}");
            }
        }
        assert_eq!(checked::lookup(lend(&chunk(arch, 2, [0, 1 << 31]), &[]), arch, 0x2018).unwrap().status, 18);
        assert_eq!(checked::lookup(lend(&chunk(arch, 2, [0, 44]), &[]), arch, 0x2018).unwrap().status, 18);
    }
}

#[test]
fn programs() {
    let good = [0x83, 0x02, 0xc9, 0x00];
    let run = |memory: Memory, arch| checked::run(memory, arch, SECTION, SECTION + 9, 0).unwrap().status;
    architectures(|arch| run(lend(&good, &[1]), arch));
    for arch in [AARCH64, X86_64] {
        openings(lend(&good, &[1, 2]), |memory| run(memory, arch));
        let faults: [(&[u8], u32); 7] = [
            (&[0x83, 0x02, 0xc9], 27),
            (&[0x83, 0x02, 0xd0, 0x00], 18),
            (&[0x83, 0x00, 0x00], 18),
            (&[0x83, 0x02, 0xc8, 0x00], 18),
            (&[0x83, 0x80, 0x80, 0x80, 0x80, 0x80], 31),
            (&[0x83, 0x02, 0xc7, 0xc7, 0xc7, 0xc7, 0xc7], 10),
            (&[0xc9, 0, 0, 0, 0, 0, 0, 0, 0], 0),
        ];
        for (program, number) in faults {
            assert_eq!(run(lend(program, &[]), arch), number, "{program:x?}");
        }
        assert_eq!(checked::run(lend(&good, &[]), arch, SECTION, SECTION + 3, 0).unwrap().status, 30);
    }
}

#[test]
fn callers_by_a_state() {
    let stack = [9; 32];
    for (arch, fp, ra) in [(AARCH64, 29, 30), (X86_64, 6, 16)] {
        let pairs = |reg, slot, count| State { count, cfa_units: 2, ..pair(reg, slot) };
        let apply = |memory: Memory, arch, state, fp_value| {
            checked::apply(memory, arch, state, with(regs(), fp, fp_value)).unwrap().status
        };
        let memory = lend(&[1, 2, 3], &stack);
        let good = pairs(ra, 1, 1);
        openings(memory, |memory| apply(memory, arch, good, STACK));
        for unknown in UNKNOWN {
            assert_eq!(apply(memory, unknown, good, STACK), 28);
        }
        for count in [33, usize::MAX] {
            assert_eq!(apply(memory, arch, State { count, ..good }, STACK), 28);
        }
        for bad in [0, STACK + 4, STACK + 1] {
            assert_eq!(apply(memory, arch, good, bad), 23);
        }
        assert_eq!(apply(memory, arch, good, 16usize.wrapping_neg()), 12);
        assert_eq!(apply(memory, arch, good, STACK + 32), 27);
        assert_eq!(apply(memory, arch, pairs(ra, 3, 1), STACK), 27);
        assert_eq!(apply(memory, arch, pairs(99, 1, 1), STACK), 11);
        let second = State { regs: two(3, 99), slots: two(1, 2), count: 2, ..good };
        assert_eq!(apply(memory, arch, second, STACK), 11);
    }
}

fn two(first: u16, second: u16) -> [u16; 32] {
    std::array::from_fn(|i| [first, second].get(i).copied().unwrap_or(300 + i as u16))
}

fn pair(reg: u16, slot: u16) -> State {
    State { regs: two(reg, 0), slots: two(slot, 0), ..state(1) }
}

#[test]
fn callers_by_a_frame_word() {
    let stack = [9; 64];
    for (arch, fp, sp) in [(AARCH64, 29, 31), (X86_64, 6, 7)] {
        let file = |fp_value, sp_value| with(with(regs(), fp, fp_value), sp, sp_value);
        let step = |memory: Memory, arch, frame, first, regs| checked::step(memory, arch, frame, first, regs).unwrap().status;
        let memory = lend(&[1, 2, 3], &stack);
        let (fp_word, sp_word, leaf) = (1 | 1 << 3 | 3 << 21, 2 | 1 << 3 | 2 << 21, 1 << 21);
        let good = file(STACK + 16, STACK);
        for (frame, first) in [(fp_word, false), (sp_word, false), (leaf, true)] {
            openings(memory, |memory| step(memory, arch, frame, first, good));
            for unknown in UNKNOWN {
                assert_eq!(step(memory, unknown, frame, first, good), 28);
            }
            assert_eq!(step(memory, arch, frame, !first, good), if first { 18 } else { 25 });
        }
        let past_the_table = if arch == X86_64 { 1 | 1 << 8 } else { 3 };
        for bad in [past_the_table, leaf | 1 << 3, 3, 1 | 1 << 3 | 2 << 21] {
            assert_eq!(step(memory, arch, bad, bad & 3 == 0, good), 18, "word {bad:x}");
        }
        for bad in [0, STACK + 12, 1] {
            assert_eq!(step(memory, arch, fp_word, false, file(bad, STACK)), 23);
        }
        assert_eq!(step(memory, arch, fp_word, false, file(STACK, STACK)), 27);
        assert_eq!(step(memory, arch, sp_word, false, file(1, STACK + 40)), 27);
        assert_eq!(step(memory, arch, sp_word, false, file(1, usize::MAX - 7)), 27);
    }
}

/// A version 1 table.
fn table(rows: &[[u32; 3]]) -> Vec<u8> {
    let words = rows.iter().flatten();
    [rows.len() as u32].iter().chain(words).flat_map(|word| word.to_le_bytes()).collect()
}

/// Tables of both versions with the row of offset 5, and what is wrong with it.
fn tables() -> [(Vec<u8>, Vec<u8>, u32); 8] {
    [
        (table(&[[5, 10, 1]]), vec![1, 5, 41], 0),
        (table(&[[4, 10, 1], [6, 10, 1]]), vec![2, 4, 41, 2, 41], NONE),
        (table(&[[5, 10, 3]]), vec![1, 5, 43], 18),
        (table(&[[5, 0, 1]]), vec![1, 5, 1], 18),
        (table(&[[5, 10, 2]]), vec![1, 5, 42], 18),
        (table(&[[5, 10, 3], [5, 10, 1]]), vec![2, 5, 43, 0, 41], 24),
        (table(&[[5, 10, 1], [5, 10, 1]]), vec![2, 5, 41, 0, 41], 24),
        (table(&[[5, 10, 1], [9, 1, 0]])[..10].to_vec(), vec![2, 5], 27),
    ]
}

#[test]
fn rows() {
    for (table, table2, number) in tables() {
        let handler = |memory: Memory| checked::handler(memory, SECTION, 5).unwrap().status;
        let handler2 = |memory: Memory| checked::handler2(memory, SECTION, SECTION + 99, 5).unwrap().status;
        assert_eq!(handler(lend(&table, &[1, 2])), number);
        assert_eq!(handler2(lend(&table2, &[1, 2])), number);
        openings(lend(&table, &[1, 2]), handler);
        openings(lend(&table2, &[1, 2]), handler2);
    }
    assert_eq!(checked::handler2(lend(&[1, 5, 41], &[]), SECTION, SECTION + 2, 5).unwrap().status, 30);
}

#[test]
fn reasons() {
    let file = with(regs(), 40, 0x2005);
    for (arch, cleanup, interrupted) in [(AARCH64, false, false), (X86_64, true, false), (AARCH64, true, true), (X86_64, false, true)] {
        for (table, table2, number) in tables() {
            let program = [&[0xc9, 0x00], &table2[..]].concat();
            for (version, section) in [(1, &table), (2, &program)] {
                let (program, limit) = if version == 1 { (0, 0) } else { (SECTION, SECTION + 99) };
                let function =
                    Record { start: 0x2000, end: 0x2010, frame: 7, handlers: SECTION, program, limit, version };
                let reason = |memory: Memory, arch| {
                    checked::personality(memory, arch, cleanup, 77, interrupted, function, file).unwrap().status
                };
                let memory = lend(section, &[1, 2]);
                let refused = number > NONE && !interrupted;
                assert_eq!(reason(memory, arch), if refused { number } else { 0 });
                openings(memory, |memory| reason(memory, arch));
                for unknown in UNKNOWN {
                    assert_eq!(reason(memory, unknown), 28);
                }
            }
        }
    }
}

#[test]
fn programs_before_rows() {
    let file = with(regs(), 40, 0x2005);
    for (program, number) in [(vec![0xc7; 5], 10), (vec![0xd0], 18), (vec![0x83], 27), (vec![0x40, 0x83, 0x00], 18)] {
        let function = Record {
            start: 0x2000,
            end: 0x2010,
            frame: 7,
            handlers: SECTION,
            program: SECTION,
            limit: SECTION + 99,
            version: 2,
        };
        for (arch, cleanup) in [(AARCH64, true), (X86_64, false)] {
            let told = checked::personality(lend(&program, &[1]), arch, cleanup, 77, false, function, file).unwrap();
            assert_eq!(told.status, number);
        }
    }
}
