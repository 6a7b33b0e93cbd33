//! Throws that are not refused.
use crate::format::{Capture, Sample};
use crate::job::Job;
use crate::section::{CATCHES, CLEANS, Framed, Function, Row, SECTION, TERMINATES, chunk1, chunk2, ret, start};
use morthwyga::Arch;

/// After 4 bytes the frame pointer is set up.
const ENTER: &[u8] = &[0x04, 0xc9, 0x00];

/// After 2 more register 3 is saved in slot 3 and register 12 in slot 4.
const ENTER_AND_SAVE: &[u8] = &[0x04, 0xc9, 0x02, 0x83, 3, 0x8c, 4, 0x00];

/// On aarch64: after 1 instruction the frame pointer, after 1 more registers 19 and 20.
const ENTER_AARCH64: &[u8] = &[0x01, 0xc9, 0x00];
const ENTER_AND_SAVE_AARCH64: &[u8] = &[0x01, 0xc9, 0x01, 0x93, 3, 0x94, 4, 0x00];

/// Version 1: registers 3 and 13 below the frame pointer, in slots 3 and 4.
const SAVED_BELOW_FP: u32 = 1 | 0b101 << 3 | 3 << 21;

/// Version 1, without frame pointer: 32 bytes in all, register 3 in slot 2.
const SAVED_BY_SP: u32 = 2 | 0b1 << 3 | 2 << 21;

/// A function's second call returns to this offset and has no row.
const SECOND: usize = 0x1c;

/// Six functions in two chunks, one of each version.
fn deep_section() -> Vec<u8> {
    let functions = [
        Function { program: ENTER, rows: CATCHES },
        Function { program: ENTER_AND_SAVE, rows: CLEANS },
        Function { program: ENTER_AND_SAVE, rows: CLEANS },
        Function { program: &[0x00], rows: &[] },
    ];
    let framed = [Framed { word: SAVED_BELOW_FP, rows: CLEANS }, Framed { word: SAVED_BY_SP, rows: &[] }];
    let mut section = chunk2(Arch::X86_64, SECTION, 0, &functions);
    let at = SECTION + section.len();
    section.extend(chunk1(Arch::X86_64, at, 4, &framed));
    section
}

/// Eight frames: functions 0, 4, 1, then 2, which calls itself from two places, then 5 and 3.
fn deep() -> Capture {
    let mut job = Job::new(Arch::X86_64);
    job.call(0);
    job.enter();
    job.room(2);
    job.call(ret(0));
    job.enter();
    job.save(3);
    job.save(13);
    job.set(3, 0xb1);
    job.set(13, 0xd1);
    for (back, value) in [(ret(4), 0x21), (ret(1), 0x22), (ret(2), 0x23), (start(2) + SECOND, 0x24)] {
        job.call(back);
        job.enter();
        job.save(3);
        job.save(12);
        job.set(3, 0xb00 + value);
        job.set(12, 0xc00 + value);
    }
    job.call(ret(2));
    job.save(3);
    job.room(2);
    job.set(3, 0xb2);
    job.call(ret(5));
    job.throw(deep_section(), ret(3))
}

/// Four frames on aarch64: a catch, a cleanup, no row, a cleanup.
fn aarch64() -> Capture {
    let functions = [
        Function { program: ENTER_AARCH64, rows: CATCHES },
        Function { program: ENTER_AND_SAVE_AARCH64, rows: CLEANS },
        Function { program: ENTER_AARCH64, rows: &[] },
        Function { program: ENTER_AND_SAVE_AARCH64, rows: CLEANS },
    ];
    let mut job = Job::new(Arch::Aarch64);
    for (i, back) in [0, ret(0), ret(1), ret(2)].into_iter().enumerate() {
        job.call(back);
        job.enter();
        if i % 2 == 1 {
            job.save(19);
            job.save(20);
            job.set(19, 0x1900 + i);
            job.set(20, 0x2000 + i);
        }
    }
    job.throw(chunk2(Arch::Aarch64, SECTION, 0, &functions), ret(3))
}

/// Three frames: the outermost has these rows, the middle one cleans up, the innermost would catch.
fn three(rows: &'static [Row]) -> Capture {
    let functions = [
        Function { program: ENTER, rows },
        Function { program: ENTER, rows: CLEANS },
        Function { program: ENTER, rows: CATCHES },
    ];
    let mut job = Job::new(Arch::X86_64);
    for back in [0, ret(0), ret(1)] {
        job.call(back);
        job.enter();
    }
    job.throw(chunk2(Arch::X86_64, SECTION, 0, &functions), ret(2))
}

/// The same, thrown where the innermost has no row.
fn thrown_elsewhere(rows: &'static [Row]) -> Capture {
    Capture { pc: start(2) + SECOND, ..three(rows) }
}

pub fn samples() -> Vec<Sample> {
    vec![
        ("cleanups-and-catch", deep().bytes()),
        ("cleanups-and-catch-aarch64", aarch64().bytes()),
        ("terminate", thrown_elsewhere(TERMINATES).bytes()),
        ("no-catch", thrown_elsewhere(&[]).bytes()),
        ("interrupt", Capture { interrupted: true, ..three(CATCHES) }.bytes()),
    ]
}
