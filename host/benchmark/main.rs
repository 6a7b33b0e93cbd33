//! The library against the Rust, x86-64: both in this process, on the same memory. The Rust is called as a crate, the library
//! through its C interface; a line per case.
mod cold;
#[allow(dead_code)]
#[path = "../src/raw.rs"]
mod raw;
mod stacks;
mod tables;
mod timing;

use morthwyga::{PC_COLUMN, RawUnwinding, Record, Regs, State};
use ps_unwind::abi::{Cursor, UA_CLEANUP_PHASE};
use ps_unwind::arch;
use ps_unwind::eko::{self, HOST};
use ps_unwind::failure;
use ps_unwind::frame::{FrameInfo, Kind};
use timing::{measure, picks};

/// The library's number of x86-64, and its status of an answer and of none.
const X86_64: u8 = 2;
const ANSWERED: u32 = 0;
const NONE: u32 = 1;

/// The frame pointer's column.
const FP: usize = 6;

/// Where a case's code lies; nothing is read there.
const START: usize = 0x5000_0000;

fn main() {
    timing::head();
    [10, 1_000, 100_000].into_iter().for_each(lookup);
    [8, 64, 512].into_iter().for_each(run);
    apply();
    step();
    [4, 4_096].into_iter().for_each(handler);
    [4, 256].into_iter().for_each(handler2);
    personality();
    personality2();
    for version in [1, 2] {
        [10, 100, 1_000].into_iter().for_each(|frames| throws::all(version, frames, 1));
    }
    for version in [1, 2] {
        [16, 64].into_iter().for_each(|chunks| throws::all(version, 100, chunks));
    }
    cold::head();
    for version in [1, 2] {
        [10, 100].into_iter().for_each(|frames| throws::all_cold(version, frames));
    }
}

fn address(bytes: &[u8]) -> usize {
    bytes.as_ptr() as usize
}

/// Calls a function of the library with a section and a stack, each at its own address, and further arguments.
macro_rules! lend {
    ($function:ident, $section:expr, $stack:expr, $($argument:expr),*) => {{
        let (section, stack): (&[u8], &[u8]) = ($section, $stack);
        // Safety: both slices live through the call, and the library only reads them.
        unsafe {
            raw::$function(
                section.as_ptr(), section.len(), address(section),
                stack.as_ptr(), stack.len(), address(stack),
                $($argument),*
            )
        }
    }};
}

mod throws;

/// pcs in random functions, one in eight past the last.
fn lookup(records: usize) {
    let (section, first) = tables::section(records);
    let mut pcs: Vec<_> = picks(records).map(|i| first + tables::STRIDE * i + i % tables::STRIDE).collect();
    pcs.iter_mut().step_by(8).for_each(|pc| *pc = first + tables::STRIDE * records);
    measure(
        &format!("lookup {records} records"),
        |i| eko::lookup(address(&section), section.len(), pcs[i]),
        |i| lend!(eko_lookup, &section, &[], pcs[i], X86_64),
        |rust, ours| match rust {
            Ok(Some(r)) => {
                ours.status == ANSWERED
                    && (r.start, r.end, r.limit) == (ours.found.start, ours.found.end, ours.found.limit)
            }
            Ok(None) => ours.status == NONE,
            Err(_) => false,
        },
    );
}

/// Offsets about the middle of the code, and at its end.
fn run(operations: usize) {
    let (program, code) = tables::program(operations);
    let (at, limit) = (address(&program), address(&program) + program.len());
    for (place, first) in [("the middle", code / 2 - 2), ("the end", code)] {
        let offs: Vec<_> = picks(4).map(|i| first + i).collect();
        measure(
            &format!("run {operations} operations, at {place}"),
            |i| eko::run(&HOST, at, limit, offs[i]),
            |i| lend!(eko_run, &program, &[], X86_64, at, limit, offs[i]),
            |rust, ours| {
                rust.as_ref().is_ok_and(|(state, after)| {
                    (ours.status, ours.after, theirs(&ours.state)) == (ANSWERED, *after, *state)
                })
            },
        );
    }
}

/// A state of ours as the Rust has it.
fn theirs(state: &State) -> eko::State {
    let State { cfa_fp, cfa_units, count, regs, slots } = *state;
    eko::State { cfa_fp, cfa_units, count, saved: std::array::from_fn(|i| (regs[i], slots[i])) }
}

/// A stack, and for each input a frame pointer in it.
fn frames() -> (Vec<u8>, Vec<usize>) {
    let stack: Vec<u8> = (0..8192).map(|i| (i * 37 % 251) as u8).collect();
    let base = address(&stack).next_multiple_of(8);
    (stack, picks(120).map(|i| base + 64 + 64 * i).collect())
}

/// A register file, and the same as we have it.
fn files() -> (arch::Regs, Regs) {
    let regs = arch::Regs { r: std::array::from_fn(|n| 1000 + n), pc: START };
    (regs, file(&regs))
}

fn file(regs: &arch::Regs) -> Regs {
    let mut r = [0; 41];
    r[..16].copy_from_slice(&regs.r);
    r[PC_COLUMN] = regs.pc;
    Regs { r }
}

fn same_file(rust: &failure::Result<arch::Regs>, ours: &raw::File) -> bool {
    ours.status == ANSWERED && rust.as_ref().is_ok_and(|regs| file(regs) == ours.regs)
}

/// CFA from fp, with the return address, fp and all preserved registers saved.
fn apply() {
    let ((stack, fps), (mut regs, mut file)) = (frames(), files());
    let (mut saved, mut slots) = ([0; 32], [0; 32]);
    saved[..7].copy_from_slice(&[16, 6, 3, 12, 13, 14, 15]);
    slots[..7].copy_from_slice(&[1, 2, 3, 4, 5, 6, 7]);
    let state = State { cfa_fp: true, cfa_units: 2, count: 7, regs: saved, slots };
    let rust = theirs(&state);
    measure(
        "apply 7 pairs",
        |i| {
            regs.r[FP] = fps[i];
            eko::apply(&HOST, &rust, &regs)
        },
        |i| {
            file.r[FP] = fps[i];
            lend!(eko_apply, &[], &stack, X86_64, state, file)
        },
        same_file,
    );
}

/// The same frame as a version 1 word.
fn step() {
    let ((stack, fps), (mut regs, mut file)) = (frames(), files());
    let frame = eko::KIND_FP | 0x1f << 3 | 3 << 21;
    measure(
        "step 5 registers",
        |i| {
            regs.r[FP] = fps[i];
            eko::step(frame, &regs, false)
        },
        |i| {
            file.r[FP] = fps[i];
            lend!(eko_step, &[], &stack, X86_64, frame, false, file)
        },
        same_file,
    );
}

/// Return offsets of random rows, one in eight of none.
fn offsets(rows: usize) -> Vec<u32> {
    let mut offsets: Vec<_> = picks(rows).map(tables::offset).collect();
    offsets.iter_mut().step_by(8).for_each(|offset| *offset += 1);
    offsets
}

fn same_row(rust: &failure::Result<Option<(u32, u32)>>, ours: &raw::RowFound) -> bool {
    match rust {
        Ok(Some((pad, action))) => (ours.status, ours.pad, ours.action) == (ANSWERED, *pad as usize, *action as usize),
        Ok(None) => ours.status == NONE,
        Err(_) => false,
    }
}

fn handler(rows: usize) {
    let (table, offsets) = (tables::rows(rows), offsets(rows));
    let at = address(&table);
    measure(
        &format!("handler {rows} rows"),
        |i| eko::handler(at, offsets[i]),
        |i| lend!(eko_handler, &table, &[], at, offsets[i]),
        same_row,
    );
}

fn handler2(rows: usize) {
    let (table, offsets) = (tables::rows2(rows), offsets(rows));
    let (at, limit) = (address(&table), address(&table) + table.len());
    measure(
        &format!("handler2 {rows} rows"),
        |i| eko::handler2(at, limit, offsets[i]),
        |i| lend!(eko_handler2, &table, &[], at, limit, offsets[i]),
        same_row,
    );
}

/// A version 1 frame with 4 rows.
fn personality() {
    let table = tables::rows(4);
    let at = address(&table);
    let function = Record { start: START, end: 0, frame: 0, handlers: at, program: 0, limit: 0, version: 1 };
    decide("personality, version 1, 4 rows", &table, function, Kind::Eko(0));
}

/// A version 2 frame with a program of 8 operations and 4 rows.
fn personality2() {
    let mut section = tables::program(8).0;
    section.extend(tables::rows2(4));
    let (program, limit) = (address(&section), address(&section) + section.len());
    let function = Record { start: START, end: 0, frame: 0, handlers: program, program, limit, version: 2 };
    decide("personality, version 2, 8 operations, 4 rows", &section, function, Kind::Eko2 { program, limit });
}

/// The cleanup phase. The Rust changes its cursor in place; only pc is set anew for each call.
fn decide(name: &str, section: &[u8], function: Record, kind: Kind) {
    let pcs: Vec<_> = offsets(4).into_iter().map(|offset| START + offset as usize).collect();
    let (regs, mut file) = files();
    let info = FrameInfo { start: START, eko_handlers: function.handlers, kind };
    let mut cursor = Cursor { regs, info, ip_before_insn: false };
    measure(
        name,
        |i| {
            cursor.regs.pc = pcs[i];
            let reason = eko::personality(UA_CLEANUP_PHASE, 99 as *mut _, &mut cursor);
            (reason, cursor.regs.pc)
        },
        |i| {
            file.r[PC_COLUMN] = pcs[i];
            lend!(eko_personality, section, &[], X86_64, true, 99, false, function, file)
        },
        |(reason, pc), ours| {
            reason.as_ref().is_ok_and(|reason| (*reason, *pc) == (ours.reason, ours.regs.r[PC_COLUMN]))
        },
    );
}
