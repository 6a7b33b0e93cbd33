//! Every function of the C interface with what it hands back where it has no values: zeros, and each file, state, frame or unwinding
//! that came in (crates/answers/specs/Interface.antt). The programs and tests that ask the library call it by these, and are told
//! of the first field that is another.
use std::fmt::Debug;

use morthwyga::{Memory, PC_COLUMN, RawUnwinding, Record, Regs, State};

use crate::raw;

/// What a call handed back, and what it should have.
#[derive(Debug)]
pub struct Wrong(pub String);

pub type Told<T> = Result<T, Wrong>;

/// The status of an answer with values, and of none.
pub const ANSWERED: u32 = 0;
pub const NONE: u32 = 1;

/// What stands for a record where there is none.
pub const NO_RECORD: Record = Record { start: 0, end: 0, frame: 0, handlers: 0, program: 0, limit: 0, version: 0 };

/// The most frames of one call of walk.
const BATCH: usize = 16;

/// That two fields, or several, are the same.
fn same<F: PartialEq + Debug>(what: &str, status: u32, told: F, due: F) -> Told<()> {
    if told == due { Ok(()) } else { Err(Wrong(format!("{what} of status {status} hands back {told:x?}, not {due:x?}"))) }
}

/// The same, where the status has no values.
fn unanswered<F: PartialEq + Debug>(what: &str, status: u32, told: F, due: F) -> Told<()> {
    if status == ANSWERED { Ok(()) } else { same(what, status, told, due) }
}

/// The state at a function's entry; every architecture but 1 has that of x86-64, and is refused.
pub fn entry_state(arch: u8) -> State {
    let (mut regs, mut slots) = ([0; 32], [0; 32]);
    let pushed = (arch != 1) as u16;
    (regs[0], slots[0]) = (16 * pushed, pushed);
    State { cfa_fp: false, cfa_units: pushed as u32, count: pushed as usize, regs, slots }
}

/// Calls a function of the library with what is lent and further arguments.
macro_rules! lend {
    ($memory:expr, $function:ident, $($argument:expr),*) => {{
        let m = $memory;
        // Safety: both pointers are those of slices that live through the call, each with its length, and the library only
        // reads them.
        unsafe {
            raw::$function(
                m.section.as_ptr(), m.section.len(), m.section_base,
                m.stack.as_ptr(), m.stack.len(), m.stack_base,
                $($argument),*
            )
        }
    }};
}

pub fn strip_pac(arch: u8, address: usize) -> Told<raw::Number> {
    let a = raw::eko_strip_pac(arch, address);
    unanswered("strip_pac", a.status, a.value, 0)?;
    Ok(a)
}

pub fn get(arch: u8, regs: Regs, reg: u16) -> Told<raw::Number> {
    let a = raw::eko_get(arch, regs, reg);
    unanswered("get", a.status, a.value, 0)?;
    Ok(a)
}

pub fn fp(arch: u8, regs: Regs) -> Told<raw::Number> {
    let a = raw::eko_fp(arch, regs);
    unanswered("fp", a.status, a.value, 0)?;
    Ok(a)
}

pub fn sp(arch: u8, regs: Regs) -> Told<raw::Number> {
    let a = raw::eko_sp(arch, regs);
    unanswered("sp", a.status, a.value, 0)?;
    Ok(a)
}

pub fn set(arch: u8, regs: Regs, reg: u16, value: usize) -> Told<raw::File> {
    let a = raw::eko_set(arch, regs, reg, value);
    unanswered("set", a.status, a.regs, regs)?;
    Ok(a)
}

pub fn set_sp(arch: u8, regs: Regs, value: usize) -> Told<raw::File> {
    let a = raw::eko_set_sp(arch, regs, value);
    unanswered("set_sp", a.status, a.regs, regs)?;
    Ok(a)
}

pub fn entry(arch: u8) -> Told<raw::Changed> {
    let a = raw::eko_entry(arch);
    same("entry", a.status, a.state, entry_state(arch))?;
    Ok(a)
}

pub fn slot(state: State, reg: u16) -> Told<raw::Number> {
    let a = raw::eko_slot(state, reg);
    unanswered("slot", a.status, a.value, 0)?;
    Ok(a)
}

pub fn save(state: State, reg: usize, slot: usize) -> Told<raw::Changed> {
    let a = raw::eko_save(state, reg, slot);
    unanswered("save", a.status, a.state, state)?;
    Ok(a)
}

pub fn restore(arch: u8, state: State, reg: usize) -> Told<raw::Changed> {
    let a = raw::eko_restore(arch, state, reg);
    unanswered("restore", a.status, a.state, state)?;
    Ok(a)
}

pub fn lookup(memory: Memory, arch: u8, pc: usize) -> Told<raw::Function> {
    let a = lend!(memory, eko_lookup, pc, arch);
    unanswered("lookup", a.status, a.found, NO_RECORD)?;
    Ok(a)
}

pub fn read_uleb(memory: Memory, pos: usize, limit: usize) -> Told<raw::Read> {
    let a = lend!(memory, eko_read_uleb, pos, limit);
    unanswered("read_uleb", a.status, (a.value, a.next), (0, 0))?;
    Ok(a)
}

pub fn run(memory: Memory, arch: u8, program: usize, limit: usize, off: usize) -> Told<raw::Ended> {
    let a = lend!(memory, eko_run, arch, program, limit, off);
    unanswered("run", a.status, (a.state, a.after), (entry_state(arch), 0))?;
    Ok(a)
}

pub fn apply(memory: Memory, arch: u8, state: State, regs: Regs) -> Told<raw::File> {
    let a = lend!(memory, eko_apply, arch, state, regs);
    unanswered("apply", a.status, a.regs, regs)?;
    Ok(a)
}

pub fn step(memory: Memory, arch: u8, frame: u32, first: bool, regs: Regs) -> Told<raw::File> {
    let a = lend!(memory, eko_step, arch, frame, first, regs);
    unanswered("step", a.status, a.regs, regs)?;
    Ok(a)
}

pub fn handler(memory: Memory, table: usize, ret: u32) -> Told<raw::RowFound> {
    let a = lend!(memory, eko_handler, table, ret);
    unanswered("handler", a.status, (a.pad, a.action), (0, 0))?;
    Ok(a)
}

pub fn handler2(memory: Memory, table: usize, limit: usize, ret: u32) -> Told<raw::RowFound> {
    let a = lend!(memory, eko_handler2, table, limit, ret);
    unanswered("handler2", a.status, (a.pad, a.action), (0, 0))?;
    Ok(a)
}

pub fn personality(
    memory: Memory,
    arch: u8,
    cleanup: bool,
    exception: usize,
    interrupted: bool,
    function: Record,
    regs: Regs,
) -> Told<raw::Decided> {
    let a = lend!(memory, eko_personality, arch, cleanup, exception, interrupted, function, regs);
    unanswered("personality", a.status, (a.reason, a.regs), (0, regs))?;
    Ok(a)
}

pub fn next_frame(memory: Memory, arch: u8, number: usize, interrupted: bool, regs: Regs) -> Told<raw::Stepped> {
    let a = lend!(memory, eko_next_frame, arch, number, interrupted, regs);
    let told = (a.function, a.number, a.interrupted, a.regs);
    unanswered("next_frame", a.status, told, (NO_RECORD, number, interrupted, regs))?;
    Ok(a)
}

/// Sixteen single steps, or those up to the end or a refusal; then the frame that came in is handed back.
pub fn walk(memory: Memory, arch: u8, number: usize, interrupted: bool, regs: Regs) -> Told<raw::Batch> {
    let a = lend!(memory, eko_walk, arch, number, interrupted, regs);
    let (mut starts, mut pcs, mut sps) = ([0; BATCH], [0; BATCH], [0; BATCH]);
    let mut due = (number, interrupted, regs);
    let (mut count, mut status) = (0, ANSWERED);
    while count < BATCH {
        let step = next_frame(memory, arch, due.0, due.1, due.2)?;
        if step.status != ANSWERED {
            (status, due) = (step.status, (number, interrupted, regs));
            break;
        }
        let stack_pointer = sp(arch, due.2)?.value;
        (starts[count], pcs[count], sps[count]) = (step.function.start, due.2.r[PC_COLUMN], stack_pointer);
        due = (step.number, step.interrupted, step.regs);
        count += 1;
    }
    let f = &a.frames;
    same("walk", a.status, (f.count, f.starts, f.pcs, f.sps), (count, starts, pcs, sps))?;
    same("walk", a.status, (a.status, a.number, a.interrupted, a.regs), (status, due.0, due.1, due.2))?;
    Ok(a)
}

/// The unwinding stands at frame 0. A refusal hands back the file as it came, every other answer with the pc of the throw.
pub fn raise(memory: Memory, arch: u8, regs: Regs, pc: usize, interrupted: bool, exception: usize) -> Told<raw::Raised> {
    let a = lend!(memory, eko_raise, arch, regs, pc, interrupted, exception);
    let told = (a.reason, a.number, a.sp, a.unwinding);
    let mut parts = RawUnwinding { regs, number: 0, interrupted, exception, chosen_number: 0, chosen_sp: 0, chosen: false };
    if a.status == ANSWERED {
        parts.regs.r[PC_COLUMN] = pc;
    }
    let chosen = RawUnwinding { chosen_number: a.number, chosen_sp: a.sp, chosen: true, ..parts };
    let due = match (a.status, a.reason) {
        (ANSWERED, 6) => (6, a.number, a.sp, chosen),
        (ANSWERED, 3) => (3, 0, 0, parts),
        (ANSWERED, 5) => (5, 0, 0, parts),
        _ => (0, 0, 0, parts),
    };
    same("raise", a.status, told, due)?;
    Ok(a)
}

/// Past the frame that landed, with the exception and the chosen frame as they were; else as it came.
pub fn resume(memory: Memory, arch: u8, given: RawUnwinding) -> Told<raw::Resumed> {
    let a = lend!(memory, eko_resume, arch, given);
    let next = a.unwinding;
    let told = (a.reason, a.number, a.regs, next);
    let landed = RawUnwinding { regs: next.regs, number: a.number.wrapping_add(1), interrupted: false, ..given };
    let due = match (a.status, a.reason) {
        (ANSWERED, 7) => (7, a.number, a.regs, landed),
        (ANSWERED, _) => (2, 0, given.regs, given),
        _ => (0, 0, given.regs, given),
    };
    same("resume", a.status, told, due)?;
    Ok(a)
}
