//! Unwinding by EKO tables, proved: the safe interface over Morthwyga's static library.
//!
//! Memory is lent as [`Memory`]: the bytes of an EKO section and of a stack, each with the address of its first byte. The
//! library reads nothing else and writes nothing. Every function takes every input and returns; what it cannot answer it
//! refuses with a [`Failure`].
//!
//! ```
//! use morthwyga::{Arch, Failure, Memory};
//!
//! let memory = Memory { section: &[], section_base: 0x1000, stack: &[], stack_base: 0x2000 };
//! assert_eq!(memory.lookup(Arch::X86_64, 0x1234), Ok(None));
//! let refused = Memory { stack_base: 0, ..memory }.lookup(Arch::X86_64, 0x1234).unwrap_err();
//! assert_eq!((refused, refused.number()), (Failure::BadOpening, 28));
//! assert_eq!(refused.to_string(), "28 BadOpening: the opening rule is broken, or a state counts more than 32 pairs.");
//! ```
//!
//! A throw is [`Memory::raise`], and after it [`Memory::resume`] until it has finished: each gives the next landing. Both hand back an
//! [`Unwinding`], which the next call takes.
//!
//! ```
//! use morthwyga::{Arch, Memory, Raised, Regs, Resumed};
//!
//! // One function, 5000 to 5010 hexadecimal. Its call that returns to 5005 has a catch with the pad 5008.
//! let section = [
//!     0x45, 0x4b, 0x55, 0x57, 2, 2, 1, 0, 1, 0, 0, 0, 32, 0, 0, 0, // a chunk of version 2 for x86-64 with 1 record, 32 bytes
//!     0xf0, 0x3f, 0, 0, 16, 0, 0, 0, 28, 0, 0, 0x80, // its start from here, its length, its program at 28 with rows
//!     0x00, 0x01, 0x05, 0x21, // END; 1 row: offset 5, pad 8, catch
//! ];
//! // On the stack its return address, 0: nobody called it.
//! let memory = Memory { section: &section, section_base: 0x1000, stack: &[0; 8], stack_base: 0x2000 };
//! let mut regs = Regs { r: [0; 41] };
//! regs.r[7] = 0x2000;
//!
//! let (raised, unwinding) = memory.raise(Arch::X86_64, regs, 0x5005, false, 77);
//! assert_eq!(raised, Ok(Raised::Chosen { number: 0, sp: 0x2000 }));
//! let (resumed, unwinding) = memory.resume(Arch::X86_64, unwinding);
//! let Ok(Resumed::Landing { number: 0, regs }) = resumed else { panic!() };
//! assert_eq!((regs.pc(), regs.r[0]), (0x5008, 77));
//! let (resumed, _) = memory.resume(Arch::X86_64, unwinding);
//! assert_eq!(resumed, Ok(Resumed::Finished));
//! ```
//!
//! The numbers that the library answers are those that this crate knows. An unknown one is a panic that names it: then crate and
//! library were not built together.
//!
//! [`Memory::capture`] writes the arguments of a throw to a file, to be looked at later.
#![warn(missing_docs)]
mod failure;
#[cfg(test)]
mod layout;
mod raw;

pub use failure::Failure;
use failure::unknown;

/// An architecture, by the number that an EKO section names it with.
#[derive(Clone, Copy, PartialEq, Eq, Debug)]
#[repr(u8)]
pub enum Arch {
    /// 64-bit Arm.
    Aarch64 = 1,
    /// 64-bit x86.
    X86_64 = 2,
}

/// The column of pc in a register file.
pub const PC_COLUMN: usize = 40;

/// A register file. The columns: registers 0 to 31 by number, then 72 to 79 of aarch64, then pc.
#[derive(Clone, Copy, PartialEq, Eq, Debug)]
#[repr(C)]
pub struct Regs {
    /// The values, by column.
    pub r: [usize; 41],
}

/// The record of a function, with addresses in the place of its offsets.
#[derive(Clone, Copy, PartialEq, Eq, Debug)]
#[repr(C)]
pub struct Record {
    /// Where the function starts.
    pub start: usize,
    /// Where it ends.
    pub end: usize,
    /// Version 1: the frame word. Version 2: 0.
    pub frame: u32,
    /// Where its row table stands, 0 for none; in version 2 the address of the program, which the table comes after.
    pub handlers: usize,
    /// Where its state program stands, 0 for none and in version 1.
    pub program: usize,
    /// The end of its chunk, which program and rows stay below; 0 in version 1.
    pub limit: usize,
    /// The version of the chunk, 1 or 2.
    pub version: u8,
}

/// What is known of a frame at one instruction: its base, how far above it the CFA lies, and where registers were saved: `regs[i]`
/// in slot `slots[i]`, 8 * `slots[i]` bytes below the CFA, for i below `count`, which is at most 32.
#[derive(Clone, Copy, PartialEq, Eq, Debug)]
#[repr(C)]
pub struct State {
    /// The base is fp, and not sp.
    pub cfa_fp: bool,
    /// How far above the base CFA lies, in units of 8 bytes.
    pub cfa_units: u32,
    /// How many registers are saved.
    pub count: usize,
    /// Their DWARF numbers.
    pub regs: [u16; 32],
    /// Their slots.
    pub slots: [u16; 32],
}

/// What a row asks for.
#[derive(Clone, Copy, PartialEq, Eq, Debug)]
#[repr(usize)]
pub enum Action {
    /// The pad cleans up, and the unwinding goes on.
    Cleanup = 0,
    /// The pad catches: the unwinding ends there.
    Catch = 1,
    /// Nothing may be thrown through this call; there is no pad.
    Terminate = 2,
}

/// A row of a frame: its landing pad, from the start of its function, and what it asks for.
#[derive(Clone, Copy, PartialEq, Eq, Debug)]
pub struct Row {
    /// How far the pad lies above the function's start; 0 for terminate.
    pub pad: usize,
    /// What it asks for.
    pub action: Action,
}

impl Row {
    fn of(a: raw::RowFound) -> Row {
        let action = match a.action {
            0 => Action::Cleanup,
            1 => Action::Catch,
            2 => Action::Terminate,
            other => unknown("action", other),
        };
        Row { pad: a.pad, action }
    }
}

/// The two phases of an unwinding.
#[derive(Clone, Copy, PartialEq, Eq, Debug)]
pub enum Phase {
    /// Which frame catches.
    Search,
    /// The landings up to it.
    Cleanup,
}

/// What a personality routine decided.
#[derive(Clone, Copy, PartialEq, Eq, Debug)]
#[repr(u32)]
pub enum Reason {
    /// A row terminates in the cleanup phase.
    FatalPhase2Error = 2,
    /// A row terminates in the search phase.
    FatalPhase1Error = 3,
    /// The frame catches.
    HandlerFound = 6,
    /// The frame's pad is to be run with the registers that go with this.
    InstallContext = 7,
    /// The frame has nothing to do.
    ContinueUnwind = 8,
}

impl Reason {
    fn of(number: u32) -> Reason {
        match number {
            2 => Reason::FatalPhase2Error,
            3 => Reason::FatalPhase1Error,
            6 => Reason::HandlerFound,
            7 => Reason::InstallContext,
            8 => Reason::ContinueUnwind,
            other => unknown("reason", other),
        }
    }
}

/// The values, unless the status is a refusal's.
fn answered<T>(status: u32, values: T) -> Result<T, Failure> {
    if status == 0 { Ok(values) } else { Err(Failure::of(status)) }
}

/// The values, or none, unless the status is a refusal's.
fn optional<T>(status: u32, values: T) -> Result<Option<T>, Failure> {
    if status == 1 { Ok(None) } else { answered(status, Some(values)) }
}

/// An address without the bits of a pointer authentication code.
pub fn strip_pac(arch: Arch, address: usize) -> Result<usize, Failure> {
    let a = raw::eko_strip_pac(arch as u8, address);
    answered(a.status, a.value)
}

impl Regs {
    /// The value of a register, by its DWARF number.
    pub fn get(self, arch: Arch, reg: u16) -> Result<usize, Failure> {
        let a = raw::eko_get(arch as u8, self, reg);
        answered(a.status, a.value)
    }

    /// The frame pointer.
    pub fn fp(self, arch: Arch) -> Result<usize, Failure> {
        let a = raw::eko_fp(arch as u8, self);
        answered(a.status, a.value)
    }

    /// The stack pointer.
    pub fn sp(self, arch: Arch) -> Result<usize, Failure> {
        let a = raw::eko_sp(arch as u8, self);
        answered(a.status, a.value)
    }

    /// The program counter.
    pub fn pc(self) -> usize {
        self.r[PC_COLUMN]
    }

    /// The file with a register set.
    pub fn set(self, arch: Arch, reg: u16, value: usize) -> Result<Regs, Failure> {
        let a = raw::eko_set(arch as u8, self, reg, value);
        answered(a.status, a.regs)
    }

    /// The file with the stack pointer set.
    pub fn set_sp(self, arch: Arch, value: usize) -> Result<Regs, Failure> {
        let a = raw::eko_set_sp(arch as u8, self, value);
        answered(a.status, a.regs)
    }
}

impl State {
    /// The state at a function's entry.
    pub fn entry(arch: Arch) -> Result<State, Failure> {
        let a = raw::eko_entry(arch as u8);
        answered(a.status, a.state)
    }

    /// The slot of a register, none if it is not saved.
    pub fn slot(self, reg: u16) -> Result<Option<usize>, Failure> {
        let a = raw::eko_slot(self, reg);
        optional(a.status, a.value)
    }

    /// The state with a register saved in a slot.
    pub fn save(self, reg: usize, slot: usize) -> Result<State, Failure> {
        let a = raw::eko_save(self, reg, slot);
        answered(a.status, a.state)
    }

    /// The state with a register back to its entry rule.
    pub fn restore(self, arch: Arch, reg: usize) -> Result<State, Failure> {
        let a = raw::eko_restore(arch as u8, self, reg);
        answered(a.status, a.state)
    }
}

/// What is lent: the bytes of an EKO section and of a stack, each with the address of its first byte.
#[derive(Clone, Copy, Debug)]
pub struct Memory<'a> {
    /// The bytes of the section.
    pub section: &'a [u8],
    /// The address of its first byte.
    pub section_base: usize,
    /// The bytes of the stack.
    pub stack: &'a [u8],
    /// The address of its first byte.
    pub stack_base: usize,
}

/// Calls a function of the library with what is lent and further arguments.
macro_rules! lend {
    ($memory:expr, $function:ident, $($argument:expr),*) => {{
        let m = $memory;
        // Safety: both pointers are those of slices that live through the call, each with its length, and the library only
        // reads them.
        unsafe {
            raw::$function(
                m.section.as_ptr(), m.section.len(), m.section_base,
                m.stack.as_ptr(), m.stack.len(), m.stack_base,
                $($argument),*
            )
        }
    }};
}

mod capture;
mod unwinding;
pub use unwinding::{Frame, Place, Raised, RawUnwinding, Resumed, Unwinding};

impl Memory<'_> {
    /// The record of the function that pc lies in.
    pub fn lookup(self, arch: Arch, pc: usize) -> Result<Option<Record>, Failure> {
        let a = lend!(self, eko_lookup, pc, arch as u8);
        optional(a.status, a.found)
    }

    /// The ULEB128 number at a position below the limit, and the address after it.
    pub fn read_uleb(self, pos: usize, limit: usize) -> Result<(usize, usize), Failure> {
        let a = lend!(self, eko_read_uleb, pos, limit);
        answered(a.status, (a.value, a.next))
    }

    /// The state at an offset of a function, and the address after its program's END, 0 where that was not read.
    pub fn run(self, arch: Arch, program: usize, limit: usize, off: usize) -> Result<(State, usize), Failure> {
        let a = lend!(self, eko_run, arch as u8, program, limit, off);
        answered(a.status, (a.state, a.after))
    }

    /// The caller's registers from a state.
    pub fn apply(self, arch: Arch, state: State, regs: Regs) -> Result<Regs, Failure> {
        let a = lend!(self, eko_apply, arch as u8, state, regs);
        answered(a.status, a.regs)
    }

    /// The caller's registers from a version 1 frame word; `first` says that the frame was interrupted.
    pub fn step(self, arch: Arch, frame: u32, first: bool, regs: Regs) -> Result<Regs, Failure> {
        let a = lend!(self, eko_step, arch as u8, frame, first, regs);
        answered(a.status, a.regs)
    }

    /// The row of a return offset in a version 1 table.
    pub fn handler(self, table: usize, ret: u32) -> Result<Option<Row>, Failure> {
        let a = lend!(self, eko_handler, table, ret);
        optional(a.status, a).map(|found| found.map(Row::of))
    }

    /// The row of a return offset in a version 2 table.
    pub fn handler2(self, table: usize, limit: usize, ret: u32) -> Result<Option<Row>, Failure> {
        let a = lend!(self, eko_handler2, table, limit, ret);
        optional(a.status, a).map(|found| found.map(Row::of))
    }

    /// The reason of a frame, and the registers that go with it.
    pub fn personality(
        self,
        arch: Arch,
        phase: Phase,
        exception: usize,
        interrupted: bool,
        function: Record,
        regs: Regs,
    ) -> Result<(Reason, Regs), Failure> {
        let cleanup = phase == Phase::Cleanup;
        let a = lend!(self, eko_personality, arch as u8, cleanup, exception, interrupted, function, regs);
        answered(a.status, (a.reason, a.regs)).map(|(reason, regs)| (Reason::of(reason), regs))
    }
}

#[cfg(test)]
mod tests {
    use super::*;

    #[test]
    #[should_panic(expected = "the action 3, which this crate does not know: crate and library do not match")]
    fn an_unknown_action_is_named() {
        Row::of(raw::RowFound { status: 0, pad: 0, action: 3 });
    }

    #[test]
    #[should_panic(expected = "the reason 5, which this crate does not know: crate and library do not match")]
    fn an_unknown_reason_is_named() {
        Reason::of(5);
    }

    #[test]
    #[should_panic(expected = "the status 1, which this crate does not know: crate and library do not match")]
    fn a_number_without_value_is_no_answer() {
        let _ = answered(1, ());
    }
}
