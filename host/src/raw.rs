//! The C interface of the proved library: the structs of `crates/answers` and the functions of `crates/capi`. A slice is a pointer
//! and a length.
use crate::{RawUnwinding, Record, Regs, State};

#[repr(C)]
pub struct Number {
    pub status: u32,
    pub value: usize,
}

#[repr(C)]
pub struct File {
    pub regs: Regs,
    pub status: u32,
}

#[repr(C)]
pub struct Function {
    pub status: u32,
    pub found: Record,
}

#[repr(C)]
pub struct Read {
    pub status: u32,
    pub value: usize,
    pub next: usize,
}

#[repr(C)]
pub struct Changed {
    pub status: u32,
    pub state: State,
}

#[repr(C)]
pub struct Ended {
    pub status: u32,
    pub state: State,
    pub after: usize,
}

#[repr(C)]
pub struct RowFound {
    pub status: u32,
    pub pad: usize,
    pub action: usize,
}

#[repr(C)]
pub struct Decided {
    pub regs: Regs,
    pub status: u32,
    pub reason: u32,
}

#[repr(C)]
pub struct Stepped {
    pub regs: Regs,
    pub function: Record,
    pub number: usize,
    pub interrupted: bool,
    pub status: u32,
}

#[repr(C)]
pub struct Frames {
    pub count: usize,
    pub starts: [usize; 16],
    pub pcs: [usize; 16],
    pub sps: [usize; 16],
}

#[repr(C)]
pub struct Batch {
    pub regs: Regs,
    pub frames: Frames,
    pub number: usize,
    pub interrupted: bool,
    pub status: u32,
}

#[repr(C)]
pub struct Raised {
    pub unwinding: RawUnwinding,
    pub number: usize,
    pub sp: usize,
    pub status: u32,
    pub reason: u32,
}

#[repr(C)]
pub struct Resumed {
    pub regs: Regs,
    pub unwinding: RawUnwinding,
    pub number: usize,
    pub status: u32,
    pub reason: u32,
}

unsafe extern "C" {
    pub safe fn eko_strip_pac(arch: u8, address: usize) -> Number;
    pub safe fn eko_get(arch: u8, regs: Regs, reg: u16) -> Number;
    pub safe fn eko_fp(arch: u8, regs: Regs) -> Number;
    pub safe fn eko_sp(arch: u8, regs: Regs) -> Number;
    pub safe fn eko_set(arch: u8, regs: Regs, reg: u16, value: usize) -> File;
    pub safe fn eko_set_sp(arch: u8, regs: Regs, value: usize) -> File;
    pub safe fn eko_entry(arch: u8) -> Changed;
    pub safe fn eko_slot(state: State, reg: u16) -> Number;
    pub safe fn eko_save(state: State, reg: usize, slot: usize) -> Changed;
    pub safe fn eko_restore(arch: u8, state: State, reg: usize) -> Changed;
    pub fn eko_lookup(
        section: *const u8, section_len: usize, section_base: usize,
        stack: *const u8, stack_len: usize, stack_base: usize,
        pc: usize, arch: u8,
    ) -> Function;
    pub fn eko_read_uleb(
        section: *const u8, section_len: usize, section_base: usize,
        stack: *const u8, stack_len: usize, stack_base: usize,
        pos: usize, limit: usize,
    ) -> Read;
    pub fn eko_run(
        section: *const u8, section_len: usize, section_base: usize,
        stack: *const u8, stack_len: usize, stack_base: usize,
        arch: u8, program: usize, limit: usize, off: usize,
    ) -> Ended;
    pub fn eko_apply(
        section: *const u8, section_len: usize, section_base: usize,
        stack: *const u8, stack_len: usize, stack_base: usize,
        arch: u8, state: State, regs: Regs,
    ) -> File;
    pub fn eko_step(
        section: *const u8, section_len: usize, section_base: usize,
        stack: *const u8, stack_len: usize, stack_base: usize,
        arch: u8, frame: u32, first: bool, regs: Regs,
    ) -> File;
    pub fn eko_handler(
        section: *const u8, section_len: usize, section_base: usize,
        stack: *const u8, stack_len: usize, stack_base: usize,
        table: usize, ret: u32,
    ) -> RowFound;
    pub fn eko_handler2(
        section: *const u8, section_len: usize, section_base: usize,
        stack: *const u8, stack_len: usize, stack_base: usize,
        table: usize, limit: usize, ret: u32,
    ) -> RowFound;
    pub fn eko_personality(
        section: *const u8, section_len: usize, section_base: usize,
        stack: *const u8, stack_len: usize, stack_base: usize,
        arch: u8, cleanup: bool, exception: usize, interrupted: bool, function: Record, regs: Regs,
    ) -> Decided;
    pub fn eko_next_frame(
        section: *const u8, section_len: usize, section_base: usize,
        stack: *const u8, stack_len: usize, stack_base: usize,
        arch: u8, number: usize, interrupted: bool, regs: Regs,
    ) -> Stepped;
    pub fn eko_walk(
        section: *const u8, section_len: usize, section_base: usize,
        stack: *const u8, stack_len: usize, stack_base: usize,
        arch: u8, number: usize, interrupted: bool, regs: Regs,
    ) -> Batch;
    pub fn eko_raise(
        section: *const u8, section_len: usize, section_base: usize,
        stack: *const u8, stack_len: usize, stack_base: usize,
        arch: u8, regs: Regs, pc: usize, interrupted: bool, exception: usize,
    ) -> Raised;
    pub fn eko_resume(
        section: *const u8, section_len: usize, section_base: usize,
        stack: *const u8, stack_len: usize, stack_base: usize,
        arch: u8, unwinding: RawUnwinding,
    ) -> Resumed;
}
