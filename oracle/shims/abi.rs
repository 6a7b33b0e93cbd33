//! Stands in for ps-unwind's abi.rs: what eko.rs needs of it and no more.
//! The numbers come from abi.rs itself; `build` copies those lines.

pub use crate::abi_numbers::*;

use crate::arch::Regs;
use crate::frame::FrameInfo;

/// eko.rs only passes its address on.
pub struct UnwindException;

/// A frame as the built-in personality sees it.
pub struct Cursor {
    pub regs: Regs,
    pub info: FrameInfo,
    pub ip_before_insn: bool,
}
