//! A captured failure that owns its bytes.
use morthwyga::{Arch, Memory, Regs};

/// A sample: its name, and the bytes of its file.
pub type Sample = (&'static str, Vec<u8>);

pub struct Capture {
    pub arch: Arch,
    pub section_base: usize,
    pub section: Vec<u8>,
    pub stack_base: usize,
    pub stack: Vec<u8>,
    pub regs: Regs,
    pub pc: usize,
    pub interrupted: bool,
    pub exception: usize,
}

impl Capture {
    pub fn bytes(&self) -> Vec<u8> {
        let memory = Memory {
            section: &self.section,
            section_base: self.section_base,
            stack: &self.stack,
            stack_base: self.stack_base,
        };
        memory.capture(self.arch, self.regs, self.pc, self.interrupted, self.exception)
    }
}
