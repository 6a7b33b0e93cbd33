//! A running job: registers and a stack that grows down, as compiled code changes them.
use crate::format::Capture;
use crate::section::{SECTION, STACK};
use morthwyga::{Arch, Regs};

/// The bytes of a job's stack.
const ROOM: usize = 0x180;

pub struct Job {
    arch: Arch,
    sp: usize,
    fp: usize,
    regs: [usize; 41],
    stack: Vec<u8>,
}

impl Job {
    /// A job that nobody called: registers with values that tell them apart, and an empty stack.
    pub fn new(arch: Arch) -> Job {
        let (sp, fp) = if arch == Arch::Aarch64 { (31, 29) } else { (7, 6) };
        let mut regs = std::array::from_fn(|i| 0x1000 + i);
        regs[sp] = STACK + ROOM;
        Job { arch, sp, fp, regs, stack: vec![0; ROOM] }
    }

    /// A call that returns to an address.
    pub fn call(&mut self, ret: usize) {
        if self.arch == Arch::Aarch64 {
            self.regs[30] = ret;
        } else {
            self.push(ret);
        }
    }

    /// A prologue that saves the return register, if there is one, and the frame pointer, and sets it.
    pub fn enter(&mut self) {
        if self.arch == Arch::Aarch64 {
            self.save(30);
        }
        self.save(self.fp);
        self.regs[self.fp] = self.regs[self.sp];
    }

    /// Saves a register.
    pub fn save(&mut self, column: usize) {
        self.push(self.regs[column]);
    }

    /// Uses a register for something else.
    pub fn set(&mut self, column: usize, value: usize) {
        self.regs[column] = value;
    }

    /// Makes room for so many words.
    pub fn room(&mut self, words: usize) {
        self.regs[self.sp] -= 8 * words;
    }

    fn push(&mut self, value: usize) {
        self.room(1);
        let at = self.regs[self.sp] - STACK;
        self.stack[at..at + 8].copy_from_slice(&value.to_le_bytes());
    }

    /// What is captured at a throw.
    pub fn throw(self, section: Vec<u8>, pc: usize) -> Capture {
        Capture {
            arch: self.arch,
            section_base: SECTION,
            section,
            stack_base: STACK,
            stack: self.stack,
            regs: Regs { r: self.regs },
            pc,
            interrupted: false,
            exception: 0xe0_0001,
        }
    }
}
