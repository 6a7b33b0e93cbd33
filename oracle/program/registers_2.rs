//! The register file of x86-64 as a list: r0..r15, pc.

use crate::arch::Regs;

pub const COUNT: usize = 17;

pub fn from_list(list: &[usize; COUNT]) -> Regs {
    let mut regs = Regs::zeroed();
    regs.r.copy_from_slice(&list[..16]);
    regs.pc = list[16];
    regs
}

pub fn to_list(regs: &Regs) -> [usize; COUNT] {
    let mut list = [0; COUNT];
    list[..16].copy_from_slice(&regs.r);
    list[16] = regs.pc;
    list
}
