//! The register file of aarch64 as a list: x0..x30, sp, d8..d15, pc.

use crate::arch::Regs;

pub const COUNT: usize = 41;

pub fn from_list(list: &[usize; COUNT]) -> Regs {
    let mut regs = Regs::zeroed();
    regs.x.copy_from_slice(&list[..31]);
    regs.sp = list[31];
    regs.d.copy_from_slice(&list[32..40]);
    regs.pc = list[40];
    regs
}

pub fn to_list(regs: &Regs) -> [usize; COUNT] {
    let mut list = [0; COUNT];
    list[..31].copy_from_slice(&regs.x);
    list[31] = regs.sp;
    list[32..40].copy_from_slice(&regs.d);
    list[40] = regs.pc;
    list
}
