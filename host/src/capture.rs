//! Captured failures: what a throw is lent, as a file. docs/CAPTURE.md has the format.
use crate::{Arch, Memory, Regs};

const MAGIC: &[u8; 8] = b"MORTHCAP";
const VERSION: u32 = 1;

impl Memory<'_> {
    /// A failure as a file, from the arguments of its [`Memory::raise`]. `./run FILE` prints its frames and the landing pads that
    /// will run. It takes files of up to 1,048,575 bytes, of which 400 are the head: lend the stack from sp up, and no more.
    pub fn capture(self, arch: Arch, regs: Regs, pc: usize, interrupted: bool, exception: usize) -> Vec<u8> {
        let mut bytes = MAGIC.to_vec();
        bytes.extend(VERSION.to_le_bytes());
        bytes.extend((arch as u32).to_le_bytes());
        let ranges = [self.section_base, self.section.len(), self.stack_base, self.stack.len()];
        let throw = [pc, usize::from(interrupted), exception];
        bytes.extend(ranges.iter().chain(&regs.r).chain(&throw).flat_map(|word| (*word as u64).to_le_bytes()));
        bytes.extend(self.section);
        bytes.extend(self.stack);
        bytes
    }
}
