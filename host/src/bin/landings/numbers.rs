//! The numbers of an architecture (document 01, "Register files").
use morthwyga::Arch;

/// A register file, with the columns of the crate's `Regs`.
pub type File = [usize; 41];

pub const PC: usize = 40;

pub struct Numbers {
    pub arch: Arch,
    /// How many bytes an advance counts.
    pub unit: usize,
    pub sp: u16,
    pub fp: u16,
    /// The return register.
    pub ra: u16,
    /// A call pushes its return address.
    pub pushes: bool,
    /// Return addresses are below this power of two.
    pub address_bits: u32,
    pub saved: &'static [u16],
    pub preserved: &'static [u16],
}

pub const AARCH64: Numbers = Numbers {
    arch: Arch::Aarch64,
    unit: 4,
    sp: 31,
    fp: 29,
    ra: 30,
    pushes: false,
    address_bits: 48,
    saved: &[19, 20, 21, 22, 23, 24, 25, 26, 27, 28, 72, 73, 74, 75, 76, 77, 78, 79],
    preserved: &[19, 20, 21, 22, 23, 24, 25, 26, 27, 28, 29, 30, 72, 73, 74, 75, 76, 77, 78, 79],
};

pub const X86_64: Numbers = Numbers {
    arch: Arch::X86_64,
    unit: 1,
    sp: 7,
    fp: 6,
    ra: 16,
    pushes: true,
    address_bits: 64,
    saved: &[3, 12, 13, 14, 15],
    preserved: &[3, 6, 12, 13, 14, 15],
};

impl Numbers {
    /// The column of a register, by its DWARF number.
    pub fn column(&self, reg: usize) -> Option<usize> {
        match (self.arch, reg) {
            (Arch::Aarch64, 0..=31) => Some(reg),
            (Arch::Aarch64, 72..=79) => Some(32 + reg - 72),
            (Arch::X86_64, 0..=15) => Some(reg),
            (Arch::X86_64, 16) => Some(PC),
            _ => None,
        }
    }

    /// The value of a register that the file has.
    pub fn value(&self, file: &File, reg: u16) -> usize {
        file[self.column(reg as usize).expect("a register of the file")]
    }

    pub fn stack_pointer(&self, file: &File) -> usize {
        file[self.sp as usize]
    }
}
