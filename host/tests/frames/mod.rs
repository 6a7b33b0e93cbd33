//! Stacks with one frame whose step or row is refused, on both architectures. Every plain frame is a word, its return address.
#[path = "../../src/bin/capture/section.rs"]
pub mod section;

use morthwyga::{Action, Arch, Memory, PC_COLUMN, RawUnwinding, Regs};
use section::{CATCHES, Framed, Function, PAD, RETURN, Row, SAVES_33, SECTION, STACK, chunk1, chunk2, cut2, ret};

pub const ARCHS: [Arch; 2] = [Arch::Aarch64, Arch::X86_64];
pub const EXCEPTION: usize = 0xe0_0e0e;

/// The words below the innermost sp.
const BELOW: usize = 4;

/// Rows of the call: two for it, one with an unknown pad, one that terminates and has a pad.
pub const TWICE: &[Row] = &[(RETURN, PAD, Action::Cleanup), (RETURN, PAD + 8, Action::Catch)];
const NO_PAD: &[Row] = &[(RETURN, 0, Action::Cleanup)];
const PAD_TERMINATES: &[Row] = &[(RETURN, PAD, Action::Terminate)];

/// Rows that are refused, of either version, with their number.
pub const REFUSED_ROWS: [(&[Row], u32); 3] = [(TWICE, 24), (NO_PAD, 18), (PAD_TERMINATES, 18)];

/// The return offset of the call in version 2, and its row's word.
const DELTA: u8 = RETURN as u8;
const WORD: [u8; 2] = [(4 * PAD + 1) as u8 | 0x80, ((4 * PAD + 1) >> 7) as u8];

/// Tables of version 2 that end with their chunk and are refused, with their number: cut before the count, the delta, the word, in
/// the word and before the next delta; then a count, a delta, a word and a next delta without end or too large.
pub const REFUSED_TABLES: [(&[u8], u32); 9] = [
    (&[], 30),
    (&[1], 30),
    (&[1, DELTA], 30),
    (&[1, DELTA, WORD[0]], 30),
    (&[2, DELTA, WORD[0], WORD[1]], 30),
    (&[0xff, 0xff, 0xff, 0xff, 0x1f], 31),
    (&[1, 0x80, 0x80, 0x80, 0x80, 0x80], 31),
    (&[1, DELTA, 0xff, 0xff, 0xff, 0xff, 0x10], 31),
    (&[2, DELTA, WORD[0], WORD[1], 0xff, 0xff, 0xff, 0xff, 0xff], 31),
];

/// How the frame is described whose step is refused, or is not.
#[derive(Clone, Copy)]
pub enum Code {
    /// Version 2: operations after those of a plain frame.
    Program(&'static [u8]),
    /// Version 2: the same, and the chunk ends with them; there is neither END nor a row.
    Cut(&'static [u8]),
    /// Version 1.
    Word(u32),
}

pub const PLAIN: Code = Code::Program(&[]);

/// What fp holds: a number, or the sp of that frame and so many bytes.
#[derive(Clone, Copy)]
pub enum Fp {
    Value(usize),
    Sp(isize),
}

/// A description and an fp by which a frame's step is refused with this number.
pub const FAULTS: [(u32, Code, Fp); 19] = [
    (10, Code::Program(&[0xc7; 5]), Fp::Value(3)),
    (11, Code::Program(&[0xc4, 99, 1]), Fp::Value(3)),
    (12, Code::Program(&[0xc1, 1]), Fp::Value(8usize.wrapping_neg())),
    (18, Code::Program(&[0xd0]), Fp::Value(3)),
    (18, Code::Program(&[0x83, 0]), Fp::Value(3)),
    (20, Code::Program(&[0xc1, 0]), Fp::Sp(-8)),
    (23, Code::Program(&[0xc1, 2]), Fp::Sp(4)),
    (23, Code::Program(&[0xc1, 2]), Fp::Value(0)),
    (27, Code::Program(&[0x7f]), Fp::Value(3)),
    (30, Code::Cut(&[0x42]), Fp::Value(3)),
    (30, Code::Cut(&[0xc4, 3]), Fp::Value(3)),
    (30, Code::Cut(&[0xc0, 0x80, 0x80, 0x80, 0x80]), Fp::Value(3)),
    (31, Code::Program(&[0x83, 0x80, 0x80, 0x80, 0x80, 0x80]), Fp::Value(3)),
    (31, Code::Cut(&[0xc1, 0xff, 0xff, 0xff, 0xff, 0x10]), Fp::Value(3)),
    (32, Code::Program(&SAVES_33), Fp::Value(3)),
    (18, Code::Word(3), Fp::Value(3)),
    (18, Code::Word(0), Fp::Value(3)),
    (23, Code::Word(1), Fp::Value(3)),
    (27, Code::Word(2 | 60 << 21), Fp::Value(3)),
];

/// A stack of frames of a plain function, then one of the described function, which returns to 0.
pub struct Case {
    pub arch: Arch,
    pub section: Vec<u8>,
    pub stack: Vec<u8>,
    /// With the pc of the innermost.
    pub regs: Regs,
    /// How many frames are below the described one.
    pub before: usize,
}

impl Case {
    pub fn new(arch: Arch, before: usize, (code, fp): (Code, Fp), rows: &'static [Row]) -> Case {
        let (sp_column, fp_column) = if arch == Arch::Aarch64 { (31, 29) } else { (7, 6) };
        let sp = STACK + 8 * (BELOW + before);
        let mut regs = Regs { r: std::array::from_fn(|i| 0x1_0000_0001 * (i + 1)) };
        regs.r[sp_column] = STACK + 8 * BELOW;
        regs.r[fp_column] = match fp {
            Fp::Value(value) => value,
            Fp::Sp(offset) => sp.wrapping_add_signed(offset),
        };
        regs.r[PC_COLUMN] = ret((before == 0) as usize);
        let returns = (0..before).map(|i| ret((i + 1 == before) as usize));
        let words = [0; BELOW].into_iter().chain(returns).chain([0, 0]);
        let stack = words.flat_map(usize::to_le_bytes).collect();
        Case { arch, section: section(arch, code, rows), stack, regs, before }
    }

    /// A case of version 2 with these operations and END, and this table, with which its chunk ends.
    pub fn with_table(arch: Arch, before: usize, (operations, fp): (&[u8], Fp), table: &[u8]) -> Case {
        let bytes = leaked(&[operations, &[0x00], table]);
        Case::new(arch, before, (Code::Cut(bytes), fp), &[])
    }

    pub fn memory(&self) -> Memory<'_> {
        Memory { section: &self.section, section_base: SECTION, stack: &self.stack, stack_base: STACK }
    }

    /// The sp of the described frame.
    pub fn sp(&self) -> usize {
        STACK + 8 * (BELOW + self.before)
    }

    /// An unwinding at the innermost frame, which has this number, with a frame chosen past the described one.
    pub fn unwinding(&self, number: usize, interrupted: bool) -> RawUnwinding {
        RawUnwinding {
            regs: self.regs,
            number,
            interrupted,
            exception: EXCEPTION,
            chosen_number: number + self.before + 3,
            chosen_sp: 0x5b5b,
            chosen: true,
        }
    }
}

/// A plain function, and one with this description and these rows.
fn section(arch: Arch, code: Code, rows: &'static [Row]) -> Vec<u8> {
    let plain = Function { program: program(arch, &[]), rows: &[] };
    match code {
        Code::Program(operations) => {
            chunk2(arch, SECTION, 0, &[plain, Function { program: program(arch, operations), rows }])
        }
        Code::Cut(bytes) => {
            let first = chunk2(arch, SECTION, 0, &[plain]);
            let second = cut2(arch, SECTION + first.len(), 1, &[plain_operations(arch), bytes].concat());
            [first, second].concat()
        }
        Code::Word(word) => {
            let first = chunk2(arch, SECTION, 0, &[plain]);
            let second = chunk1(arch, SECTION + first.len(), 1, &[Framed { word, rows }]);
            [first, second].concat()
        }
    }
}

/// The operations of a plain frame.
fn plain_operations(arch: Arch) -> &'static [u8] {
    if arch == Arch::Aarch64 { &[0x41, 0x9e, 1] } else { &[] }
}

/// The program of a plain frame, then these operations, then END.
fn program(arch: Arch, operations: &[u8]) -> &'static [u8] {
    leaked(&[plain_operations(arch), operations, &[0x00]])
}

fn leaked(parts: &[&[u8]]) -> &'static [u8] {
    Box::leak(parts.concat().into_boxed_slice())
}

/// Cases of version 2 with these operations whose row is refused, with the number.
pub fn refused_rows(
    arch: Arch,
    before: usize,
    (operations, fp): (&'static [u8], Fp),
) -> impl Iterator<Item = (Case, u32)> {
    let code = (Code::Program(operations), fp);
    let rows = REFUSED_ROWS.map(|(rows, number)| (Case::new(arch, before, code, rows), number));
    let tables = REFUSED_TABLES.map(|(table, number)| (Case::with_table(arch, before, (operations, fp), table), number));
    rows.into_iter().chain(tables)
}

/// The same of version 1 with this word.
pub fn refused_rows1(arch: Arch, before: usize, word: u32) -> impl Iterator<Item = (Case, u32)> {
    let code = (Code::Word(word), Fp::Value(3));
    REFUSED_ROWS.into_iter().map(move |(rows, number)| (Case::new(arch, before, code, rows), number))
}

/// A case that is not refused: its outermost frame catches.
pub fn good(arch: Arch, before: usize) -> Case {
    Case::new(arch, before, (PLAIN, Fp::Value(3)), CATCHES)
}
