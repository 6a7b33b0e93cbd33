//! One capture for each refusal that a throw can meet, and some for the order of two.
use crate::format::{Capture, Sample};
use crate::section::{CATCHES, Framed, Function, PAD, RETURN, Row, SAVES_33, SECTION, STACK, chunk1, chunk2, cut2, ret};
use morthwyga::{Action, Arch, Regs};

/// Two x86-64 functions whose frames are their return addresses alone. The first, which throws, has this program; the second
/// catches. With END as the program it is not refused.
fn two(program: &'static [u8]) -> Capture {
    let functions = [Function { program, rows: &[] }, Function { program: &[0x00], rows: CATCHES }];
    let mut regs = Regs { r: [0; 41] };
    regs.r[7] = STACK;
    Capture {
        arch: Arch::X86_64,
        section_base: SECTION,
        section: chunk2(Arch::X86_64, SECTION, 0, &functions),
        stack_base: STACK,
        stack: stack(&[ret(1), 0]),
        regs,
        pc: ret(0),
        interrupted: false,
        exception: 0xe0_0001,
    }
}

fn good() -> Capture {
    two(&[0x00])
}

fn stack(words: &[usize]) -> Vec<u8> {
    words.iter().flat_map(|word| word.to_le_bytes()).collect()
}

/// The capture with a register set.
fn with(mut capture: Capture, column: usize, value: usize) -> Capture {
    capture.regs.r[column] = value;
    capture
}

/// The capture with a byte of its section set.
fn damaged(mut capture: Capture, at: usize, byte: u8) -> Capture {
    capture.section[at] = byte;
    capture
}

/// The program says that a frame takes no room, and the function called itself: frame 1 has frame 0's sp, and so has its caller.
fn same_sp() -> Capture {
    let capture = Capture { stack: stack(&[ret(0), 0]), ..two(&[0x40, 0x00]) };
    with(capture, 7, STACK + 8)
}

/// Two rows for one return offset.
const TWICE: &[Row] = &[(RETURN, PAD, Action::Catch), (RETURN, PAD + 8, Action::Catch)];

/// The function that throws has two rows for one return offset.
fn two_rows() -> Capture {
    Capture { section: chunk2(Arch::X86_64, SECTION, 0, &[Function { program: &[0x00], rows: TWICE }]), ..good() }
}

/// The same function called itself, and the stack ends with the first return address.
fn row_and_caller() -> Capture {
    Capture { stack: stack(&[ret(0)]), ..two_rows() }
}

/// Frames that take no room, as in `same_sp`, of a function with two rows for the return offset of frame 1; frame 0 has no row.
fn same_sp_and_row() -> Capture {
    let section = chunk2(Arch::X86_64, SECTION, 0, &[Function { program: &[0x40, 0x00], rows: TWICE }]);
    Capture { section, pc: ret(0) - 8, ..same_sp() }
}

/// The function that throws has a chunk of its own, which ends with these bytes of its program and rows; the catch is in the next.
fn cut(bytes: &[u8]) -> Capture {
    let mut section = cut2(Arch::X86_64, SECTION, 0, bytes);
    let at = SECTION + section.len();
    section.extend(chunk2(Arch::X86_64, at, 1, &[Function { program: &[0x00], rows: CATCHES }]));
    Capture { section, ..good() }
}

/// A version 1 word that describes the frame at its calls only, and an interrupt.
fn interrupted() -> Capture {
    let section = chunk1(Arch::X86_64, SECTION, 0, &[Framed { word: 1, rows: CATCHES }]);
    Capture { section, interrupted: true, ..good() }
}

/// 1,024 open calls of one function, and a frame above them at this pc.
fn frames(above: usize) -> Capture {
    let mut words = [ret(0); 1025];
    (words[1023], words[1024]) = (above, 0);
    Capture { stack: stack(&words), ..good() }
}

/// An address in no record.
const NOWHERE: usize = 0x50_0000;

pub fn samples() -> Vec<Sample> {
    let samples = [
        ("refused-10-five-remembers", two(&[0xc7, 0xc7, 0xc7, 0xc7, 0xc7, 0x00])),
        ("refused-11-register-99", two(&[0xc4, 99, 1, 0x00])),
        ("refused-12-cfa-0", with(good(), 7, 8usize.wrapping_neg())),
        ("refused-17-unknown-flags", damaged(good(), 6, 3)),
        ("refused-18-unknown-operation", two(&[0xd0, 0x00])),
        ("refused-19-records-overlap", damaged(good(), 20, 0x48)),
        ("refused-20-same-sp", same_sp()),
        ("refused-20-before-row", same_sp_and_row()),
        ("refused-23-odd-frame-pointer", with(two(&[0xc9, 0x00]), 6, STACK + 1)),
        ("refused-24-two-rows-for-a-call", two_rows()),
        ("refused-24-row-before-caller", row_and_caller()),
        ("refused-25-interrupt-in-a-call-frame", interrupted()),
        ("refused-27-sp-outside-the-stack", with(good(), 7, STACK + 0x1000)),
        ("refused-27-step-before-row", with(two_rows(), 7, STACK + 0x1000)),
        ("refused-28-section-at-0", Capture { section_base: 0, ..good() }),
        ("refused-29-1025-frames", frames(ret(0))),
        ("refused-29-outside-every-record", frames(NOWHERE)),
        ("refused-30-program-cut", cut(&[0x04, 0xc9, 0x02, 0x83])),
        ("refused-30-rows-cut", cut(&[0x00, 1])),
        ("refused-31-number-without-end", two(&[0xc0, 0x80, 0x80, 0x80, 0x80, 0x80, 0x00])),
        ("refused-32-33rd-register", two(&SAVES_33)),
    ];
    samples.into_iter().map(|(name, capture)| (name, capture.bytes())).collect()
}
