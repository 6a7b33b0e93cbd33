//! A failed call from Rust: open the memory, walk the frames, raise, and resume until it has finished.
use morthwyga::{Arch, Failure, Frame, Memory, PC_COLUMN, Raised, Regs, Resumed};

const ARCH: Arch = Arch::X86_64;
const SECTION: usize = 0x1000;
const STACK: usize = 0x2000;
const EXCEPTION: usize = 77;

/// Three functions of 16 bytes, at 5000, 5010 and 5020 hexadecimal. Each has one call, which returns to its offset 5.
#[rustfmt::skip]
const TABLES: [u8; 64] = [
    0x45, 0x4b, 0x55, 0x57, 2, 2, 1, 0, 3, 0, 0, 0, 64, 0, 0, 0, // version 2, x86-64, 3 records, 64 bytes
    0xf0, 0x3f, 0, 0, 16, 0, 0, 0, 52, 0, 0, 0x80, // starts 3ff0 from here, 16 bytes, its program and rows at 52
    0xf4, 0x3f, 0, 0, 16, 0, 0, 0, 56, 0, 0, 0, // its program at 56, no rows
    0xf8, 0x3f, 0, 0, 16, 0, 0, 0, 57, 0, 0, 0x80, // its program and rows at 57
    0x00, 1, 5, 4 * 8, // END; 1 row: offset 5, pad 8, cleanup
    0x00, // END
    0x00, 1, 5, 4 * 9 + 1, // END; 1 row: offset 5, pad 9, catch
    0, 0, 0,
];

fn main() -> Result<(), Failure> {
    // The first function failed; it was called by the second, that by the third, and that by nobody.
    let stack: Vec<u8> = [0x5015, 0x5025, 0].iter().flat_map(|address: &usize| address.to_le_bytes()).collect();
    let memory = Memory { section: &TABLES, section_base: SECTION, stack: &stack, stack_base: STACK };
    let mut regs = Regs { r: [0; 41] }.set_sp(ARCH, STACK)?;
    regs.r[PC_COLUMN] = 0x5005;
    walk(memory, regs)?;
    throw(memory, regs)?;
    // Memory that breaks the opening rule is refused, and nothing is read.
    let overlapping = Memory { stack_base: SECTION, ..memory };
    let (refused, _) = overlapping.raise(ARCH, regs, regs.pc(), false, EXCEPTION);
    println!("stack and section at one address: {refused:?}");
    Ok(())
}

/// Every frame with the start of its function.
fn walk(memory: Memory, regs: Regs) -> Result<(), Failure> {
    let mut frame = Frame { number: 0, interrupted: false, regs };
    while let Some((function, caller)) = memory.next_frame(ARCH, frame)? {
        println!("frame {}: in {:x} at {:x}, sp {:x}", frame.number, function.start, frame.regs.pc(), frame.regs.sp(ARCH)?);
        frame = caller;
    }
    Ok(())
}

/// The throw, and each landing in turn. A host sets these registers, and calls resume when the pad's code asks for it.
fn throw(memory: Memory, regs: Regs) -> Result<(), Failure> {
    let (raised, mut unwinding) = memory.raise(ARCH, regs, regs.pc(), false, EXCEPTION);
    match raised? {
        Raised::Chosen { number, sp } => println!("frame {number} catches, sp {sp:x}"),
        Raised::Terminated => println!("a row terminates"),
        Raised::EndOfStack => println!("no frame catches"),
    }
    loop {
        let (resumed, next) = memory.resume(ARCH, unwinding);
        match resumed? {
            Resumed::Landing { number, regs } => {
                println!("landing in frame {number}: pc {:x}, sp {:x}, exception {}", regs.pc(), regs.sp(ARCH)?, regs.r[0]);
            }
            Resumed::Terminated => break println!("a row terminates"),
            Resumed::Finished => break println!("finished"),
        }
        unwinding = next;
    }
    Ok(())
}
