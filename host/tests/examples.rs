//! Document 01's examples and the edges of the interface, through the static library.
use std::collections::HashSet;
use std::error::Error;

use morthwyga::{Action, Arch, Failure, Memory, PC_COLUMN, Phase, Reason, Record, Regs, Row, State, strip_pac};

const SECTION: usize = 0x1000;
const STACK: usize = 0x2000;

fn section(bytes: &[u8]) -> Memory<'_> {
    Memory { section: bytes, section_base: SECTION, stack: &[], stack_base: STACK }
}

fn uleb(bytes: &[u8]) -> Result<usize, Failure> {
    section(bytes).read_uleb(SECTION, SECTION + bytes.len()).map(|(value, _)| value)
}

/// The pairs that a state counts.
fn pairs(state: State) -> Vec<(u16, u16)> {
    state.regs.into_iter().zip(state.slots).take(state.count).collect()
}

fn run(arch: Arch, bytes: &[u8], off: usize) -> Result<State, Failure> {
    section(bytes).run(arch, SECTION, SECTION + bytes.len(), off).map(|(state, _)| state)
}

#[test]
fn numbers() {
    assert_eq!(uleb(&[0x7f]), Ok(127));
    assert_eq!(uleb(&[0xb9, 0x64]), Ok(12857));
    assert_eq!(uleb(&[0x80, 0x00]), Ok(0));
    assert_eq!(uleb(&[0xff, 0xff, 0xff, 0xff, 0x0f]), Ok(4294967295));
    assert_eq!(uleb(&[0xff, 0xff, 0xff, 0xff, 0x1f]), Err(Failure::BadUleb));
    assert_eq!(uleb(&[0x80; 5]), Err(Failure::BadUleb));
}

#[test]
fn programs() {
    let program = [0x02, 0xc9, 0x04, 0x00];
    assert_eq!(run(Arch::X86_64, &program, 1), State::entry(Arch::X86_64));
    let state = run(Arch::X86_64, &program, 2).unwrap();
    assert_eq!((state.cfa_fp, state.cfa_units, pairs(state)), (true, 2, vec![(16, 1), (6, 2)]));
    assert_eq!(run(Arch::Aarch64, &program, 7), State::entry(Arch::Aarch64));
    assert_eq!(pairs(run(Arch::Aarch64, &program, 8).unwrap()), [(29, 2), (30, 1)]);
    assert_eq!(run(Arch::X86_64, &[0xc7, 0xc7, 0xc7, 0xc7, 0xc7, 0x00], 0), Err(Failure::RememberStackOverflow));
    assert_eq!(run(Arch::X86_64, &[0xc8, 0x00], 0), Err(Failure::BadEkoRecord));
}

#[test]
fn states() {
    let entry = State::entry(Arch::X86_64).unwrap();
    assert_eq!(entry.slot(16), Ok(Some(1)));
    assert_eq!(entry.slot(3), Ok(None));
    let saved = entry.save(3, 2).unwrap();
    assert_eq!(saved.slot(3), Ok(Some(2)));
    assert_eq!(saved.restore(Arch::X86_64, 3).unwrap().slot(3), Ok(None));
    assert_eq!(entry.save(3, 0), Err(Failure::BadEkoRecord));
    assert_eq!(State { count: 33, ..entry }.save(3, 1), Err(Failure::BadOpening));
}

#[test]
fn rows() {
    let rows = [0x02, 0x05, 0x29, 0x03, 0x40];
    let at = |ret| section(&rows).handler2(SECTION, SECTION + rows.len(), ret);
    assert_eq!(at(5), Ok(Some(Row { pad: 10, action: Action::Catch })));
    assert_eq!(at(8), Ok(Some(Row { pad: 16, action: Action::Cleanup })));
    assert_eq!(at(6), Ok(None));
    let twice = [0x02, 0x05, 0x29, 0x00, 0x40];
    let at = |ret| section(&twice).handler2(SECTION, SECTION + twice.len(), ret);
    assert_eq!(at(5), Err(Failure::EkoAmbiguousCallSite));
    assert_eq!(at(4), Ok(None));
}

#[test]
fn registers() {
    let mut regs = Regs { r: [0; 41] };
    regs.r[PC_COLUMN] = 9;
    assert_eq!(regs.pc(), 9);
    assert_eq!(regs.set(Arch::X86_64, 7, 5).unwrap().sp(Arch::X86_64), Ok(5));
    assert_eq!(regs.set_sp(Arch::Aarch64, 6).unwrap().get(Arch::Aarch64, 31), Ok(6));
    assert_eq!(regs.set(Arch::X86_64, 6, 4).unwrap().fp(Arch::X86_64), Ok(4));
    assert_eq!(regs.get(Arch::X86_64, 17), Err(Failure::UnknownRegister));
    assert_eq!(strip_pac(Arch::Aarch64, usize::MAX), Ok(0xffff_ffff_ffff));
    assert_eq!(strip_pac(Arch::X86_64, usize::MAX), Ok(usize::MAX));
}

#[test]
fn a_frame_without_rows_goes_on() {
    let function = Record { start: 0x5000, end: 0x5010, frame: 0, handlers: 0, program: 0, limit: 0, version: 2 };
    let regs = Regs { r: [7; 41] };
    let answer = section(&[]).personality(Arch::X86_64, Phase::Search, 1, false, function, regs);
    assert_eq!(answer, Ok((Reason::ContinueUnwind, regs)));
}

#[test]
fn what_is_lent_twice_is_refused() {
    let memory = Memory { section: &[0; 8], section_base: 8, stack: &[0; 8], stack_base: 15 };
    assert_eq!(memory.lookup(Arch::X86_64, 0), Err(Failure::BadOpening));
    let apart = Memory { stack_base: 16, ..memory };
    assert_eq!(apart.lookup(Arch::X86_64, 0), Ok(None));
    assert_eq!(apart.read_uleb(24, 32), Err(Failure::OutsideMemory));
}

#[test]
fn failures_have_the_documents_numbers() {
    assert_eq!(Failure::BadEkoRecord.number(), 18);
    assert_eq!(Failure::TooManyFrames.number(), 29);
    assert_eq!(Failure::EkoTruncated.number(), 30);
    assert_eq!(Failure::BadUleb.number(), 31);
    assert_eq!(Failure::TooManySaved.number(), 32);
}

#[test]
fn failures_are_errors_that_say_number_name_and_meaning() {
    let error: Box<dyn Error + Send + Sync> = uleb(&[0x80; 5]).unwrap_err().into();
    assert_eq!(
        error.to_string(),
        "31 BadUleb: a number in a state program or a row table has no end in five bytes or is above 4294967295."
    );
    assert_eq!(error.downcast_ref(), Some(&Failure::BadUleb));
    let malformed = "18 BadEkoRecord: a record, frame word, state program or row is malformed.";
    assert_eq!(run(Arch::X86_64, &[0xc8, 0x00], 0).unwrap_err().to_string(), malformed);
    let seen = HashSet::from([Failure::BadEkoRecord, Failure::BadOpening]);
    assert!(seen.contains(&Failure::BadOpening) && !seen.contains(&Failure::Misaligned));
}
