//! What demand 3 asks of a throw, from the machine alone.
use morthwyga::Raised;

use crate::machine::{Frame, Machine, Throw};
use crate::numbers::{File, PC};
use crate::rows::{CATCH, Row, TERMINATE};

pub struct Landing {
    pub number: usize,
    /// The frame's function, and its row there.
    pub function: usize,
    pub row: usize,
    /// The frame's registers at its call.
    pub file: File,
    pub pc: usize,
    /// The sum of start and pad is 2^64 or more.
    pub wraps: bool,
}

pub struct Expected {
    pub answer: Raised,
    pub landings: Vec<Landing>,
}

/// The row of a frame: none if it is interrupted. An error where the section is not sound, because of this frame.
fn row(machine: &Machine, frame: &Frame) -> Result<Option<Row>, ()> {
    let function = &machine.section.functions[frame.open.function];
    if function.damaged {
        return Err(());
    }
    if frame.interrupted {
        return Ok(None);
    }
    match function.row(frame.file[PC] - function.start) {
        Some(row) if !row.is_good() => Err(()),
        row => Ok(row),
    }
}

/// A throw that is refused with 18: before any row that decides comes one that is no row, in a table that is good.
pub fn refused(machine: &Machine, throw: Throw) -> bool {
    for frame in machine.frames(throw) {
        let function = &machine.section.functions[frame.open.function];
        match row(machine, &frame) {
            Err(()) => return !function.damaged,
            Ok(Some(row)) if row.action == CATCH || row.action == TERMINATE => return false,
            Ok(_) => {}
        }
    }
    false
}

/// Of a throw within the rules: the answer and the landings due. None where the section is not sound.
pub fn expected(machine: &Machine, throw: Throw) -> Option<Expected> {
    let frames: Vec<Frame> = machine.frames(throw).collect();
    let rows: Vec<Option<Row>> = frames.iter().map(|frame| row(machine, frame)).collect::<Result<_, ()>>().ok()?;
    let decides = |row: &Option<Row>| row.is_some_and(|row| row.action == CATCH || row.action == TERMINATE);
    let Some(number) = rows.iter().position(decides) else {
        return Some(Expected { answer: Raised::EndOfStack, landings: Vec::new() });
    };
    if rows[number].is_some_and(|row| row.action == TERMINATE) {
        return Some(Expected { answer: Raised::Terminated, landings: Vec::new() });
    }
    let sp = machine.numbers().stack_pointer(&frames[number].file);
    let due = (0..=number).filter_map(|k| rows[k].map(|row| landing(machine, k, &frames[k], row)));
    Some(Expected { answer: Raised::Chosen { number, sp }, landings: due.collect() })
}

fn landing(machine: &Machine, number: usize, frame: &Frame, row: Row) -> Landing {
    let (index, function) = (frame.open.function, &machine.section.functions[frame.open.function]);
    let (pc, wraps) = function.start.overflowing_add(row.pad as usize);
    let place = function.rows.iter().flatten().position(|other| other.ret == row.ret).expect("a row of the function");
    Landing { number, function: index, row: place, file: frame.file, pc, wraps }
}
