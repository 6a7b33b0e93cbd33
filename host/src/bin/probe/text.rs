//! The parts of an answer.
use morthwyga::{Arch, Failure, Regs, Row, State};

use crate::args::columns;

pub fn reason_text(number: u32) -> String {
    format!("reason {number}")
}

pub fn failure_text(failure: Failure) -> String {
    status_text(failure.number())
}

pub fn status_text(number: u32) -> String {
    format!("err {number}")
}

pub fn value_text(value: usize) -> String {
    format!("value {value}")
}

pub fn row_text(row: Option<Row>) -> String {
    match row {
        None => "none".to_string(),
        Some(row) => format!("row {} {}", row.pad, row.action as usize),
    }
}

/// All 32 pairs, those past the count included.
pub fn state_text(state: &State) -> String {
    let pairs: Vec<String> = state.regs.iter().zip(state.slots).map(|(reg, slot)| format!("{reg}:{slot}")).collect();
    let fp = state.cfa_fp as u8;
    format!("state {fp} {} {} {}", state.cfa_units, state.count, pairs.join(","))
}

pub fn regs_text(arch: Arch, regs: &Regs) -> String {
    format!("regs {}", list_text(arch, regs))
}

pub fn list_text(arch: Arch, regs: &Regs) -> String {
    let values: Vec<String> = columns(arch).iter().map(|column| regs.r[*column].to_string()).collect();
    values.join(",")
}
