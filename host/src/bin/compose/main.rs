//! `compose ORACLE`: walk, unwind and sweep, which ps-unwind does not have: the oracle's lookup, step, run, apply and personality are
//! driven from frame to frame in document 01's order. Every other request goes to the oracle as it is. Openings are not checked.
mod oracle;
mod request;
#[allow(dead_code)]
#[path = "../../../../oracle/program/tokens.rs"]
mod tokens;
mod unwinding;

use std::io::{self, BufRead, Write};
use std::process::ExitCode;

use oracle::Oracle;

fn main() -> ExitCode {
    let Some(program) = std::env::args().nth(1) else {
        eprintln!("usage: compose ORACLE");
        return ExitCode::from(2);
    };
    match answer_all(&program) {
        Ok(()) => ExitCode::SUCCESS,
        Err(error) => {
            eprintln!("compose: {program}: {error}");
            ExitCode::FAILURE
        }
    }
}

fn answer_all(program: &str) -> io::Result<()> {
    let mut oracle = Oracle::start(program)?;
    let mut out = io::BufWriter::new(io::stdout().lock());
    for line in io::stdin().lock().lines() {
        writeln!(out, "{}", request::answer(&mut oracle, &line?)?)?;
    }
    out.flush()
}
