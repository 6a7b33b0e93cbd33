//! `probe ARCH`: the library behind the line protocol of the oracle, for architecture 1 (aarch64) or 2 (x86-64).
mod args;
#[allow(dead_code)]
#[path = "../../checked.rs"]
mod checked;
mod handed;
mod operations;
#[path = "../../raw.rs"]
mod raw;
mod text;
#[path = "../../../../oracle/program/tokens.rs"]
mod tokens;
mod unwinding;

use std::io::{self, BufRead, Write};
use std::process::ExitCode;

use args::Stop;
use checked::Wrong;
use morthwyga::{Arch, RawUnwinding, Record, Regs, State};
use text::failure_text;

fn main() -> ExitCode {
    let arch = match std::env::args().nth(1).as_deref() {
        Some("1") => Arch::Aarch64,
        Some("2") => Arch::X86_64,
        _ => {
            eprintln!("usage: probe ARCH, which is 1 (aarch64) or 2 (x86-64)");
            return ExitCode::from(2);
        }
    };
    match answer_all(arch) {
        Ok(()) => ExitCode::SUCCESS,
        Err(_) => ExitCode::FAILURE,
    }
}

fn answer_all(arch: Arch) -> io::Result<()> {
    let mut out = io::stdout().lock();
    for line in io::stdin().lock().split(b'\n') {
        writeln!(out, "{}", answer(arch, &line?))?;
        out.flush()?;
    }
    Ok(())
}

/// The answer to one request, without its line end.
fn answer(arch: Arch, line: &[u8]) -> String {
    let Ok(line) = str::from_utf8(line) else {
        return "bad".to_string();
    };
    match operations::answer(arch, line) {
        Ok(text) => text,
        Err(Stop::Refused(failure)) => failure_text(failure),
        Err(Stop::Wrong(Wrong(text))) => format!("wrong: {text}"),
        Err(Stop::Bad) => "bad".to_string(),
    }
}
