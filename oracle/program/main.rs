//! The oracle: ps-unwind's reader of EKO tables behind the line protocol.
//!
//! `build` puts these files, the shims, and ps-unwind's eko.rs, failure.rs and
//! one of its arch files side by side, once for each architecture.
#![allow(dead_code, unexpected_cfgs)]

mod abi;
mod abi_numbers;
mod arch;
mod args;
mod eko;
mod failure;
mod frame;
mod mem;
mod operations;
mod registers;
mod tokens;

use std::io::{self, BufRead, Write};
use std::panic::{catch_unwind, set_hook};

use args::Stop;

fn main() -> io::Result<()> {
    set_hook(Box::new(|_| {}));
    let mut out = io::stdout().lock();
    for line in io::stdin().lock().split(b'\n') {
        writeln!(out, "{}", answer(&line?))?;
        out.flush()?;
    }
    Ok(())
}

/// The answer to one request, without its line end.
fn answer(line: &[u8]) -> String {
    let Ok(line) = str::from_utf8(line) else {
        return "bad".to_string();
    };
    match catch_unwind(|| operations::answer(line)) {
        Ok(Ok(text)) => text,
        Ok(Err(Stop::Refused(failure))) => format!("err {}", failure as u32),
        Ok(Err(Stop::Bad)) => "bad".to_string(),
        Err(payload) if payload.is::<mem::Outside>() => "outside".to_string(),
        Err(_) => "panic".to_string(),
    }
}
