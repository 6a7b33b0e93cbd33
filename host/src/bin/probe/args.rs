//! The arguments of a request, read one after the other.
use std::str::SplitAsciiWhitespace;

use morthwyga::{Arch, Failure, Regs, State};

use crate::checked::Wrong;
use crate::tokens;

/// Why a request has no answer of its own.
pub enum Stop {
    /// The line is malformed.
    Bad,
    Refused(Failure),
    /// The call hands back what it should not.
    Wrong(Wrong),
}

impl From<Wrong> for Stop {
    fn from(wrong: Wrong) -> Stop {
        Stop::Wrong(wrong)
    }
}

impl From<Failure> for Stop {
    fn from(failure: Failure) -> Stop {
        Stop::Refused(failure)
    }
}

pub type Parsed<T> = Result<T, Stop>;

pub struct Args<'a>(SplitAsciiWhitespace<'a>);

impl<'a> Args<'a> {
    pub fn new(line: &'a str) -> Args<'a> {
        Args(line.split_ascii_whitespace())
    }

    pub fn token(&mut self) -> Parsed<&'a str> {
        self.0.next().ok_or(Stop::Bad)
    }

    /// A number that fits the type.
    pub fn number<T: TryFrom<u64>>(&mut self) -> Parsed<T> {
        fit(tokens::number(self.token()?))
    }

    /// 0 or 1.
    pub fn flag(&mut self) -> Parsed<bool> {
        match self.number::<u64>()? {
            0 => Ok(false),
            1 => Ok(true),
            _ => Err(Stop::Bad),
        }
    }

    /// A base and its bytes.
    pub fn range(&mut self) -> Parsed<(usize, Vec<u8>)> {
        let base = self.number()?;
        Ok((base, tokens::bytes(self.token()?).ok_or(Stop::Bad)?))
    }

    /// FP UNITS COUNT PAIRS.
    pub fn state(&mut self) -> Parsed<State> {
        let (cfa_fp, cfa_units, count) = (self.flag()?, self.number()?, self.number()?);
        let (regs, slots) = pairs(self.token()?)?;
        Ok(State { cfa_fp, cfa_units, count, regs, slots })
    }

    /// x86-64: r0..r15, pc. aarch64: x0..x30, sp, d8..d15, pc.
    pub fn regs(&mut self, arch: Arch) -> Parsed<Regs> {
        let list = tokens::list(self.token()?).ok_or(Stop::Bad)?;
        let columns = columns(arch);
        if list.len() != columns.len() {
            return Err(Stop::Bad);
        }
        let mut r = [0; 41];
        for (column, value) in columns.iter().zip(list) {
            r[*column] = value as usize;
        }
        Ok(Regs { r })
    }

    pub fn end(&mut self) -> Parsed<()> {
        match self.0.next() {
            None => Ok(()),
            Some(_) => Err(Stop::Bad),
        }
    }
}

/// The columns of a register file in the protocol's order.
pub fn columns(arch: Arch) -> Vec<usize> {
    match arch {
        Arch::Aarch64 => (0..41).collect(),
        Arch::X86_64 => (0..16).chain([40]).collect(),
    }
}

fn fit<T: TryFrom<u64>>(number: Option<u64>) -> Parsed<T> {
    number.and_then(|n| T::try_from(n).ok()).ok_or(Stop::Bad)
}

/// `r:s,r:s,...`, at most 32, or `-` for none; the missing ones are 0:0.
fn pairs(text: &str) -> Parsed<([u16; 32], [u16; 32])> {
    let (mut regs, mut slots) = ([0; 32], [0; 32]);
    if text == "-" {
        return Ok((regs, slots));
    }
    for (i, pair) in text.split(',').enumerate() {
        let (reg, slot) = pair.split_once(':').ok_or(Stop::Bad)?;
        *regs.get_mut(i).ok_or(Stop::Bad)? = fit(tokens::number(reg))?;
        slots[i] = fit(tokens::number(slot))?;
    }
    Ok((regs, slots))
}
