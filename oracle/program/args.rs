//! The arguments of a request, read one after the other.

use std::str::SplitAsciiWhitespace;

use crate::arch::Regs;
use crate::eko::{MAX_SAVED, State};
use crate::failure::Failure;
use crate::mem::Range;
use crate::{registers, tokens};

/// Why a request has no answer of its own.
pub enum Stop {
    /// The line is malformed.
    Bad,
    Refused(Failure),
}

impl From<Failure> for Stop {
    fn from(failure: Failure) -> Stop {
        Stop::Refused(failure)
    }
}

pub type Parsed<T> = Result<T, Stop>;

pub struct Args<'a>(SplitAsciiWhitespace<'a>);

impl<'a> Args<'a> {
    pub fn new(line: &'a str) -> Args<'a> {
        Args(line.split_ascii_whitespace())
    }

    pub fn token(&mut self) -> Parsed<&'a str> {
        self.0.next().ok_or(Stop::Bad)
    }

    /// A number that fits the type the Rust takes.
    pub fn number<T: TryFrom<u64>>(&mut self) -> Parsed<T> {
        fit(tokens::number(self.token()?))
    }

    /// 0 or 1.
    pub fn flag(&mut self) -> Parsed<bool> {
        match self.number::<u64>()? {
            0 => Ok(false),
            1 => Ok(true),
            _ => Err(Stop::Bad),
        }
    }

    /// A base and its bytes.
    pub fn range(&mut self) -> Parsed<Range> {
        let base = self.number()?;
        let bytes = tokens::bytes(self.token()?).ok_or(Stop::Bad)?;
        Ok(Range { base, bytes })
    }

    /// FP UNITS COUNT PAIRS.
    pub fn state(&mut self) -> Parsed<State> {
        let cfa_fp = self.flag()?;
        let cfa_units = self.number()?;
        let count = self.number()?;
        Ok(State { cfa_fp, cfa_units, count, saved: pairs(self.token()?)? })
    }

    pub fn regs(&mut self) -> Parsed<Regs> {
        let numbers = tokens::list(self.token()?).ok_or(Stop::Bad)?;
        let words: Vec<usize> = numbers.into_iter().map(|n| n as usize).collect();
        let file = words.as_slice().try_into().map_err(|_| Stop::Bad)?;
        Ok(registers::from_list(file))
    }

    pub fn end(&mut self) -> Parsed<()> {
        match self.0.next() {
            None => Ok(()),
            Some(_) => Err(Stop::Bad),
        }
    }
}

fn fit<T: TryFrom<u64>>(number: Option<u64>) -> Parsed<T> {
    number.and_then(|n| T::try_from(n).ok()).ok_or(Stop::Bad)
}

/// `r:s,r:s,...`, at most 32, or `-` for none; the missing ones are 0:0.
fn pairs(text: &str) -> Parsed<[(u16, u16); MAX_SAVED]> {
    let mut saved = [(0, 0); MAX_SAVED];
    if text == "-" {
        return Ok(saved);
    }
    for (i, pair) in text.split(',').enumerate() {
        let (reg, slot) = pair.split_once(':').ok_or(Stop::Bad)?;
        let place = saved.get_mut(i).ok_or(Stop::Bad)?;
        *place = (fit(tokens::number(reg))?, fit(tokens::number(slot))?);
    }
    Ok(saved)
}
