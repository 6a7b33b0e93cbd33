//! The requests of the three operations, and their answers as text.
use std::io;

use crate::oracle::Oracle;
use crate::tokens;
use crate::unwinding::{File, Frame, Lent, Raised, Resumed, Stop, Unwinding};

/// The answer to a line.
pub fn answer(oracle: &mut Oracle, line: &str) -> io::Result<String> {
    let words: Vec<&str> = line.split_ascii_whitespace().collect();
    let (Some(ranges), Some(operation)) = (words.get(..4), words.get(4)) else {
        return oracle.ask(line);
    };
    let mut lent = Lent { oracle, ranges: ranges.join(" ") };
    let arguments = &words[5..];
    let composed = match *operation {
        "walk" => walk(&mut lent, arguments),
        "unwind" => unwind(&mut lent, arguments),
        "sweep" => sweep(&mut lent, arguments),
        _ => return oracle.ask(line),
    };
    match composed {
        Ok(text) => Ok(text),
        Err(Stop::Refused(number)) => Ok(format!("err {number}")),
        Err(Stop::Bad) => Ok("bad".to_string()),
        Err(Stop::Broken(error)) => Err(error),
    }
}

type Answer = Result<String, Stop>;

fn number(word: &str) -> Result<u64, Stop> {
    tokens::number(word).ok_or(Stop::Bad)
}

fn flag(word: &str) -> Result<bool, Stop> {
    match number(word)? {
        0 => Ok(false),
        1 => Ok(true),
        _ => Err(Stop::Bad),
    }
}

/// INTERRUPTED REGS
fn walk(lent: &mut Lent, arguments: &[&str]) -> Answer {
    let [interrupted, file] = arguments else { return Err(Stop::Bad) };
    let mut frame = Frame { number: 0, interrupted: flag(interrupted)?, file: File::parse(file)? };
    let mut text = "walk".to_string();
    loop {
        match lent.step(&frame) {
            Ok(Some((record, caller))) => {
                text += &format!(" {}:{}:{}", record.start, frame.file.pc(), frame.file.sp());
                frame = caller;
            }
            Ok(None) => return Ok(text + " end"),
            Err(Stop::Refused(number)) => return Ok(text + &format!(" err {number}")),
            Err(stop) => return Err(stop),
        }
    }
}

/// EXC INTERRUPTED CALLS REGS
fn unwind(lent: &mut Lent, arguments: &[&str]) -> Answer {
    let [exception, interrupted, calls, file] = arguments else { return Err(Stop::Bad) };
    let frame = Frame { number: 0, interrupted: flag(interrupted)?, file: File::parse(file)? };
    let (raised, mut chosen) = (lent.raise(&frame), None);
    let mut text = match raised {
        Ok(Raised::Chosen(number, sp)) => {
            chosen = Some((number, sp));
            format!("chosen {number} {sp}")
        }
        Ok(Raised::Reason(number)) => format!("reason {number}"),
        Err(Stop::Refused(number)) => format!("err {number}"),
        Err(stop) => return Err(stop),
    };
    let (chosen_number, chosen_sp) = chosen.unwrap_or((0, 0));
    let mut unwinding =
        Unwinding { frame, exception: number(exception)?, chosen_number, chosen_sp, chosen: chosen.is_some() };
    for _ in 0..number(calls)? {
        text += &format!(" | {}", resume(lent, &mut unwinding)?);
    }
    Ok(text)
}

/// NUMBER INTERRUPTED EXC CHOSEN CHOSENSP HASCHOICE REGS
fn sweep(lent: &mut Lent, arguments: &[&str]) -> Answer {
    let [at, interrupted, exception, chosen_number, chosen_sp, chosen, file] = arguments else {
        return Err(Stop::Bad);
    };
    let mut unwinding = Unwinding {
        frame: Frame { number: number(at)?, interrupted: flag(interrupted)?, file: File::parse(file)? },
        exception: number(exception)?,
        chosen_number: number(chosen_number)?,
        chosen_sp: number(chosen_sp)?,
        chosen: flag(chosen)?,
    };
    let text = resume(lent, &mut unwinding)?;
    Ok(format!("{text} | next {}", unwinding.text()))
}

/// One call, after which the unwinding is the one that it hands back.
fn resume(lent: &mut Lent, unwinding: &mut Unwinding) -> Answer {
    match lent.resume(unwinding) {
        Ok(Resumed::Landing { number, file, next }) => {
            unwinding.frame = next;
            Ok(format!("landing {number} {file}"))
        }
        Ok(Resumed::Reason(number)) => Ok(format!("reason {number}")),
        Ok(Resumed::Finished) => Ok("finished".to_string()),
        Err(Stop::Refused(number)) => Ok(format!("err {number}")),
        Err(stop) => Err(stop),
    }
}
