//! Walk, throw and sweep (document 01, "Walk, throw and call machine") over the oracle's functions.
use std::io;

use crate::oracle::Oracle;
use crate::tokens;

const MOST_FRAMES: u64 = 1024;

/// Why there is no answer.
pub enum Stop {
    /// The request is malformed, or the oracle finds it so.
    Bad,
    Refused(u64),
    Broken(io::Error),
}

/// A register file in the protocol's order.
#[derive(Clone)]
pub struct File(Vec<u64>);

impl File {
    pub fn parse(text: &str) -> Result<File, Stop> {
        let list = tokens::list(text).ok_or(Stop::Bad)?;
        if [17, 41].contains(&list.len()) { Ok(File(list)) } else { Err(Stop::Bad) }
    }

    /// The last number.
    pub fn pc(&self) -> u64 {
        self.0[self.0.len() - 1]
    }

    pub fn sp(&self) -> u64 {
        self.0[if self.0.len() == 17 { 7 } else { 31 }]
    }

    fn text(&self) -> String {
        self.0.iter().map(u64::to_string).collect::<Vec<_>>().join(",")
    }
}

#[derive(Clone)]
pub struct Frame {
    pub number: u64,
    pub interrupted: bool,
    pub file: File,
}

/// A record as lookup answers it.
pub struct Record {
    pub start: u64,
    frame: u64,
    handlers: u64,
    program: u64,
    limit: u64,
    version: u64,
}

pub enum Raised {
    Chosen(u64, u64),
    Reason(u64),
}

pub struct Unwinding {
    pub frame: Frame,
    pub exception: u64,
    pub chosen_number: u64,
    pub chosen_sp: u64,
    pub chosen: bool,
}

impl Unwinding {
    pub fn text(&self) -> String {
        let Frame { number, interrupted, file } = &self.frame;
        let (interrupted, chosen) = (*interrupted as u8, self.chosen as u8);
        let (exception, chosen_number, sp) = (self.exception, self.chosen_number, self.chosen_sp);
        format!("{number} {interrupted} {exception} {chosen_number} {sp} {chosen} {}", file.text())
    }
}

pub enum Resumed {
    Landing { number: u64, file: String, next: Frame },
    Reason(u64),
    Finished,
}

/// What a frame's row asks for.
enum Row {
    None,
    Cleanup(String),
    Catch(String),
    Terminate,
}

/// The two ranges, and the oracle to read them.
pub struct Lent<'a> {
    pub oracle: &'a mut Oracle,
    pub ranges: String,
}

impl Lent<'_> {
    /// The words of an answer that is no refusal.
    fn ask(&mut self, operation: &str) -> Result<Vec<String>, Stop> {
        let said = self.oracle.ask(&format!("{} {operation}", self.ranges)).map_err(Stop::Broken)?;
        let words: Vec<String> = said.split(' ').map(str::to_string).collect();
        match &words[..] {
            [word] if word == "outside" => Err(Stop::Refused(27)),
            [word, number] if word == "err" => Err(Stop::Refused(tokens::number(number).ok_or(Stop::Bad)?)),
            [word] if word != "none" => Err(Stop::Bad),
            _ => Ok(words),
        }
    }

    fn lookup(&mut self, pc: u64) -> Result<Option<Record>, Stop> {
        let words = self.ask(&format!("lookup {pc}"))?;
        let numbers: Option<Vec<u64>> = words[1..].iter().map(|word| tokens::number(word)).collect();
        match numbers.as_deref() {
            Some([start, _, frame, handlers, program, limit, version]) => Ok(Some(Record {
                start: *start,
                frame: *frame,
                handlers: *handlers,
                program: *program,
                limit: *limit,
                version: *version,
            })),
            Some([]) => Ok(None),
            _ => Err(Stop::Bad),
        }
    }

    /// The caller's file: version 2 by run, then apply; version 1 by step.
    fn caller(&mut self, frame: &Frame, record: &Record, at: u64) -> Result<File, Stop> {
        let file = frame.file.text();
        let words = if record.version == 2 {
            let off = at.wrapping_sub(record.start);
            let state = self.ask(&format!("run {} {} {off}", record.program, record.limit))?;
            self.ask(&format!("apply {} {file}", state[1..5].join(" ")))?
        } else {
            self.ask(&format!("step {} {} {file}", record.frame, frame.interrupted as u8))?
        };
        File::parse(&words[1])
    }

    /// The frame step: the frame's record and its caller, none at the end.
    pub fn step(&mut self, frame: &Frame) -> Result<Option<(Record, Frame)>, Stop> {
        let pc = frame.file.pc();
        if pc == 0 {
            return Ok(None);
        }
        if frame.number >= MOST_FRAMES {
            return Err(Stop::Refused(29));
        }
        let at = if frame.interrupted { pc } else { pc - 1 };
        let Some(record) = self.lookup(at)? else {
            return Ok(None);
        };
        let file = self.caller(frame, &record, at)?;
        if file.sp() < frame.file.sp() || frame.number > 0 && file.sp() == frame.file.sp() {
            return Err(Stop::Refused(20));
        }
        Ok(Some((record, Frame { number: frame.number + 1, interrupted: false, file })))
    }

    /// The reason of a frame in a phase, and the file that goes with it.
    fn reason(&mut self, phase: u8, exception: u64, frame: &Frame, record: &Record) -> Result<(u64, String), Stop> {
        let Record { start, handlers, version, program, limit, .. } = record;
        let (interrupted, file) = (frame.interrupted as u8, frame.file.text());
        let words = self.ask(&format!(
            "personality {phase} {exception} {interrupted} {start} {handlers} {version} {} {program} {limit} {file}",
            record.frame
        ))?;
        Ok((tokens::number(&words[1]).ok_or(Stop::Bad)?, words[2].clone()))
    }

    fn row(&mut self, exception: u64, frame: &Frame, record: &Record) -> Result<Row, Stop> {
        let (searched, _) = self.reason(1, exception, frame, record)?;
        let (cleaned, file) = self.reason(2, exception, frame, record)?;
        match (searched, cleaned) {
            (8, 8) => Ok(Row::None),
            (8, 7) => Ok(Row::Cleanup(file)),
            (6, 7) => Ok(Row::Catch(file)),
            (3, 2) => Ok(Row::Terminate),
            _ => Err(Stop::Bad),
        }
    }

    pub fn raise(&mut self, first: &Frame) -> Result<Raised, Stop> {
        let mut frame = first.clone();
        while let Some((record, caller)) = self.step(&frame)? {
            match self.reason(1, 0, &frame, &record)?.0 {
                8 => frame = caller,
                6 => return Ok(Raised::Chosen(frame.number, frame.file.sp())),
                reason => return Ok(Raised::Reason(reason)),
            }
        }
        Ok(Raised::Reason(5))
    }

    pub fn resume(&mut self, unwinding: &Unwinding) -> Result<Resumed, Stop> {
        if !unwinding.chosen || unwinding.chosen_number < unwinding.frame.number {
            return Ok(Resumed::Finished);
        }
        let missed = Err(Stop::Refused(22));
        let mut frame = unwinding.frame.clone();
        while let Some((record, next)) = self.step(&frame)? {
            let number = frame.number;
            let below = number < unwinding.chosen_number;
            match self.row(unwinding.exception, &frame, &record)? {
                Row::None if below => frame = next,
                Row::Cleanup(file) if below => return Ok(Resumed::Landing { number, file, next }),
                Row::Terminate if below => return Ok(Resumed::Reason(2)),
                Row::Catch(file) if !below && frame.file.sp() == unwinding.chosen_sp => {
                    return Ok(Resumed::Landing { number, file, next });
                }
                _ => return missed,
            }
        }
        missed
    }
}
