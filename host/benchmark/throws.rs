//! Walks and throws. The Rust has no raise and no resume: its lookup, step and personality go from frame to frame in the two
//! phases, as document 01 says.
use ps_unwind::abi::{Cursor, UA_CLEANUP_PHASE, UA_SEARCH_PHASE, URC_CONTINUE_UNWIND, URC_HANDLER_FOUND, URC_INSTALL_CONTEXT};
use ps_unwind::arch;
use ps_unwind::eko::{self, Record};
use ps_unwind::frame::{FrameInfo, Kind};

use crate::cold;
use crate::stacks::{bytes, section, stacks};
use crate::timing::measure_over;
use crate::{ANSWERED, NONE, PC_COLUMN, RawUnwinding, Regs, X86_64, address, file, raw};

const EXCEPTION: usize = 99;

/// How many stacks come again and again in a case's second timing, with so many frames in all at most.
const AGAIN: usize = 8;
const AGAIN_FRAMES: usize = 4_096;

const MOST_FRAMES: usize = 1024;

/// A frame's number, pc and sp.
type Place = (usize, usize, usize);

/// A section, stacks with the registers of their innermost frames, and the same registers as we have them; and what a throw came
/// to: the frame that the Rust chose, and our unwinding.
struct Case {
    section: Vec<u8>,
    stacks: Vec<(Vec<usize>, arch::Regs)>,
    files: Vec<Regs>,
    chosen: Vec<(usize, usize)>,
    unwindings: Vec<RawUnwinding>,
}

/// A walk over so many frames, a throw that the outermost catches, and all its landings, in a section of so many chunks.
pub fn all(version: u8, frames: usize, chunks: usize) {
    let case = Case::new(version, frames, chunks);
    let (inputs, again) = (case.stacks.len(), AGAIN.min(AGAIN_FRAMES / frames));
    let more = if chunks == 1 { String::new() } else { format!(", {chunks} chunks") };
    let name = |what| format!("{what} {frames} frames, version {version}{more}");
    measure_over(inputs, again, &name("walk"), |i| case.rust_walk(i), |i| case.walk(i), same_places);
    measure_over(inputs, again, &name("raise"), |i| case.rust_raise(i), |i| case.raise(i), same_choice);
    measure_over(inputs, again, &name("resume"), |i| case.rust_resume(i), |i| case.resume(i), same_places);
}

/// The same with nothing cached, in one chunk.
pub fn all_cold(version: u8, frames: usize) {
    let case = Case::new(version, frames, 1);
    let inputs = case.stacks.len();
    let name = |what| format!("cold {what} {frames} frames, version {version}");
    cold::measure(inputs, &name("walk"), |i| case.rust_walk(i), |i| case.walk(i), same_places);
    cold::measure(inputs, &name("raise"), |i| case.rust_raise(i), |i| case.raise(i), same_choice);
    cold::measure(inputs, &name("resume"), |i| case.rust_resume(i), |i| case.resume(i), same_places);
}

fn same_places(rust: &Place, ours: &Place) -> bool {
    rust == ours
}

fn same_choice(rust: &(usize, usize), ours: &raw::Raised) -> bool {
    (ours.status, ours.reason, ours.number, ours.sp) == (ANSWERED, URC_HANDLER_FOUND, rust.0, rust.1)
}

fn place(number: usize, regs: &arch::Regs) -> Place {
    (number, regs.pc, regs.sp())
}

/// Every frame told so far, in short.
fn told(so_far: Place, next: Place) -> Place {
    (so_far.0 + next.0, so_far.1.rotate_left(7) ^ next.1, so_far.2.rotate_left(7) ^ next.2)
}

impl Case {
    fn new(version: u8, frames: usize, chunks: usize) -> Self {
        let (section, first) = section(version, chunks);
        let stacks = stacks(frames, first);
        let files = stacks.iter().map(|(_, regs)| file(regs)).collect();
        let mut case = Case { section, stacks, files, chosen: Vec::new(), unwindings: Vec::new() };
        case.chosen = (0..case.stacks.len()).map(|i| case.rust_raise(i)).collect();
        case.unwindings = (0..case.stacks.len()).map(|i| case.raise(i).unwinding).collect();
        case
    }

    /// The frame step: the record and the caller's registers, none past the last frame.
    fn rust_step(&self, number: usize, regs: &arch::Regs) -> Option<(Record, arch::Regs)> {
        if regs.pc == 0 {
            return None;
        }
        assert!(number < MOST_FRAMES);
        let at = regs.pc - 1;
        let record = eko::lookup(address(&self.section), self.section.len(), at).ok()??;
        let caller = match record.kind() {
            Kind::Eko(frame) => eko::step(frame, regs, false),
            Kind::Eko2 { program, limit } => eko::step2(program, limit, at - record.start, regs),
        };
        let caller = caller.ok()?;
        assert!(caller.sp() > regs.sp() || number == 0 && caller.sp() == regs.sp());
        Some((record, caller))
    }

    fn rust_walk(&self, i: usize) -> Place {
        let (mut regs, mut number, mut frames) = (self.stacks[i].1, 0, (0, 0, 0));
        while let Some((_, caller)) = self.rust_step(number, &regs) {
            frames = told(frames, place(number, &regs));
            (regs, number) = (caller, number + 1);
        }
        frames
    }

    /// The chosen frame's number and sp.
    fn rust_raise(&self, i: usize) -> (usize, usize) {
        let (mut regs, mut number) = (self.stacks[i].1, 0);
        while let Some((record, caller)) = self.rust_step(number, &regs) {
            if decide(UA_SEARCH_PHASE, &record, &mut regs) == URC_HANDLER_FOUND {
                return (number, regs.sp());
            }
            (regs, number) = (caller, number + 1);
        }
        unreachable!("the outermost frame catches")
    }

    /// All landings up to the chosen frame.
    fn rust_resume(&self, i: usize) -> Place {
        let chosen = self.chosen[i];
        let (mut regs, mut number, mut landings) = (self.stacks[i].1, 0, (0, 0, 0));
        while number <= chosen.0 {
            let (record, caller) = self.rust_step(number, &regs).expect("a frame up to the chosen one");
            assert!(number < chosen.0 || regs.sp() == chosen.1);
            match decide(UA_CLEANUP_PHASE, &record, &mut regs) {
                URC_INSTALL_CONTEXT => landings = told(landings, place(number, &regs)),
                reason => assert_eq!(reason, URC_CONTINUE_UNWIND),
            }
            (regs, number) = (caller, number + 1);
        }
        landings
    }

    /// The frames come up to 16 at a time.
    fn walk(&self, i: usize) -> Place {
        let stack = bytes(&self.stacks[i].0);
        let (mut regs, mut number, mut frames) = (self.files[i], 0, (0, 0, 0));
        loop {
            let next = lend!(eko_walk, &self.section, stack, X86_64, number, false, regs);
            let given = &next.frames;
            for k in 0..given.count {
                frames = told(frames, (number + k, given.pcs[k], given.sps[k]));
            }
            if next.status != ANSWERED {
                assert_eq!(next.status, NONE);
                return frames;
            }
            (regs, number) = (next.regs, next.number);
        }
    }

    fn raise(&self, i: usize) -> raw::Raised {
        let (stack, regs) = (bytes(&self.stacks[i].0), self.files[i]);
        lend!(eko_raise, &self.section, stack, X86_64, regs, regs.r[PC_COLUMN], false, EXCEPTION)
    }

    fn resume(&self, i: usize) -> Place {
        let (stack, mut unwinding, mut landings) = (bytes(&self.stacks[i].0), self.unwindings[i], (0, 0, 0));
        loop {
            let next = lend!(eko_resume, &self.section, stack, X86_64, unwinding);
            if next.status != ANSWERED {
                assert_eq!(next.status, NONE);
                return landings;
            }
            assert_eq!(next.reason, URC_INSTALL_CONTEXT);
            landings = told(landings, (next.number, next.regs.r[PC_COLUMN], next.regs.r[7]));
            unwinding = next.unwinding;
        }
    }
}

/// The personality of a frame. For a landing the registers become those at the pad.
fn decide(phase: u32, record: &Record, regs: &mut arch::Regs) -> u32 {
    let info = FrameInfo { start: record.start, eko_handlers: record.handlers, kind: record.kind() };
    let mut cursor = Cursor { regs: *regs, info, ip_before_insn: false };
    let reason = eko::personality(phase, EXCEPTION as *mut _, &mut cursor).expect("no frame is refused");
    *regs = cursor.regs;
    reason
}
