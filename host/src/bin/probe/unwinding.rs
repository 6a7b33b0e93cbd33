//! The operations that only the probe has: walks, throws, and single resume calls.
use morthwyga::{Arch, Failure, Frame, Memory, PC_COLUMN, Raised, RawUnwinding, Reason, Regs, Resumed};

use crate::args::{Args, Parsed};
use crate::checked::{self, ANSWERED, NONE};
use crate::handed::asked;
use crate::operations::Answer;
use crate::text::{failure_text, list_text, reason_text, status_text};

/// INTERRUPTED REGS
pub fn walk(arch: Arch, memory: Memory, args: &mut Args) -> Answer {
    let (interrupted, regs) = (args.flag()?, args.regs(arch)?);
    args.end()?;
    asked(arch, |arch| Ok(checked::next_frame(memory, arch, 0, interrupted, regs)?.status))?;
    asked(arch, |arch| Ok(checked::walk(memory, arch, 0, interrupted, regs)?.status))?;
    check_walk(arch, memory, interrupted, regs)?;
    let (places, end) = memory.walk(arch, Frame { number: 0, interrupted, regs });
    let frames: String = places.iter().map(|p| format!(" {}:{}:{}", p.start, p.pc, p.sp)).collect();
    let end = end.map_or_else(failure_text, |()| "end".to_string());
    Ok(format!("walk{frames} {end}"))
}

/// Every call of a walk hands back what it should.
fn check_walk(arch: Arch, memory: Memory, interrupted: bool, regs: Regs) -> Parsed<()> {
    let mut batch = checked::walk(memory, arch as u8, 0, interrupted, regs)?;
    while batch.status == ANSWERED {
        batch = checked::walk(memory, arch as u8, batch.number, batch.interrupted, batch.regs)?;
    }
    Ok(())
}

/// EXC INTERRUPTED CALLS REGS
pub fn unwind(arch: Arch, memory: Memory, args: &mut Args) -> Answer {
    let (exception, interrupted) = (args.number()?, args.flag()?);
    let (calls, regs): (u64, Regs) = (args.number()?, args.regs(arch)?);
    args.end()?;
    let mut other = regs;
    other.r[PC_COLUMN] = !regs.pc();
    asked(arch, |arch| Ok(checked::raise(memory, arch, other, regs.pc(), interrupted, exception)?.status))?;
    let (raised, unwinding) = memory.raise(arch, regs, regs.pc(), interrupted, exception);
    let mut text = match raised {
        Ok(Raised::Chosen { number, sp }) => format!("chosen {number} {sp}"),
        Ok(Raised::Terminated) => reason_text(Reason::FatalPhase1Error as u32),
        Ok(Raised::EndOfStack) => reason_text(END_OF_STACK),
        Err(failure) => failure_text(failure),
    };
    let mut current = unwinding;
    for _ in 0..calls {
        checked::resume(memory, arch as u8, current.raw())?;
        let (resumed, next) = memory.resume(arch, current);
        text += &format!(" | {}", resumed_text(arch, resumed));
        current = next;
    }
    Ok(text)
}

/// The reason of a throw that no frame catches.
const END_OF_STACK: u32 = 5;

/// What one regular call comes to.
fn resumed_text(arch: Arch, resumed: Result<Resumed, Failure>) -> String {
    match resumed {
        Ok(Resumed::Landing { number, regs }) => format!("landing {number} {}", list_text(arch, &regs)),
        Ok(Resumed::Terminated) => reason_text(Reason::FatalPhase2Error as u32),
        Ok(Resumed::Finished) => "finished".to_string(),
        Err(failure) => failure_text(failure),
    }
}

/// NUMBER INTERRUPTED EXC CHOSEN CHOSENSP HASCHOICE REGS
pub fn sweep(arch: Arch, memory: Memory, args: &mut Args) -> Answer {
    let (number, interrupted, exception) = (args.number()?, args.flag()?, args.number()?);
    let (chosen_number, chosen_sp, chosen) = (args.number()?, args.number()?, args.flag()?);
    let regs = args.regs(arch)?;
    args.end()?;
    let given = RawUnwinding { regs, number, interrupted, exception, chosen_number, chosen_sp, chosen };
    asked(arch, |arch| Ok(checked::resume(memory, arch, given)?.status))?;
    let a = checked::resume(memory, arch as u8, given)?;
    let answer = match (a.status, a.reason) {
        (ANSWERED, 7) => format!("landing {} {}", a.number, list_text(arch, &a.regs)),
        (ANSWERED, reason) => reason_text(reason),
        (NONE, _) => "finished".to_string(),
        (status, _) => status_text(status),
    };
    Ok(format!("{answer} | next {}", unwinding_text(arch, &a.unwinding)))
}

fn unwinding_text(arch: Arch, u: &RawUnwinding) -> String {
    let (interrupted, chosen) = (u.interrupted as u8, u.chosen as u8);
    let list = list_text(arch, &u.regs);
    format!("{} {interrupted} {} {} {} {chosen} {list}", u.number, u.exception, u.chosen_number, u.chosen_sp)
}
