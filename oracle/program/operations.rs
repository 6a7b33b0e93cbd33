//! One function for each operation of the protocol. It reads all its arguments,
//! calls the Rust, and writes the answer.

use crate::abi::{Cursor, UA_CLEANUP_PHASE, UA_SEARCH_PHASE, UnwindException};
use crate::arch::Regs;
use crate::args::{Args, Parsed, Stop};
use crate::eko::{self, HOST, State, VERSION2};
use crate::frame::{FrameInfo, Kind};
use crate::{mem, registers};

type Answer = Parsed<String>;

/// SBASE SHEX KBASE KHEX OP ARGS...
pub fn answer(line: &str) -> Answer {
    let mut args = Args::new(line);
    let section = args.range()?;
    let stack = args.range()?;
    mem::lend(section, stack);
    let args = &mut args;
    match args.token()? {
        "lookup" => lookup(args),
        "run" => run(args),
        "apply" => apply(args),
        "step" => step(args),
        "handler" => handler(args),
        "handler2" => handler2(args),
        "personality" => personality(args),
        "save" => save(args),
        "restore" => restore(args),
        "slot" => slot(args),
        "uleb" => uleb(args),
        "get" => get(args),
        "set" => set(args),
        "fp" => fp(args),
        "sp" => sp(args),
        "set_sp" => set_sp(args),
        "strip" => strip(args),
        _ => Err(Stop::Bad),
    }
}

fn lookup(args: &mut Args) -> Answer {
    let pc = args.number()?;
    args.end()?;
    let (base, len) = mem::section();
    Ok(match eko::lookup(base, len, pc)? {
        None => "none".to_string(),
        Some(r) => format!(
            "rec {} {} {} {} {} {} {}",
            r.start, r.end, r.frame, r.handlers, r.program, r.limit, r.version
        ),
    })
}

fn run(args: &mut Args) -> Answer {
    let (program, limit, off) = (args.number()?, args.number()?, args.number()?);
    args.end()?;
    let (state, after) = eko::run(&HOST, program, limit, off)?;
    Ok(format!("{} {after}", state_text(&state)))
}

fn apply(args: &mut Args) -> Answer {
    let state = args.state()?;
    let regs = args.regs()?;
    args.end()?;
    Ok(regs_text(&eko::apply(&HOST, &state, &regs)?))
}

fn step(args: &mut Args) -> Answer {
    let frame = args.number()?;
    let first = args.flag()?;
    let regs = args.regs()?;
    args.end()?;
    Ok(regs_text(&eko::step(frame, &regs, first)?))
}

fn handler(args: &mut Args) -> Answer {
    let (table, ret) = (args.number()?, args.number()?);
    args.end()?;
    Ok(row_text(eko::handler(table, ret)?))
}

fn handler2(args: &mut Args) -> Answer {
    let (table, limit, ret) = (args.number()?, args.number()?, args.number()?);
    args.end()?;
    Ok(row_text(eko::handler2(table, limit, ret)?))
}

/// PHASE EXC INTERRUPTED START HANDLERS VERSION FRAME PROGRAM LIMIT REGS
fn personality(args: &mut Args) -> Answer {
    let actions = phase(args)?;
    let exception = args.number::<usize>()? as *mut UnwindException;
    let ip_before_insn = args.flag()?;
    let (start, eko_handlers) = (args.number()?, args.number()?);
    let kind = kind(args)?;
    let regs = args.regs()?;
    args.end()?;
    let info = FrameInfo { start, eko_handlers, kind };
    let mut cursor = Cursor { regs, info, ip_before_insn };
    let reason = eko::personality(actions, exception, &mut cursor)?;
    Ok(format!("reason {reason} {}", list_text(&cursor.regs)))
}

/// 1 search, 2 cleanup.
fn phase(args: &mut Args) -> Parsed<u32> {
    match args.number::<u64>()? {
        1 => Ok(UA_SEARCH_PHASE),
        2 => Ok(UA_CLEANUP_PHASE),
        _ => Err(Stop::Bad),
    }
}

/// VERSION FRAME PROGRAM LIMIT
fn kind(args: &mut Args) -> Parsed<Kind> {
    let version: u8 = args.number()?;
    let frame = args.number()?;
    let (program, limit) = (args.number()?, args.number()?);
    Ok(if version == VERSION2 { Kind::Eko2 { program, limit } } else { Kind::Eko(frame) })
}

fn save(args: &mut Args) -> Answer {
    let mut state = args.state()?;
    let (reg, slot) = (args.number()?, args.number()?);
    args.end()?;
    eko::shim::save(&mut state, reg, slot)?;
    Ok(state_text(&state))
}

fn restore(args: &mut Args) -> Answer {
    let mut state = args.state()?;
    let reg = args.number()?;
    args.end()?;
    eko::shim::restore(&mut state, reg)?;
    Ok(state_text(&state))
}

fn slot(args: &mut Args) -> Answer {
    let state = args.state()?;
    let reg = args.number()?;
    args.end()?;
    Ok(match state.slot(reg) {
        None => "none".to_string(),
        Some(slot) => format!("slot {slot}"),
    })
}

fn uleb(args: &mut Args) -> Answer {
    let (pos, end) = (args.number()?, args.number()?);
    args.end()?;
    let (value, next) = eko::shim::uleb(pos, end)?;
    Ok(format!("uleb {value} {next}"))
}

fn get(args: &mut Args) -> Answer {
    let reg = args.number()?;
    let regs = args.regs()?;
    args.end()?;
    Ok(value_text(regs.get(reg)?))
}

fn set(args: &mut Args) -> Answer {
    let (reg, value) = (args.number()?, args.number()?);
    let mut regs = args.regs()?;
    args.end()?;
    regs.set(reg, value)?;
    Ok(regs_text(&regs))
}

fn fp(args: &mut Args) -> Answer {
    let regs = args.regs()?;
    args.end()?;
    Ok(value_text(regs.fp()))
}

fn sp(args: &mut Args) -> Answer {
    let regs = args.regs()?;
    args.end()?;
    Ok(value_text(regs.sp()))
}

fn set_sp(args: &mut Args) -> Answer {
    let value = args.number()?;
    let mut regs = args.regs()?;
    args.end()?;
    regs.set_sp(value);
    Ok(regs_text(&regs))
}

fn strip(args: &mut Args) -> Answer {
    let addr = args.number()?;
    args.end()?;
    Ok(value_text(Regs::strip_pac(addr)))
}

fn value_text(value: usize) -> String {
    format!("value {value}")
}

fn row_text(row: Option<(u32, u32)>) -> String {
    match row {
        None => "none".to_string(),
        Some((pad, action)) => format!("row {pad} {action}"),
    }
}

/// All 32 pairs, those past the count included.
fn state_text(state: &State) -> String {
    let pairs: Vec<String> = state.saved.iter().map(|(reg, slot)| format!("{reg}:{slot}")).collect();
    let fp = state.cfa_fp as u8;
    format!("state {fp} {} {} {}", state.cfa_units, state.count, pairs.join(","))
}

fn regs_text(regs: &Regs) -> String {
    format!("regs {}", list_text(regs))
}

fn list_text(regs: &Regs) -> String {
    registers::to_list(regs).map(|n| n.to_string()).join(",")
}
