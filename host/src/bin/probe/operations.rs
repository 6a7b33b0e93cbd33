//! One function for each operation of the protocol: it reads all its arguments, calls the library, and writes the answer. What the
//! C interface hands back is looked at beside.
use morthwyga::{Arch, Memory, Phase, Record, strip_pac};

use crate::args::{Args, Parsed, Stop};
use crate::checked;
use crate::handed::asked;
use crate::text::{list_text, regs_text, row_text, state_text, value_text};
use crate::unwinding::{sweep, unwind, walk};

pub type Answer = Parsed<String>;

/// SBASE SHEX KBASE KHEX OP ARGS...
pub fn answer(arch: Arch, line: &str) -> Answer {
    let mut args = Args::new(line);
    let (section_base, section) = args.range()?;
    let (stack_base, stack) = args.range()?;
    let memory = Memory { section: &section, section_base, stack: &stack, stack_base };
    let args = &mut args;
    match args.token()? {
        "lookup" => lookup(arch, memory, args),
        "run" => run(arch, memory, args),
        "apply" => apply(arch, memory, args),
        "step" => step(arch, memory, args),
        "handler" => handler(memory, args),
        "handler2" => handler2(memory, args),
        "personality" => personality(arch, memory, args),
        "save" => save(args),
        "restore" => restore(arch, args),
        "slot" => slot(args),
        "uleb" => uleb(memory, args),
        "get" => get(arch, args),
        "set" => set(arch, args),
        "fp" => fp(arch, args),
        "sp" => sp(arch, args),
        "set_sp" => set_sp(arch, args),
        "strip" => strip(arch, args),
        "walk" => walk(arch, memory, args),
        "unwind" => unwind(arch, memory, args),
        "sweep" => sweep(arch, memory, args),
        _ => Err(Stop::Bad),
    }
}

fn lookup(arch: Arch, memory: Memory, args: &mut Args) -> Answer {
    let pc = args.number()?;
    args.end()?;
    asked(arch, |arch| Ok(checked::lookup(memory, arch, pc)?.status))?;
    Ok(match memory.lookup(arch, pc)? {
        None => "none".to_string(),
        Some(r) => format!(
            "rec {} {} {} {} {} {} {}",
            r.start, r.end, r.frame, r.handlers, r.program, r.limit, r.version
        ),
    })
}

fn run(arch: Arch, memory: Memory, args: &mut Args) -> Answer {
    let (program, limit, off) = (args.number()?, args.number()?, args.number()?);
    args.end()?;
    asked(arch, |arch| Ok(checked::run(memory, arch, program, limit, off)?.status))?;
    let (state, after) = memory.run(arch, program, limit, off)?;
    Ok(format!("{} {after}", state_text(&state)))
}

fn apply(arch: Arch, memory: Memory, args: &mut Args) -> Answer {
    let (state, regs) = (args.state()?, args.regs(arch)?);
    args.end()?;
    asked(arch, |arch| Ok(checked::apply(memory, arch, state, regs)?.status))?;
    Ok(regs_text(arch, &memory.apply(arch, state, regs)?))
}

fn step(arch: Arch, memory: Memory, args: &mut Args) -> Answer {
    let (frame, first, regs) = (args.number()?, args.flag()?, args.regs(arch)?);
    args.end()?;
    asked(arch, |arch| Ok(checked::step(memory, arch, frame, first, regs)?.status))?;
    Ok(regs_text(arch, &memory.step(arch, frame, first, regs)?))
}

fn handler(memory: Memory, args: &mut Args) -> Answer {
    let (table, ret) = (args.number()?, args.number()?);
    args.end()?;
    checked::handler(memory, table, ret)?;
    Ok(row_text(memory.handler(table, ret)?))
}

fn handler2(memory: Memory, args: &mut Args) -> Answer {
    let (table, limit, ret) = (args.number()?, args.number()?, args.number()?);
    args.end()?;
    checked::handler2(memory, table, limit, ret)?;
    Ok(row_text(memory.handler2(table, limit, ret)?))
}

/// PHASE EXC INTERRUPTED START HANDLERS VERSION FRAME PROGRAM LIMIT REGS
fn personality(arch: Arch, memory: Memory, args: &mut Args) -> Answer {
    let phase = phase(args)?;
    let (exception, interrupted) = (args.number()?, args.flag()?);
    let function = record(args)?;
    let regs = args.regs(arch)?;
    args.end()?;
    let cleanup = phase == Phase::Cleanup;
    asked(arch, |arch| {
        Ok(checked::personality(memory, arch, cleanup, exception, interrupted, function, regs)?.status)
    })?;
    let (reason, regs) = memory.personality(arch, phase, exception, interrupted, function, regs)?;
    Ok(format!("reason {} {}", reason as u32, list_text(arch, &regs)))
}

/// 1 search, 2 cleanup.
fn phase(args: &mut Args) -> Parsed<Phase> {
    match args.number::<u64>()? {
        1 => Ok(Phase::Search),
        2 => Ok(Phase::Cleanup),
        _ => Err(Stop::Bad),
    }
}

/// START HANDLERS VERSION FRAME PROGRAM LIMIT; a personality does not look at the end.
fn record(args: &mut Args) -> Parsed<Record> {
    let (start, handlers) = (args.number()?, args.number()?);
    let (version, frame) = (args.number()?, args.number()?);
    let (program, limit) = (args.number()?, args.number()?);
    Ok(Record { start, end: 0, frame, handlers, program, limit, version })
}

fn save(args: &mut Args) -> Answer {
    let state = args.state()?;
    let (reg, slot) = (args.number()?, args.number()?);
    args.end()?;
    checked::save(state, reg, slot)?;
    Ok(state_text(&state.save(reg, slot)?))
}

fn restore(arch: Arch, args: &mut Args) -> Answer {
    let (state, reg) = (args.state()?, args.number()?);
    args.end()?;
    asked(arch, |arch| Ok(checked::restore(arch, state, reg)?.status))?;
    asked(arch, |arch| Ok(checked::entry(arch)?.status))?;
    Ok(state_text(&state.restore(arch, reg)?))
}

fn slot(args: &mut Args) -> Answer {
    let (state, reg) = (args.state()?, args.number()?);
    args.end()?;
    checked::slot(state, reg)?;
    Ok(match state.slot(reg)? {
        None => "none".to_string(),
        Some(slot) => format!("slot {slot}"),
    })
}

fn uleb(memory: Memory, args: &mut Args) -> Answer {
    let (pos, end) = (args.number()?, args.number()?);
    args.end()?;
    checked::read_uleb(memory, pos, end)?;
    let (value, next) = memory.read_uleb(pos, end)?;
    Ok(format!("uleb {value} {next}"))
}

fn get(arch: Arch, args: &mut Args) -> Answer {
    let (reg, regs) = (args.number()?, args.regs(arch)?);
    args.end()?;
    asked(arch, |arch| Ok(checked::get(arch, regs, reg)?.status))?;
    Ok(value_text(regs.get(arch, reg)?))
}

fn set(arch: Arch, args: &mut Args) -> Answer {
    let (reg, value, regs) = (args.number()?, args.number()?, args.regs(arch)?);
    args.end()?;
    asked(arch, |arch| Ok(checked::set(arch, regs, reg, value)?.status))?;
    Ok(regs_text(arch, &regs.set(arch, reg, value)?))
}

fn fp(arch: Arch, args: &mut Args) -> Answer {
    let regs = args.regs(arch)?;
    args.end()?;
    asked(arch, |arch| Ok(checked::fp(arch, regs)?.status))?;
    Ok(value_text(regs.fp(arch)?))
}

fn sp(arch: Arch, args: &mut Args) -> Answer {
    let regs = args.regs(arch)?;
    args.end()?;
    asked(arch, |arch| Ok(checked::sp(arch, regs)?.status))?;
    Ok(value_text(regs.sp(arch)?))
}

fn set_sp(arch: Arch, args: &mut Args) -> Answer {
    let (value, regs) = (args.number()?, args.regs(arch)?);
    args.end()?;
    asked(arch, |arch| Ok(checked::set_sp(arch, regs, value)?.status))?;
    Ok(regs_text(arch, &regs.set_sp(arch, value)?))
}

fn strip(arch: Arch, args: &mut Args) -> Answer {
    let address = args.number()?;
    args.end()?;
    asked(arch, |arch| Ok(checked::strip_pac(arch, address)?.status))?;
    Ok(value_text(strip_pac(arch, address)?))
}
