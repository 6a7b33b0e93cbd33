//! pack ARCH REQUESTS ANSWERS: prints one packed line for each request and its answer.
//! A packed line is numbers only: hexadecimal, one blank between.

#[path = "../program/tokens.rs"]
mod tokens;

use std::fs::read_to_string;
use std::process::exit;

use tokens::{bytes, list, number};

/// The status that stands for `outside`: our number for an address in neither range.
const OUTSIDE: u64 = 27;

/// The status that stands for `none`: no record, no row or no slot, and no refusal.
const NONE: u64 = 0xff;

/// The numbers of a line and the bytes of a range that `replay` has room for.
const NUMBERS: usize = 8192;
const BYTES: usize = 6144;

/// A request and its answer, cut into tokens.
struct Case<'a> {
    arch: u64,
    /// SBASE SHEX KBASE KHEX
    memory: [&'a str; 4],
    args: Vec<&'a str>,
    answer: Vec<&'a str>,
}

type Packed = Option<Vec<u64>>;

fn main() {
    let args: Vec<String> = std::env::args().skip(1).collect();
    let [arch, requests, answers] = &args[..] else {
        stop("usage: pack ARCH REQUESTS ANSWERS");
    };
    let arch = number(arch).unwrap_or_else(|| stop("ARCH is no number"));
    let (requests, answers) = (read(requests), read(answers));
    if requests.lines().count() != answers.lines().count() {
        stop("there are not as many answers as requests");
    }
    for (request, answer) in requests.lines().zip(answers.lines()) {
        match pack(arch, request, answer) {
            Some(line) => println!("{line}"),
            None => stop(&format!("no packed form of: {request} = {answer}")),
        }
    }
}

fn stop(message: &str) -> ! {
    eprintln!("pack: {message}");
    exit(1)
}

fn read(path: &str) -> String {
    read_to_string(path).unwrap_or_else(|e| stop(&format!("{path}: {e}")))
}

fn pack(arch: u64, request: &str, answer: &str) -> Option<String> {
    let mut tokens = request.split_ascii_whitespace();
    let memory = [tokens.next()?, tokens.next()?, tokens.next()?, tokens.next()?];
    let name = tokens.next()?;
    let answer = answer.split_ascii_whitespace().collect();
    let (op, rest) = layout(name, &Case { arch, memory, args: tokens.collect(), answer })?;
    let numbers: Vec<String> = [op, arch].into_iter().chain(rest).map(|n| format!("{n:x}")).collect();
    (numbers.len() <= NUMBERS).then(|| numbers.join(" "))
}

/// The operation's number and what follows the architecture. A new operation adds its line here.
fn layout(name: &str, case: &Case) -> Option<(u64, Vec<u64>)> {
    Some(match name {
        "uleb" => (1, uleb(case)?),
        "get" => (2, get(case)?),
        "set" => (3, set(case)?),
        "fp" => (4, file_value(case)?),
        "sp" => (5, file_value(case)?),
        "set_sp" => (6, set_sp(case)?),
        "strip" => (7, strip(case)?),
        "lookup" => (8, lookup(case)?),
        "run" => (9, run(case)?),
        "save" => (10, changed(case, 2)?),
        "restore" => (11, changed(case, 1)?),
        "apply" => (12, apply(case)?),
        "step" => (13, step(case)?),
        "handler" => (14, row(case, 2)?),
        "handler2" => (15, row(case, 3)?),
        "personality" => (16, personality(case)?),
        "slot" => (17, slot(case)?),
        _ => return None,
    })
}

/// SBASE SLEN bytes KBASE KLEN bytes POS END STATUS V NEXT
fn uleb(case: &Case) -> Packed {
    let mut out = memory(case)?;
    let [pos, end] = case.args[..] else { return None };
    out.extend([number(pos)?, number(end)?, status(case)?]);
    match case.answer[..] {
        ["uleb", value, next] => out.extend([number(value)?, number(next)?]),
        _ => out.extend([0, 0]),
    }
    Some(out)
}

/// REG FILE STATUS VALUE
fn get(case: &Case) -> Packed {
    let [reg, file] = case.args[..] else { return None };
    let mut out = vec![number(reg)?];
    out.extend(list(file)?);
    out.push(status(case)?);
    out.push(if refused(case) { 0 } else { value(case)? });
    Some(out)
}

/// REG VALUE FILE STATUS FILE', where a refusal leaves the file as it was.
fn set(case: &Case) -> Packed {
    let [reg, value, file] = case.args[..] else { return None };
    let mut out = vec![number(reg)?, number(value)?];
    out.extend(list(file)?);
    out.push(status(case)?);
    out.extend(if refused(case) { list(file)? } else { regs(case)? });
    Some(out)
}

/// FILE VALUE
fn file_value(case: &Case) -> Packed {
    let [file] = case.args[..] else { return None };
    let mut out = list(file)?;
    out.push(value(case)?);
    Some(out)
}

/// VALUE FILE FILE'
fn set_sp(case: &Case) -> Packed {
    let [value, file] = case.args[..] else { return None };
    let mut out = vec![number(value)?];
    out.extend(list(file)?);
    out.extend(regs(case)?);
    Some(out)
}

/// ADDR RESULT
fn strip(case: &Case) -> Packed {
    let [addr] = case.args[..] else { return None };
    Some(vec![number(addr)?, value(case)?])
}

/// SBASE SLEN bytes KBASE KLEN bytes PROGRAM LIMIT OFF STATUS STATE AFTER, where a refusal has the entry state and 0.
fn run(case: &Case) -> Packed {
    let mut out = memory(case)?;
    let [program, limit, off] = case.args[..] else { return None };
    out.extend([number(program)?, number(limit)?, number(off)?, status(case)?]);
    match case.answer[..] {
        ["state", fp, units, count, pairs, after] => {
            out.extend(state(&[fp, units, count, pairs])?);
            out.push(number(after)?);
        }
        _ if case.arch == 1 => out.extend([0, 0, 0, 0, 0]),
        _ => out.extend([0, 1, 1, 1, 16, 1, 0]),
    }
    Some(out)
}

/// STATE, the so many numbers after it, STATUS STATE', where a refusal leaves the state as it was.
fn changed(case: &Case, numbers: usize) -> Packed {
    let (before, rest) = case.args.split_at_checked(4)?;
    if rest.len() != numbers {
        return None;
    }
    let mut out = state(before)?;
    for token in rest {
        out.push(number(token)?);
    }
    out.push(status(case)?);
    match &case.answer[..] {
        ["state", after @ ..] => out.extend(state(after)?),
        _ => out.extend(state(before)?),
    }
    Some(out)
}

/// STATE REG STATUS SLOT
fn slot(case: &Case) -> Packed {
    let (before, rest) = case.args.split_at_checked(4)?;
    let [reg] = rest[..] else { return None };
    let mut out = state(before)?;
    out.push(number(reg)?);
    match case.answer[..] {
        ["slot", slot] => out.extend([0, number(slot)?]),
        ["none"] => out.extend([NONE, 0]),
        _ => return None,
    }
    Some(out)
}

/// FP UNITS COUNT N and N pairs: all after them are 0 0.
fn state(tokens: &[&str]) -> Packed {
    let [fp, units, count, pairs] = tokens[..] else { return None };
    let mut numbers = Vec::new();
    for pair in pairs.split(',').filter(|pair| *pair != "-") {
        let (reg, slot) = pair.split_once(':')?;
        numbers.extend([number(reg)?, number(slot)?]);
    }
    while numbers.ends_with(&[0, 0]) && numbers.len() % 2 == 0 {
        numbers.truncate(numbers.len() - 2);
    }
    let mut out = vec![number(fp)?, number(units)?, number(count)?, numbers.len() as u64 / 2];
    out.extend(numbers);
    Some(out)
}

/// SBASE SLEN bytes KBASE KLEN bytes FP UNITS COUNT N and N pairs FILE STATUS FILE', where a refusal leaves the file as it was.
fn apply(case: &Case) -> Packed {
    let mut out = memory(case)?;
    let [fp, units, count, pairs, file] = case.args[..] else { return None };
    out.extend([number(fp)?, number(units)?, number(count)?]);
    let pairs: Vec<&str> = if pairs == "-" { Vec::new() } else { pairs.split(',').collect() };
    out.push(pairs.len() as u64);
    for pair in pairs {
        let (reg, slot) = pair.split_once(':')?;
        out.extend([number(reg)?, number(slot)?]);
    }
    caller(case, file, out)
}

/// SBASE SLEN bytes KBASE KLEN bytes FRAME FIRST FILE STATUS FILE', where a refusal leaves the file as it was.
fn step(case: &Case) -> Packed {
    let mut out = memory(case)?;
    let [frame, first, file] = case.args[..] else { return None };
    out.extend([number(frame)?, number(first)?]);
    caller(case, file, out)
}

/// FILE STATUS FILE'
fn caller(case: &Case, file: &str, mut out: Vec<u64>) -> Packed {
    out.extend(list(file)?);
    out.push(status(case)?);
    out.extend(if refused(case) { list(file)? } else { regs(case)? });
    Some(out)
}

/// SBASE SLEN bytes KBASE KLEN bytes PC STATUS START END FRAME HANDLERS PROGRAM LIMIT VERSION
fn lookup(case: &Case) -> Packed {
    let mut out = memory(case)?;
    let [pc] = case.args[..] else { return None };
    out.push(number(pc)?);
    match &case.answer[..] {
        ["rec", fields @ ..] if fields.len() == 7 => {
            out.push(0);
            for field in fields {
                out.push(number(field)?);
            }
        }
        ["none"] => out.extend([NONE, 0, 0, 0, 0, 0, 0, 0]),
        _ if refused(case) => out.extend([status(case)?, 0, 0, 0, 0, 0, 0, 0]),
        _ => return None,
    }
    Some(out)
}

/// SBASE SLEN bytes KBASE KLEN bytes, so many numbers, STATUS PAD ACTION
fn row(case: &Case, numbers: usize) -> Packed {
    let mut out = memory(case)?;
    if case.args.len() != numbers {
        return None;
    }
    for token in &case.args {
        out.push(number(token)?);
    }
    match case.answer[..] {
        ["row", pad, action] => out.extend([0, number(pad)?, number(action)?]),
        ["none"] => out.extend([NONE, 0, 0]),
        _ if refused(case) => out.extend([status(case)?, 0, 0]),
        _ => return None,
    }
    Some(out)
}

/// SBASE SLEN bytes KBASE KLEN bytes, nine numbers, FILE STATUS CODE FILE', where a refusal has code 0 and leaves the file as it was.
fn personality(case: &Case) -> Packed {
    let mut out = memory(case)?;
    let (file, numbers) = case.args.split_last()?;
    if numbers.len() != 9 {
        return None;
    }
    for token in numbers {
        out.push(number(token)?);
    }
    let file = list(file)?;
    out.extend(&file);
    match case.answer[..] {
        ["reason", code, after] => {
            out.extend([0, number(code)?]);
            out.extend(list(after)?);
        }
        _ if refused(case) => {
            out.extend([status(case)?, 0]);
            out.extend(file);
        }
        _ => return None,
    }
    Some(out)
}

/// Base, length and bytes of the section, then of the stack.
fn memory(case: &Case) -> Packed {
    let mut out = Vec::new();
    for range in case.memory.chunks(2) {
        let bytes = bytes(range[1]).filter(|bytes| bytes.len() <= BYTES)?;
        out.extend([number(range[0])?, bytes.len() as u64]);
        out.extend(bytes.into_iter().map(u64::from));
    }
    Some(out)
}

/// 0 for an answer, else the refusal's number. `bad` and `panic` have none.
fn status(case: &Case) -> Option<u64> {
    match case.answer[..] {
        ["err", n] => number(n),
        ["outside"] => Some(OUTSIDE),
        ["bad"] | ["panic"] | [] => None,
        _ => Some(0),
    }
}

fn refused(case: &Case) -> bool {
    status(case) != Some(0)
}

fn value(case: &Case) -> Option<u64> {
    match case.answer[..] {
        ["value", v] => number(v),
        _ => None,
    }
}

fn regs(case: &Case) -> Packed {
    match case.answer[..] {
        ["regs", file] => list(file),
        _ => None,
    }
}
