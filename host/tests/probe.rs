//! The requests that only `probe` has.
mod asked;
#[allow(dead_code)]
mod common;

use asked::hex;
use common::{EXCEPTION, FIRST, SECTION, STACK, ret, section, stack};

const CLEANUP: &[u8] = &[0x00, 1, 5, 4 * 8];
const CATCH: &[u8] = &[0x00, 1, 5, 4 * 9 + 1];
const TERMINATE: &[u8] = &[0x00, 1, 5, 2];
const PLAIN: &[u8] = &[0x00, 0];
const TWICE: &[u8] = &[0x00, 2, 5, 4 * 8, 0, 4 * 8];

/// What the probe for x86-64 answers to each line.
fn probe(lines: &[String]) -> Vec<String> {
    asked::probe(2, lines)
}

/// A file in which each register has its own value, but for these.
fn list(first: [usize; 2], sp: usize, pc: usize) -> String {
    let mut values: Vec<usize> = (100..116).collect();
    (values[0], values[1], values[7]) = (first[0], first[1], sp);
    values.push(pc);
    values.iter().map(usize::to_string).collect::<Vec<_>>().join(",")
}

/// Frame 0 at its call.
fn frame0() -> String {
    list([100, 101], STACK, ret(0))
}

/// A sweep call of two functions with these programs: the answer to the fields before the file, then the file.
fn sweep(programs: [&[u8]; 2], fields: &str, file: &str) -> String {
    let (section, stack) = (section(&programs), stack(&[ret(1), 0]));
    let request = format!("{SECTION} {} {STACK} {} sweep {fields} {file}", hex(&section), hex(&stack));
    probe(&[request]).remove(0)
}

#[test]
fn a_sweep_call_that_lands_hands_back_the_unwinding_past_the_frame() {
    let sp = STACK + 8;
    let given = format!("0 0 {EXCEPTION} 1 {sp} 1");
    let due = format!(
        "landing 0 {} | next 1 0 {EXCEPTION} 1 {sp} 1 {}",
        list([EXCEPTION, 0], STACK, FIRST + 8),
        list([100, 101], sp, ret(1))
    );
    assert_eq!(sweep([CLEANUP, CATCH], &given, &frame0()), due);
    let due = format!(
        "landing 1 {} | next 2 0 {EXCEPTION} 1 {sp} 1 {}",
        list([EXCEPTION, 0], sp, FIRST + 16 + 9),
        list([100, 101], STACK + 16, 0)
    );
    assert_eq!(sweep([PLAIN, CATCH], &given, &frame0()), due);
    let interrupted = format!("0 1 {EXCEPTION} 1 {sp} 1");
    assert_eq!(sweep([CLEANUP, CATCH], &interrupted, &frame0()), due);
}

#[test]
fn every_other_sweep_call_hands_back_the_unwinding_that_it_got() {
    let sp = STACK + 8;
    let cases: [([&[u8]; 2], String, String, &str); 8] = [
        ([TERMINATE, CATCH], format!("0 0 9 1 {sp} 1"), frame0(), "reason 2"),
        ([CLEANUP, CATCH], format!("2 1 9 1 {sp} 1"), frame0(), "finished"),
        ([CLEANUP, CATCH], format!("0 1 9 1 {sp} 0"), frame0(), "finished"),
        ([CATCH, CATCH], format!("0 0 9 1 {sp} 1"), frame0(), "err 22"),
        ([PLAIN, CATCH], format!("0 0 9 1 {} 1", sp + 1), frame0(), "err 22"),
        ([TWICE, CATCH], format!("0 0 9 1 {sp} 1"), frame0(), "err 24"),
        ([PLAIN, CATCH], format!("7 1 9 8 {sp} 1"), list([100, 101], 1, ret(0)), "err 27"),
        ([PLAIN, CATCH], format!("1024 1 9 18446744073709551615 {sp} 1"), frame0(), "err 29"),
    ];
    for (programs, fields, file, answer) in cases {
        assert_eq!(sweep(programs, &fields, &file), format!("{answer} | next {fields} {file}"));
    }
}

#[test]
fn openings_of_walks_throws_and_sweep_calls() {
    let (section, stack) = (hex(&section(&[CLEANUP, CATCH])), hex(&stack(&[ret(1), 0])));
    let (file, fields) = (frame0(), "0 0 9 1 5 1");
    let opening = |section_base: usize, stack_base: usize, operation: &str| {
        probe(&[format!("{section_base} {section} {stack_base} {stack} {operation}")]).remove(0)
    };
    for (section_base, stack_base) in [(0, STACK), (SECTION, 0), (SECTION, (1 << 62) + 1), (SECTION, SECTION + 1)] {
        let broken = |operation: &str| opening(section_base, stack_base, operation);
        assert_eq!(broken(&format!("walk 0 {file}")), "walk err 28");
        assert_eq!(broken(&format!("sweep {fields} {file}")), format!("err 28 | next {fields} {file}"));
        assert_eq!(broken(&format!("unwind 9 0 2 {file}")), "err 28 | err 28 | err 28");
    }
}

#[test]
fn a_malformed_sweep_is_bad() {
    let file = frame0();
    let lines = [
        "sweep".to_string(),
        format!("sweep 0 0 9 1 5 {file}"),
        format!("sweep 0 0 9 1 5 1 0 {file}"),
        format!("sweep 0 2 9 1 5 1 {file}"),
        format!("sweep 0 0 9 1 5 2 {file}"),
        format!("sweep -1 0 9 1 5 1 {file}"),
        format!("sweep 0 0 9 1 18446744073709551616 1 {file}"),
        format!("sweep 0 0 9 1 5 1 {file},1"),
        "sweep 0 0 9 1 5 1 1,2,3".to_string(),
        format!("sweep 0 0 9 1 5 1 {file} 1"),
    ];
    let requests: Vec<String> = lines.iter().map(|line| format!("{SECTION} - {STACK} - {line}")).collect();
    assert_eq!(probe(&requests), vec!["bad"; requests.len()]);
}
