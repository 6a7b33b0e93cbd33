//! Some throws of the call machine; `host/landings` runs more. Then one throw with landing pads that write to the stack between
//! the resume calls.
mod common;

use std::process::Command;

use common::{ARCH, EXCEPTION, FIRST, STACK, lend, regs, ret, section, stack};
use morthwyga::{Failure, Raised, Resumed};

#[test]
fn throws_of_the_call_machine() {
    let run = Command::new(env!("CARGO_BIN_EXE_landings")).args(["3000", "1"]).output().expect("it runs");
    assert!(run.status.success(), "{}", String::from_utf8_lossy(&run.stdout));
}

/// Frames of four words: two locals, the slot of register 3, that of the return address. One row at offset 5, or none.
const CLEANUP: &[u8] = &[0x44, 0x83, 2, 0x00, 1, 5, 4 * 8];
const CATCH: &[u8] = &[0x44, 0x83, 2, 0x00, 1, 5, 4 * 9 + 1];
const PLAIN: &[u8] = &[0x44, 0x83, 2, 0x00, 0];
const FRAMES: [&[u8]; 5] = [CLEANUP, PLAIN, CLEANUP, CATCH, PLAIN];
const CHOSEN: usize = 3;

/// The first word of a frame; below the first frame are four words that nobody uses.
fn first(number: usize) -> usize {
    4 + 4 * number
}

fn sp(number: usize) -> usize {
    STACK + 8 * first(number)
}

/// The words of the stack at the throw. The register 3 that a frame has saved is another one in each.
fn at_throw() -> Vec<usize> {
    let returns = |number| if number + 1 < FRAMES.len() { ret(number + 1) } else { 0 };
    let frames = (0..FRAMES.len()).flat_map(|number| [1, 2, 1001 + number, returns(number)]);
    [0; 4].into_iter().chain(frames).collect()
}

/// That stack with other words everywhere but in the slots of the frames from one up to the chosen one.
fn overwritten(next: usize) -> Vec<usize> {
    let kept = |i: usize| (first(next)..first(CHOSEN + 1)).contains(&i) && i % 4 >= 2;
    at_throw().into_iter().enumerate().map(|(i, word)| if kept(i) { word } else { !word }).collect()
}

/// The landings by number, pc, sp and register 3, where each call is lent what this gives for the number of the next frame.
fn landings(lent: impl Fn(usize) -> Vec<usize>) -> Result<Vec<[usize; 4]>, Failure> {
    let (section, before) = (section(&FRAMES), stack(&at_throw()));
    let (raised, mut unwinding) = lend(&section, &before).raise(ARCH, regs(sp(0)), ret(0), false, EXCEPTION);
    assert_eq!(raised, Ok(Raised::Chosen { number: CHOSEN, sp: sp(CHOSEN) }));
    let mut landings = Vec::new();
    loop {
        let now = stack(&lent(unwinding.raw().number));
        let (resumed, next) = lend(&section, &now).resume(ARCH, unwinding);
        let Resumed::Landing { number, regs } = resumed? else {
            return Ok(landings);
        };
        landings.push([number, regs.pc(), regs.sp(ARCH)?, regs.get(ARCH, 3)?]);
        unwinding = next;
    }
}

/// The landings that are due.
fn due() -> Vec<[usize; 4]> {
    vec![[0, FIRST + 8, sp(0), 103], [2, FIRST + 32 + 8, sp(2), 1002], [3, FIRST + 48 + 9, sp(3), 1003]]
}

#[test]
fn pads_may_write_all_but_the_slots_of_frames_not_yet_passed() {
    assert_eq!(landings(|_| at_throw()), Ok(due()));
    assert_eq!(landings(overwritten), Ok(due()));
}

#[test]
fn a_saved_register_of_a_frame_not_yet_passed_is_needed() {
    let given = landings(|next| {
        let mut words = overwritten(next);
        words[first(1) + 2] = 7;
        words
    });
    let other = vec![due()[0], [2, FIRST + 32 + 8, sp(2), 7], due()[2]];
    assert_eq!(given, Ok(other));
}

#[test]
fn a_return_address_of_a_frame_not_yet_passed_is_needed() {
    let given = landings(|next| {
        let mut words = overwritten(next);
        words[first(1) + 3] = 7;
        words
    });
    assert_eq!(given, Err(Failure::HandlerFrameMissed));
}

#[test]
fn the_slots_of_the_chosen_frame_lie_in_the_stack() {
    let given = landings(|next| overwritten(next)[..first(CHOSEN)].to_vec());
    assert_eq!(given, Err(Failure::OutsideMemory));
}
