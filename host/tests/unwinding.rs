//! Walks and throws through the static library, for x86-64.
mod common;

use common::{ARCH, EXCEPTION, FIRST, STACK, lend, regs, ret, section, stack};
use morthwyga::{Failure, Frame, Memory, PC_COLUMN, Place, Raised, RawUnwinding, Resumed, Unwinding};

/// Programs with rows: entry state, then one row at offset 5, or none.
const CLEANUP: &[u8] = &[0x00, 1, 5, 4 * 8];
const CATCH: &[u8] = &[0x00, 1, 5, 4 * 9 + 1];
const TERMINATE: &[u8] = &[0x00, 1, 5, 2];
const PLAIN: &[u8] = &[0x00, 0];

fn raise(memory: Memory, interrupted: bool) -> (Result<Raised, Failure>, Unwinding) {
    memory.raise(ARCH, regs(STACK), ret(0), interrupted, EXCEPTION)
}

/// The next landing's frame number, pc and sp, and the unwinding after it.
fn landing(memory: Memory, unwinding: Unwinding) -> ((usize, usize, usize), Unwinding) {
    let (resumed, next) = memory.resume(ARCH, unwinding);
    let Ok(Resumed::Landing { number, regs }) = resumed else { panic!("no landing") };
    assert_eq!((regs.r[0], regs.r[1], regs.r[3]), (EXCEPTION, 0, 103));
    ((number, regs.pc(), regs.r[7]), next)
}

/// What a call comes to that gives no landing: it hands back the unwinding that it was given.
fn unlanded(memory: Memory, unwinding: RawUnwinding) -> Result<Resumed, Failure> {
    let (resumed, next) = memory.resume(ARCH, Unwinding::from_raw(unwinding));
    assert_eq!(next.raw(), unwinding);
    resumed
}

#[test]
fn a_walk_gives_every_frame() {
    let (section, stack) = (section(&[CLEANUP, CATCH, PLAIN]), stack(&[ret(1), ret(2), 0]));
    let memory = lend(&section, &stack);
    let mut file = regs(STACK);
    file.r[PC_COLUMN] = ret(0);
    let mut frame = Frame { number: 0, interrupted: false, regs: file };
    for i in 0..3 {
        assert_eq!((frame.number, frame.regs.pc(), frame.regs.r[7]), (i, ret(i), STACK + 8 * i));
        let (record, caller) = memory.next_frame(ARCH, frame).unwrap().unwrap();
        assert_eq!(record.start, FIRST + 16 * i);
        frame = caller;
    }
    assert_eq!(memory.next_frame(ARCH, frame), Ok(None));
}

#[test]
fn a_walk_at_once_gives_the_frames_that_single_steps_give() {
    for depth in [1, 15, 16, 17, 40] {
        let functions = vec![PLAIN; depth];
        let returns: Vec<_> = (1..depth).map(ret).chain([0]).collect();
        let (section, stack) = (section(&functions), stack(&returns));
        let memory = lend(&section, &stack);
        let mut file = regs(STACK);
        file.r[PC_COLUMN] = ret(0);
        let first = Frame { number: 0, interrupted: false, regs: file };
        let (places, end) = memory.walk(ARCH, first);
        assert_eq!((places.len(), end), (depth, Ok(())));
        let mut frame = first;
        for place in places {
            let (record, caller) = memory.next_frame(ARCH, frame).unwrap().unwrap();
            assert_eq!(place, Place { start: record.start, pc: frame.regs.pc(), sp: frame.regs.r[7] });
            frame = caller;
        }
    }
}

#[test]
fn a_throw_lands_at_each_cleanup_and_then_at_the_catch() {
    let (section, stack) = (section(&[CLEANUP, PLAIN, CATCH]), stack(&[ret(1), ret(2), 0]));
    let memory = lend(&section, &stack);
    let (raised, unwinding) = raise(memory, false);
    assert_eq!(raised, Ok(Raised::Chosen { number: 2, sp: STACK + 16 }));
    let (first, unwinding) = landing(memory, unwinding);
    assert_eq!(first, (0, FIRST + 8, STACK));
    let (second, unwinding) = landing(memory, unwinding);
    assert_eq!(second, (2, FIRST + 32 + 9, STACK + 16));
    assert_eq!(unlanded(memory, unwinding.raw()), Ok(Resumed::Finished));
    let (resumed, unwinding) = memory.resume(ARCH, unwinding);
    assert_eq!(resumed, Ok(Resumed::Finished));
    assert_eq!(memory.resume(ARCH, unwinding).0, Ok(Resumed::Finished));
}

#[test]
fn an_interrupted_frame_has_no_row() {
    let (section, stack) = (section(&[CATCH, CATCH]), stack(&[ret(1), 0]));
    let memory = lend(&section, &stack);
    let (raised, unwinding) = raise(memory, true);
    assert_eq!(raised, Ok(Raised::Chosen { number: 1, sp: STACK + 8 }));
    assert_eq!(landing(memory, unwinding).0, (1, FIRST + 16 + 9, STACK + 8));
}

#[test]
fn terminate_stops_a_throw_and_the_end_answers_5() {
    for (row, answer) in [(TERMINATE, Raised::Terminated), (PLAIN, Raised::EndOfStack)] {
        let (section, stack) = (section(&[CLEANUP, row]), stack(&[ret(1), 0]));
        let memory = lend(&section, &stack);
        let (raised, unwinding) = raise(memory, false);
        assert_eq!(raised, Ok(answer));
        assert_eq!(unlanded(memory, unwinding.raw()), Ok(Resumed::Finished));
    }
}

#[test]
fn a_terminate_below_the_chosen_frame_answers_2() {
    let (catch, terminate) = (section(&[PLAIN, CATCH]), section(&[TERMINATE, CATCH]));
    let stack = stack(&[ret(1), 0]);
    let (_, unwinding) = raise(lend(&catch, &stack), false);
    assert_eq!(unlanded(lend(&terminate, &stack), unwinding.raw()), Ok(Resumed::Terminated));
}

#[test]
fn at_most_1024_frames() {
    let section = section(&[PLAIN]);
    for (frames, answer) in [(1024, Ok(Raised::EndOfStack)), (1025, Err(Failure::TooManyFrames))] {
        let mut words = vec![ret(0); frames];
        words[frames - 1] = 0;
        assert_eq!(raise(lend(&section, &stack(&words)), false).0, answer);
    }
}

#[test]
fn sp_rises_past_the_first_frame() {
    let (section, stack) = (section(&[&[0x40, 0x00, 0]]), stack(&[ret(0)]));
    let (raised, _) = lend(&section, &stack).raise(ARCH, regs(STACK + 8), ret(0), false, EXCEPTION);
    assert_eq!(raised, Err(Failure::StackNotAdvancing));
}

#[test]
fn another_stack_misses_the_chosen_frame_and_the_right_one_finds_it_then() {
    let section = section(&[PLAIN, CATCH]);
    let (right, wrong) = (stack(&[ret(1), 0]), stack(&[0, 0]));
    let (_, unwinding) = raise(lend(&section, &right), false);
    let other = RawUnwinding { chosen_sp: 1, ..unwinding.raw() };
    assert_eq!(unlanded(lend(&section, &right), other), Err(Failure::HandlerFrameMissed));
    let (resumed, unwinding) = lend(&section, &wrong).resume(ARCH, unwinding);
    assert_eq!(resumed, Err(Failure::HandlerFrameMissed));
    let broken = Memory { stack_base: 0, ..lend(&section, &right) };
    let (resumed, unwinding) = broken.resume(ARCH, unwinding);
    assert_eq!(resumed, Err(Failure::BadOpening));
    assert_eq!(landing(lend(&section, &right), unwinding).0, (1, FIRST + 16 + 9, STACK + 8));
}
