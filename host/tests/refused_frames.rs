//! Every refusal of the functions that take a frame, and every end, with what it hands back: `checked` compares each field.
#[allow(dead_code)]
#[path = "../src/checked.rs"]
mod checked;
#[allow(dead_code)]
mod frames;
mod openings;
#[allow(dead_code)]
#[path = "../src/raw.rs"]
mod raw;

use checked::{ANSWERED, NONE};
use frames::section::{CATCHES, CLEANS, TERMINATES, start};
use frames::{ARCHS, Case, Code, EXCEPTION, FAULTS, Fp, PLAIN, good, refused_rows, refused_rows1};
use morthwyga::{Memory, PC_COLUMN, RawUnwinding, Record, Regs, State};

/// How many frames lie below the one that is refused: the third number is past a batch of a walk.
const DEPTHS: [usize; 3] = [0, 1, 20];

/// A frame's step: the walk is given single steps from the innermost frame on, which has this number.
fn steps(case: &Case, arch: u8, memory: Memory, number: usize, interrupted: bool) -> u32 {
    let mut frame = (number, interrupted, case.regs);
    loop {
        let told = checked::next_frame(memory, arch, frame.0, frame.1, frame.2).unwrap();
        if told.status != ANSWERED {
            return told.status;
        }
        frame = (told.number, told.interrupted, told.regs);
    }
}

/// A walk's calls.
fn walks(case: &Case, arch: u8, memory: Memory, number: usize, interrupted: bool) -> u32 {
    let mut frame = (number, interrupted, case.regs);
    loop {
        let told = checked::walk(memory, arch, frame.0, frame.1, frame.2).unwrap();
        if told.status != ANSWERED {
            return told.status;
        }
        frame = (told.number, told.interrupted, told.regs);
    }
}

/// A throw from the innermost frame.
fn throws(case: &Case, arch: u8, memory: Memory, interrupted: bool) -> u32 {
    checked::raise(memory, arch, case.regs, case.regs.pc(), interrupted, EXCEPTION).unwrap().status
}

/// The same with another pc in the file.
fn throws_elsewhere(case: &Case, arch: u8, memory: Memory, interrupted: bool) -> u32 {
    let mut regs = case.regs;
    regs.r[PC_COLUMN] = 0xdead_beef;
    checked::raise(memory, arch, regs, case.regs.pc(), interrupted, EXCEPTION).unwrap().status
}

fn sweeps(memory: Memory, arch: u8, given: RawUnwinding) -> u32 {
    checked::resume(memory, arch, given).unwrap().status
}

/// Every fault of a step at every depth, with its number.
fn faults() -> impl Iterator<Item = (Case, u32)> {
    let at = |arch, before| FAULTS.map(|(number, code, fp)| (Case::new(arch, before, (code, fp), CATCHES), number));
    ARCHS.into_iter().flat_map(move |arch| DEPTHS.into_iter().flat_map(move |before| at(arch, before)))
}

/// Every fault of a row at every depth, with its number.
fn row_faults() -> impl Iterator<Item = (Case, u32)> {
    let at = |arch, before| {
        refused_rows(arch, before, (&[], Fp::Value(3))).chain(refused_rows1(arch, before, 2 | 1 << 21))
    };
    ARCHS.into_iter().flat_map(move |arch| DEPTHS.into_iter().flat_map(move |before| at(arch, before)))
}

/// Damage that the innermost frame's lookup meets: flags, version, architecture, an overlap.
fn damaged() -> impl Iterator<Item = (Case, u32)> {
    let damage = [(6, 3, 17), (4, 7, 17), (5, 9, 17), (20, 0x48, 19)];
    ARCHS.into_iter().flat_map(move |arch| {
        damage.map(|(at, byte, number)| {
            let mut case = good(arch, 1);
            case.section[at] = byte;
            (case, number)
        })
    })
}

#[test]
fn a_step_is_refused() {
    for (case, number) in faults().chain(damaged()) {
        let arch = case.arch as u8;
        for first in [1, 5] {
            assert_eq!(steps(&case, arch, case.memory(), first, false), number);
            assert_eq!(walks(&case, arch, case.memory(), first, false), number);
        }
    }
    for (case, _) in row_faults() {
        assert_eq!(steps(&case, case.arch as u8, case.memory(), 0, false), NONE);
        assert_eq!(walks(&case, case.arch as u8, case.memory(), 0, false), NONE);
    }
}

#[test]
fn a_throw_is_refused() {
    for (case, number) in faults().chain(row_faults()).chain(damaged()) {
        assert_eq!(throws(&case, case.arch as u8, case.memory(), false), number);
    }
}

#[test]
fn a_refused_throw_hands_back_the_file_as_it_came() {
    for (case, number) in faults().chain(row_faults()).chain(damaged()) {
        assert_eq!(throws_elsewhere(&case, case.arch as u8, case.memory(), false), number);
    }
    for case in ARCHS.map(|arch| good(arch, 1)) {
        let (memory, arch) = (case.memory(), case.arch as u8);
        openings::openings(memory, |memory| throws_elsewhere(&case, arch, memory, true));
        openings::architectures(|arch| throws_elsewhere(&case, arch, memory, false));
    }
}

#[test]
fn a_sweep_call_is_refused() {
    for (case, number) in faults().chain(row_faults()).chain(damaged()) {
        for first in [0, 5] {
            assert_eq!(sweeps(case.memory(), case.arch as u8, case.unwinding(first, false)), number);
        }
    }
}

#[test]
fn an_interrupted_frame_is_refused() {
    for arch in ARCHS {
        for (word, number) in [(1, 25), (2 | 1 << 21, 25), (3, 18), (1 << 3, 18)] {
            let case = Case::new(arch, 0, (Code::Word(word), Fp::Value(3)), CATCHES);
            assert_eq!(steps(&case, arch as u8, case.memory(), 0, true), number);
            assert_eq!(walks(&case, arch as u8, case.memory(), 7, true), number);
            assert_eq!(throws(&case, arch as u8, case.memory(), true), number);
            assert_eq!(sweeps(case.memory(), arch as u8, case.unwinding(7, true)), number);
        }
    }
}

#[test]
fn openings_and_architectures_are_refused() {
    for (case, interrupted) in ARCHS.into_iter().flat_map(|arch| [(good(arch, 1), false), (good(arch, 20), true)]) {
        let (memory, arch) = (case.memory(), case.arch as u8);
        let finished = RawUnwinding { chosen: false, ..case.unwinding(3, interrupted) };
        openings::openings(memory, |memory| steps(&case, arch, memory, 3, interrupted));
        openings::openings(memory, |memory| walks(&case, arch, memory, 3, interrupted));
        openings::openings(memory, |memory| throws(&case, arch, memory, interrupted));
        openings::openings(memory, |memory| sweeps(memory, arch, case.unwinding(3, interrupted)));
        openings::openings(memory, |memory| sweeps(memory, arch, finished));
        openings::architectures(|arch| steps(&case, arch, memory, 3, interrupted));
        openings::architectures(|arch| walks(&case, arch, memory, 3, interrupted));
        openings::architectures(|arch| throws(&case, arch, memory, interrupted));
        openings::architectures(|arch| sweeps(memory, arch, case.unwinding(3, interrupted)));
        openings::architectures(|arch| sweeps(memory, arch, finished));
    }
}

#[test]
fn at_most_1024_frames() {
    for arch in ARCHS {
        for (before, number) in [(1023, NONE), (1024, 29), (1040, 29)] {
            let case = good(arch, before);
            assert_eq!(steps(&case, arch as u8, case.memory(), 0, false), number);
            assert_eq!(walks(&case, arch as u8, case.memory(), 0, false), number);
            let given = case.unwinding(0, false);
            let due = if number == NONE { ANSWERED } else { 29 };
            assert_eq!(throws(&case, arch as u8, case.memory(), false), due);
            let chosen = RawUnwinding { chosen_number: before, chosen_sp: case.sp(), ..given };
            assert_eq!(sweeps(case.memory(), arch as u8, chosen), due);
        }
        let case = good(arch, 1);
        for number in [1024, 1025, usize::MAX] {
            assert_eq!(steps(&case, arch as u8, case.memory(), number, false), 29);
            assert_eq!(walks(&case, arch as u8, case.memory(), number, true), 29);
            let given = RawUnwinding { chosen_number: usize::MAX, ..case.unwinding(0, true) };
            assert_eq!(sweeps(case.memory(), arch as u8, RawUnwinding { number, ..given }), 29);
        }
    }
}

/// The described frame as the chosen one, or one below it.
#[test]
fn the_chosen_frame_is_missed() {
    for (arch, before) in ARCHS.into_iter().flat_map(|arch| DEPTHS.map(|before| (arch, before))) {
        let of = |rows| Case::new(arch, before, (PLAIN, Fp::Value(3)), rows);
        let at = |case: &Case, more: usize, sp: usize| {
            let given = case.unwinding(5, false);
            let told = checked::resume(case.memory(), arch as u8, RawUnwinding {
                chosen_number: given.number + before + more,
                chosen_sp: sp,
                ..given
            });
            let told = told.unwrap();
            (told.status, told.reason)
        };
        let case = of(CATCHES);
        assert_eq!(at(&case, 0, case.sp()), (0, 7));
        assert_eq!(at(&case, 0, case.sp() + 8), (22, 0));
        assert_eq!(at(&case, 1, case.sp()), (22, 0));
        for rows in [&[], CLEANS, TERMINATES] {
            assert_eq!(at(&of(rows), 0, case.sp()), (22, 0));
        }
        assert_eq!(at(&of(&[]), 1, case.sp()), (22, 0));
        assert_eq!(at(&of(CLEANS), 1, case.sp()), (0, 7));
        assert_eq!(at(&of(TERMINATES), 1, case.sp()), (0, 2));
    }
}

#[test]
fn a_walk_ends_where_it_came_in() {
    for arch in ARCHS {
        for before in [0, 14, 15, 16, 40] {
            let case = good(arch, before);
            assert_eq!(steps(&case, arch as u8, case.memory(), 9, false), NONE);
            assert_eq!(walks(&case, arch as u8, case.memory(), 9, before == 40), NONE);
        }
        for pc in [0, start(2) + 1, start(0), usize::MAX] {
            let mut case = good(arch, 3);
            case.regs.r[PC_COLUMN] = pc;
            for interrupted in [false, pc != start(0)] {
                assert_eq!(steps(&case, arch as u8, case.memory(), 9, interrupted), NONE);
                assert_eq!(walks(&case, arch as u8, case.memory(), 9, interrupted), NONE);
                assert_eq!(throws(&case, arch as u8, case.memory(), interrupted), ANSWERED);
                assert_eq!(sweeps(case.memory(), arch as u8, case.unwinding(9, interrupted)), 22);
            }
        }
    }
}

#[test]
fn a_finished_unwinding_is_handed_back() {
    for (case, number) in ARCHS.map(|arch| (good(arch, 1), 7)) {
        let given = case.unwinding(number, true);
        let unchosen = RawUnwinding { chosen: false, ..given };
        let landed = RawUnwinding { chosen_number: number - 1, ..given };
        for given in [unchosen, landed] {
            assert_eq!(sweeps(case.memory(), case.arch as u8, given), NONE);
        }
    }
}
