//! Where two refusals meet, or a refusal and an answer: which comes first, in a throw and in a sweep call (document 01, "Walk, throw and
//! call machine").
#[allow(dead_code)]
#[path = "../src/checked.rs"]
mod checked;
#[allow(dead_code)]
mod frames;
#[allow(dead_code)]
mod openings;
#[allow(dead_code)]
#[path = "../src/raw.rs"]
mod raw;

use checked::{ANSWERED, NONE};
use frames::section::{CATCHES, CLEANS, TERMINATES};
use frames::{
    ARCHS, Case, Code, EXCEPTION, FAULTS, Fp, PLAIN, REFUSED_ROWS, REFUSED_TABLES, TWICE, good, refused_rows, refused_rows1,
};
use morthwyga::{Memory, PC_COLUMN, RawUnwinding, Record, Regs, State};

/// An address in no record.
const NOWHERE: usize = 0x50_0000;

const DEPTHS: [usize; 3] = [0, 1, 20];

fn throws(case: &Case, memory: Memory) -> u32 {
    checked::raise(memory, case.arch as u8, case.regs, case.regs.pc(), false, EXCEPTION).unwrap().status
}

/// The status and the reason of a sweep call.
fn sweeps(case: &Case, given: RawUnwinding) -> (u32, u32) {
    let told = checked::resume(case.memory(), case.arch as u8, given).unwrap();
    (told.status, told.reason)
}

/// Unwindings that meet the described frame as one below the chosen frame; as the chosen one; and as that with another sp.
fn met(case: &Case) -> [RawUnwinding; 3] {
    let below = case.unwinding(5, false);
    let chosen = RawUnwinding { chosen_number: 5 + case.before, chosen_sp: case.sp(), ..below };
    [below, chosen, RawUnwinding { chosen_sp: case.sp() + 8, ..chosen }]
}

/// 20 is one of these faults.
#[test]
fn a_frames_step_comes_before_its_row() {
    let rows = REFUSED_ROWS.map(|(rows, _)| rows);
    for (arch, before) in ARCHS.into_iter().flat_map(|arch| DEPTHS.map(|before| (arch, before))) {
        for (number, code, fp) in FAULTS {
            for rows in rows.into_iter().chain([CATCHES, CLEANS, TERMINATES]) {
                let case = Case::new(arch, before, (code, fp), rows);
                assert_eq!(throws(&case, case.memory()), number);
                assert_eq!(met(&case).map(|given| sweeps(&case, given)), [(number, 0); 3]);
            }
        }
    }
}

/// A table of version 2 is read where the program has an END.
#[test]
fn a_frames_step_comes_before_its_table() {
    for (arch, before) in ARCHS.into_iter().flat_map(|arch| DEPTHS.map(|before| (arch, before))) {
        for (number, code, fp) in FAULTS {
            let Code::Program(operations) = code else { continue };
            for (table, _) in REFUSED_TABLES {
                let case = Case::with_table(arch, before, (operations, fp), table);
                assert_eq!(throws(&case, case.memory()), number);
                assert_eq!(met(&case).map(|given| sweeps(&case, given)), [(number, 0); 3]);
            }
        }
    }
}

/// sp is the same as before: 20 past the first frame.
#[test]
fn the_same_sp_comes_before_the_row() {
    for (arch, before) in ARCHS.into_iter().flat_map(|arch| [1, 20].map(|before| (arch, before))) {
        for (case, _) in refused_rows(arch, before, (&[0xc1, 0], Fp::Sp(0))) {
            assert_eq!(throws(&case, case.memory()), 20);
            assert_eq!(met(&case).map(|given| sweeps(&case, given)), [(20, 0); 3]);
        }
    }
}

#[test]
fn the_row_comes_before_22() {
    for (arch, before) in ARCHS.into_iter().flat_map(|arch| DEPTHS.map(|before| (arch, before))) {
        let version1 = refused_rows1(arch, before, 2 | 1 << 21);
        for (case, number) in refused_rows(arch, before, (&[], Fp::Value(3))).chain(version1) {
            assert_eq!(throws(&case, case.memory()), number);
            assert_eq!(met(&case).map(|given| sweeps(&case, given)), [(number, 0); 3]);
        }
    }
}

/// The stack ends below the return address of the described frame, or of its caller.
#[test]
fn a_frames_row_comes_before_its_callers_step() {
    for arch in ARCHS {
        for (mut case, number) in refused_rows(arch, 1, (&[], Fp::Value(3))) {
            let described = case.sp() - frames::section::STACK;
            let caller = frames::section::ret(0).to_le_bytes();
            case.stack[described..described + 8].copy_from_slice(&caller);
            case.stack.truncate(described + 8);
            let walk = checked::walk(case.memory(), arch as u8, 0, false, case.regs).unwrap();
            assert_eq!((walk.status, walk.frames.count), (27, 2));
            assert_eq!(throws(&case, case.memory()), number);
            assert_eq!(met(&case).map(|given| sweeps(&case, given)), [(number, 0); 3]);
            case.stack.truncate(described);
            assert_eq!(throws(&case, case.memory()), 27);
            assert_eq!(met(&case).map(|given| sweeps(&case, given)), [(27, 0); 3]);
        }
    }
}

/// A frame outside every record ends the walk, but not the 1,025th; pc 0 ends it there too.
#[test]
fn the_1025th_frame_is_refused_before_lookup() {
    for arch in ARCHS {
        for (before, pc, status) in [(1023, NOWHERE, NONE), (1024, NOWHERE, 29), (1024, 0, NONE)] {
            let mut case = good(arch, before);
            let last = case.sp() - 8 - frames::section::STACK;
            case.stack[last..last + 8].copy_from_slice(&pc.to_le_bytes());
            let throw = if status == NONE { ANSWERED } else { status };
            assert_eq!(throws(&case, case.memory()), throw);
            let sweep = if status == NONE { 22 } else { status };
            assert_eq!(sweeps(&case, case.unwinding(0, false)), (sweep, 0));
        }
        for (pc, status) in [(NOWHERE, 29), (0, NONE)] {
            let mut regs = good(arch, 0).regs;
            regs.r[PC_COLUMN] = pc;
            let case = good(arch, 0);
            let step = checked::next_frame(case.memory(), arch as u8, 1024, false, regs).unwrap();
            assert_eq!(step.status, status);
        }
    }
}

/// A terminate row answers 2 once the frame's step is not refused.
#[test]
fn terminate_comes_after_the_step() {
    for arch in ARCHS {
        let case = Case::new(arch, 1, (PLAIN, Fp::Value(3)), TERMINATES);
        assert_eq!(met(&case).map(|given| sweeps(&case, given)), [(ANSWERED, 2), (22, 0), (22, 0)]);
    }
}

#[test]
fn the_opening_comes_first() {
    for (arch, (_, code, fp)) in ARCHS.into_iter().flat_map(|arch| FAULTS.map(|fault| (arch, fault))) {
        let case = Case::new(arch, 1, (code, fp), TWICE);
        for memory in openings::broken(case.memory()) {
            assert_eq!(throws(&case, memory), 28);
            assert_eq!(checked::resume(memory, arch as u8, case.unwinding(5, false)).unwrap().status, 28);
        }
        for unknown in openings::UNKNOWN {
            let (memory, regs) = (case.memory(), case.regs);
            assert_eq!(checked::raise(memory, unknown, regs, regs.pc(), false, EXCEPTION).unwrap().status, 28);
            assert_eq!(checked::resume(memory, unknown, case.unwinding(5, false)).unwrap().status, 28);
        }
    }
}
