//! The walk, and the two phases of a throw.
use crate::{Arch, Failure, Memory, Record, Regs, answered, optional, raw, unknown};

/// Where a frame of a walk stands: the start of its record, its pc and its sp.
#[derive(Clone, Copy, PartialEq, Eq, Debug)]
pub struct Place {
    /// The start of the function.
    pub start: usize,
    /// Where it was left.
    pub pc: usize,
    /// Its stack pointer.
    pub sp: usize,
}

/// A frame of a walk: its number, counted from 0, the innermost; whether it was interrupted; its registers.
#[derive(Clone, Copy, PartialEq, Eq, Debug)]
pub struct Frame {
    /// 0 for the innermost.
    pub number: usize,
    /// Only the innermost can be.
    pub interrupted: bool,
    /// With its pc.
    pub regs: Regs,
}

/// What a throw comes to.
#[derive(Clone, Copy, PartialEq, Eq, Debug)]
pub enum Raised {
    /// The first frame that catches, by its number and stack pointer.
    Chosen {
        /// Its number.
        number: usize,
        /// Its stack pointer.
        sp: usize,
    },
    /// A row that terminates came first (reason 3).
    Terminated,
    /// No frame catches (reason 5).
    EndOfStack,
}

/// An unwinding between two calls: what [`Memory::raise`] and [`Memory::resume`] hand back, and the next call takes.
///
/// It can be neither copied nor cloned, so each is used once, and no landing is given twice. Here the second call is given what the
/// first one was given; that does not compile:
///
/// ```compile_fail,E0382
/// # use morthwyga::{Arch, Memory, Unwinding};
/// fn two_landings(memory: Memory, unwinding: Unwinding) {
///     let (first, next) = memory.resume(Arch::X86_64, unwinding);
///     let (second, next) = memory.resume(Arch::X86_64, unwinding);
/// }
/// ```
///
/// Given what the first one handed back, it does:
///
/// ```
/// # use morthwyga::{Arch, Memory, Unwinding};
/// fn two_landings(memory: Memory, unwinding: Unwinding) {
///     let (first, next) = memory.resume(Arch::X86_64, unwinding);
///     let (second, next) = memory.resume(Arch::X86_64, next);
/// }
/// ```
///
/// Nor can it be cloned, or made of another's fields:
///
/// ```compile_fail,E0599
/// # use morthwyga::Unwinding;
/// fn cloned(unwinding: &Unwinding) -> Unwinding {
///     unwinding.clone()
/// }
/// ```
///
/// ```compile_fail,E0451
/// # use morthwyga::Unwinding;
/// fn copied(unwinding: &Unwinding) -> Unwinding {
///     Unwinding { ..*unwinding }
/// }
/// ```
#[derive(PartialEq, Eq, Debug)]
pub struct Unwinding {
    raw: RawUnwinding,
}

/// The fields of an unwinding, as they cross to the library.
#[derive(Clone, Copy, PartialEq, Eq, Debug)]
#[repr(C)]
pub struct RawUnwinding {
    /// The registers of the frame that comes next.
    pub regs: Regs,
    /// The number of the frame that comes next.
    pub number: usize,
    /// The exception, which every landing gets in register 0.
    pub exception: usize,
    /// The number of the chosen frame, 0 where none was chosen.
    pub chosen_number: usize,
    /// The stack pointer of the chosen frame, 0 where none was chosen.
    pub chosen_sp: usize,
    /// Whether the frame that comes next was interrupted.
    pub interrupted: bool,
    /// Whether a frame was chosen.
    pub chosen: bool,
}

impl Unwinding {
    /// Its fields, to look at.
    pub fn raw(&self) -> RawUnwinding {
        self.raw
    }

    /// An unwinding of any fields, for tests that make calls on purpose of which the theorem says nothing: a call repeated, or with
    /// fields that no call handed back. A host has no need of it.
    pub fn from_raw(raw: RawUnwinding) -> Unwinding {
        Unwinding { raw }
    }
}

/// What a resume call comes to.
#[derive(Clone, Copy, PartialEq, Eq, Debug)]
#[allow(clippy::large_enum_variant, reason = "a landing comes without an allocation")]
pub enum Resumed {
    /// The landing of a frame, by its number: go on with these registers, whose pc is its pad.
    Landing {
        /// The frame's number.
        number: usize,
        /// The registers at its pad.
        regs: Regs,
    },
    /// A row that terminates lies below the chosen frame (reason 2).
    Terminated,
    /// The chosen frame has landed, or none was chosen.
    Finished,
}

impl Raised {
    /// What a throw that is not refused comes to.
    fn of(a: &raw::Raised) -> Raised {
        match a.reason {
            3 => Raised::Terminated,
            5 => Raised::EndOfStack,
            6 => Raised::Chosen { number: a.number, sp: a.sp },
            other => unknown("reason", other),
        }
    }
}

impl Resumed {
    /// What a call that is neither refused nor finished comes to.
    fn of(a: &raw::Resumed) -> Resumed {
        match a.reason {
            2 => Resumed::Terminated,
            7 => Resumed::Landing { number: a.number, regs: a.regs },
            other => unknown("reason", other),
        }
    }
}

impl Memory<'_> {
    /// The record of a frame and its caller; none past the last frame. A walk starts at frame 0 and goes on with each caller.
    pub fn next_frame(self, arch: Arch, frame: Frame) -> Result<Option<(Record, Frame)>, Failure> {
        let a = lend!(self, eko_next_frame, arch as u8, frame.number, frame.interrupted, frame.regs);
        optional(a.status, (a.function, Frame { number: a.number, interrupted: a.interrupted, regs: a.regs }))
    }

    /// The frames of a walk from a frame on, the innermost first, and how it came to its end. What was given before a refusal stays.
    pub fn walk(self, arch: Arch, mut frame: Frame) -> (Vec<Place>, Result<(), Failure>) {
        let mut places = Vec::new();
        loop {
            let a = lend!(self, eko_walk, arch as u8, frame.number, frame.interrupted, frame.regs);
            let f = &a.frames;
            places.extend((0..f.count).map(|i| Place { start: f.starts[i], pc: f.pcs[i], sp: f.sps[i] }));
            frame = Frame { number: a.number, interrupted: a.interrupted, regs: a.regs };
            match optional(a.status, ()) {
                Ok(Some(())) => {}
                end => return (places, end.map(|_| ())),
            }
        }
    }

    /// A throw: the search phase from frame 0, which has these registers and this pc. The unwinding goes to [`Memory::resume`];
    /// where no frame is chosen, or the throw is refused, that has finished at once. A refusal hands back the registers as they came.
    ///
    /// From here on three things are asked of a host, and then the landings are those that are due, each once: the section stays as
    /// it is; each resume call is lent a copy of the stack taken now, or the live stack, in which landing pads leave alone what
    /// [`Memory::resume`] says; and each is given the unwinding that the last call returned.
    pub fn raise(
        self,
        arch: Arch,
        regs: Regs,
        pc: usize,
        interrupted: bool,
        exception: usize,
    ) -> (Result<Raised, Failure>, Unwinding) {
        let a = lend!(self, eko_raise, arch as u8, regs, pc, interrupted, exception);
        (answered(a.status, &a).map(Raised::of), Unwinding { raw: a.unwinding })
    }

    /// The next landing of an unwinding, and the unwinding for the next call: past the frame that landed, else the one that was given.
    /// So after a refusal nothing is lost, and the call may be made again with what it should have been lent; after
    /// [`Resumed::Finished`] every further call has finished too; and after [`Resumed::Terminated`] the same call comes to the same.
    ///
    /// The theorem asks this of a host, for every call:
    ///
    /// - The architecture is that of the throw, and so is the section: the same bytes at the same address.
    /// - The unwinding is the one that [`Memory::raise`] or, after it, the last call returned.
    /// - The stack is a copy taken at the throw, or the live stack, to which landing pads, and all that they call, may have written.
    ///   They leave alone the slots in which the frames not yet passed, from the unwinding's `number` up to the chosen one, have
    ///   saved their callers' registers and return addresses: these lie in what is lent, at their addresses, and hold what they held
    ///   at the throw. A frame that has landed has been passed, so its pad may use its own slots. Once the chosen frame has landed,
    ///   or where none was chosen, any stack that the opening rule accepts will do.
    ///
    /// Make the slice of a live stack anew for each call: pads write to what it borrows.
    pub fn resume(self, arch: Arch, unwinding: Unwinding) -> (Result<Resumed, Failure>, Unwinding) {
        let a = lend!(self, eko_resume, arch as u8, unwinding.raw);
        let resumed = optional(a.status, &a).map(|landing| landing.map_or(Resumed::Finished, Resumed::of));
        (resumed, Unwinding { raw: a.unwinding })
    }
}

#[cfg(test)]
mod tests {
    use super::*;

    const REGS: Regs = Regs { r: [0; 41] };
    const UNWINDING: RawUnwinding = RawUnwinding {
        regs: REGS,
        number: 0,
        exception: 0,
        chosen_number: 0,
        chosen_sp: 0,
        interrupted: false,
        chosen: false,
    };

    /// The panic of an answer with a reason, none where the crate knows it.
    fn panic_of<T>(reason: u32, answer: fn(u32) -> T) -> Option<String> {
        std::panic::catch_unwind(|| answer(reason)).err().map(|told| *told.downcast::<String>().unwrap())
    }

    fn raised(reason: u32) -> Raised {
        Raised::of(&raw::Raised { unwinding: UNWINDING, number: 1, sp: 2, status: 0, reason })
    }

    fn resumed(reason: u32) -> Resumed {
        Resumed::of(&raw::Resumed { regs: REGS, unwinding: UNWINDING, number: 1, status: 0, reason })
    }

    #[test]
    fn an_unknown_reason_is_named() {
        assert_eq!([3, 5, 6].map(raised), [Raised::Terminated, Raised::EndOfStack, Raised::Chosen { number: 1, sp: 2 }]);
        assert_eq!([2, 7].map(resumed), [Resumed::Terminated, Resumed::Landing { number: 1, regs: REGS }]);
        for reason in 0..100 {
            let named = |told: Option<String>| told.is_none_or(|text| text.contains(&format!("the reason {reason}, which")));
            let (raised, resumed) = (panic_of(reason, raised), panic_of(reason, resumed));
            assert_eq!((raised.is_none(), resumed.is_none()), ([3, 5, 6].contains(&reason), [2, 7].contains(&reason)));
            assert!(named(raised) && named(resumed));
        }
    }
}
