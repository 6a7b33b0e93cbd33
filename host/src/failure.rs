//! Why a call was refused.
use std::fmt;

/// Makes [`Failure`] of its numbers, names and sentences.
macro_rules! failures {
    ($($number:literal $name:ident $sentence:literal)*) => {
        /// Why a call was refused, by the number that the library answers. It prints as number, name and sentence.
        #[derive(Clone, Copy, PartialEq, Eq, Hash, Debug)]
        #[non_exhaustive]
        #[repr(u32)]
        pub enum Failure {
            $(
                #[doc = concat!(stringify!($number), ": ", $sentence)]
                $name = $number,
            )*
        }

        impl Failure {
            /// The failure of a number. Panics with a number that no failure has.
            pub(crate) fn of(number: u32) -> Failure {
                match number {
                    $($number => Failure::$name,)*
                    _ => unknown("status", number),
                }
            }

            fn sentence(self) -> &'static str {
                match self {
                    $(Failure::$name => $sentence,)*
                }
            }
        }
    };
}

failures! {
    10 RememberStackOverflow "a state program remembers a fifth state."
    11 UnknownRegister "a register number that the architecture does not have."
    12 BadCfaRule "the canonical frame address is 0."
    17 BadEkoHeader "a chunk's header is wrong: magic, version, architecture, flags or size."
    18 BadEkoRecord "a record, frame word, state program or row is malformed."
    19 EkoUnsorted "a record overlaps its neighbour."
    20 StackNotAdvancing "a caller's sp is lower than its callee's, or equal past the first frame."
    22 HandlerFrameMissed "the cleanup phase does not find the chosen frame as the search phase left it."
    23 Misaligned "fp is the base and is 0 or no multiple of 8."
    24 EkoAmbiguousCallSite "rows do not rise strictly, so that a return offset may have two."
    25 EkoAsyncFrame "an interrupted frame has a version 1 word that describes call sites only."
    27 OutsideMemory "the bytes to be read lie whole in neither slice."
    28 BadOpening "the opening rule is broken, or a state counts more than 32 pairs."
    29 TooManyFrames "1,024 frames were given and the stack goes on."
    30 EkoTruncated "a state program or a row table is cut: the limit is met before a byte that it needs."
    31 BadUleb "a number in a state program or a row table has no end in five bytes or is above 4294967295."
    32 TooManySaved "a 33rd register is saved."
}

impl Failure {
    /// The number of this failure.
    pub fn number(self) -> u32 {
        self as u32
    }
}

impl fmt::Display for Failure {
    fn fmt(&self, f: &mut fmt::Formatter<'_>) -> fmt::Result {
        write!(f, "{} {self:?}: {}", self.number(), self.sentence())
    }
}

impl std::error::Error for Failure {}

/// Ends the program, with a number that the library of this crate never answers.
#[cold]
pub(crate) fn unknown(what: &str, number: impl fmt::Display) -> ! {
    panic!("the library answered the {what} {number}, which this crate does not know: crate and library do not match")
}

#[cfg(test)]
mod tests {
    use super::*;

    #[test]
    fn every_number_up_to_40_is_a_failure_or_none() {
        let known = [10, 11, 12, 17, 18, 19, 20, 22, 23, 24, 25, 27, 28, 29, 30, 31, 32];
        for number in known {
            assert_eq!(Failure::of(number).number(), number);
        }
        for number in (0..=40).chain([u32::MAX]).filter(|number| !known.contains(number)) {
            let told = std::panic::catch_unwind(|| Failure::of(number)).expect_err("a loud failure");
            let text = told.downcast::<String>().unwrap();
            assert!(text.contains(&format!("status {number},")) && text.contains("do not match"), "{text}");
        }
    }
}
