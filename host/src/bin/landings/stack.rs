//! A stack to be lent: its bytes, and the address of the first.
use std::fmt::{self, Display, Formatter};

use crate::machine::Machine;
use crate::random::Random;

pub struct Stack {
    pub base: usize,
    pub bytes: Vec<u8>,
}

/// Base and bytes, as `probe` takes them.
impl Display for Stack {
    fn fmt(&self, f: &mut Formatter) -> fmt::Result {
        write!(f, "{} {}", self.base, hex(&self.bytes))
    }
}

impl Stack {
    /// The stack at the throw.
    pub fn of(machine: &Machine) -> Stack {
        Stack { base: machine.stack_base, bytes: machine.stack.clone() }
    }

    pub fn end(&self) -> usize {
        self.base + self.bytes.len()
    }

    /// The bytes from an address up to another.
    pub fn part(&mut self, from: usize, to: usize) -> &mut [u8] {
        &mut self.bytes[from - self.base..to - self.base]
    }

    /// Another base and end: what lies in both stays, the rest is random.
    pub fn resize(&mut self, base: usize, end: usize, random: &mut Random) {
        let mut resized = Stack { base, bytes: random.bytes(end - base) };
        let (from, to) = (base.max(self.base), end.min(self.end()));
        if from < to {
            resized.part(from, to).copy_from_slice(self.part(from, to));
        }
        *self = resized;
    }
}

/// Bytes in hexadecimal digits, a dash for none.
pub fn hex(bytes: &[u8]) -> String {
    match bytes {
        [] => "-".to_string(),
        _ => bytes.iter().map(|byte| format!("{byte:02x}")).collect(),
    }
}
