//! Stands in for ps-unwind's mem.rs: `load` reads the two lent ranges instead of the process.

use std::cell::RefCell;
use std::panic::resume_unwind;

/// Bytes lent at an address.
#[derive(Default)]
pub struct Range {
    pub base: usize,
    pub bytes: Vec<u8>,
}

/// What a load that does not lie whole in one range unwinds with.
pub struct Outside;

thread_local! {
    /// The section, then the stack.
    static LENT: RefCell<[Range; 2]> = RefCell::default();
}

pub fn lend(section: Range, stack: Range) {
    LENT.set([section, stack]);
}

/// The section's base and length.
pub fn section() -> (usize, usize) {
    LENT.with_borrow(|lent| (lent[0].base, lent[0].bytes.len()))
}

impl Range {
    /// The `n` bytes at `addr`, where this range holds them all. No sum here can wrap:
    /// neither the place in the range nor the last byte's address.
    fn part(&self, addr: usize, n: usize) -> Option<&[u8]> {
        let place = addr.checked_sub(self.base)?;
        addr.checked_add(n - 1)?;
        self.bytes.get(place..place.checked_add(n)?)
    }
}

/// # Safety
/// `T` is an integer: any bytes are a value of it.
pub unsafe fn load<T: Copy>(addr: usize) -> T {
    LENT.with_borrow(|lent| {
        match lent.iter().find_map(|range| range.part(addr, size_of::<T>())) {
            Some(part) => unsafe { part.as_ptr().cast::<T>().read_unaligned() },
            None => resume_unwind(Box::new(Outside)),
        }
    })
}
