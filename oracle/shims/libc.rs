//! The two functions of the crate `libc` that failure.rs names. The oracle calls neither.

use core::ffi::{c_int, c_void};

unsafe extern "C" {
    pub fn write(fd: c_int, bytes: *const c_void, count: usize) -> isize;
    pub fn abort() -> !;
}
