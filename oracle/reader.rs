//! The EKO reader of ps-unwind for x86-64 as a crate, with its own loads of real addresses. `build` puts its files beside this one.
pub mod abi;
mod abi_numbers;
pub mod arch;
pub mod eko;
pub mod failure;
pub mod frame;
pub mod mem;
