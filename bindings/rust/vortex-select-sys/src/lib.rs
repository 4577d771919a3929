//! Declarations of the static libraries of this repository: functions, structs and statuses, as the
//! headers in `include/` have them. The safe crate over them is `vortex-select`.
//!
//! All functions are unsafe. The headers say what a caller owes: each pointer leads to as many
//! aligned items as its length says, and an output overlaps no other list of the call.
#![deny(unsafe_op_in_unsafe_fn)]
#![warn(missing_docs)]

#[cfg(not(all(target_arch = "x86_64", target_pointer_width = "64")))]
compile_error!("the libraries are built for x86-64 alone, where `usize` has eight bytes");

#[cfg(feature = "arrow")]
pub mod arrow;
#[cfg(feature = "chunks")]
pub mod chunks;
pub mod kernels;
#[cfg(any(feature = "rows", feature = "arrow"))]
mod memory;
#[cfg(feature = "parts")]
pub mod parts;
#[cfg(feature = "rows")]
pub mod program;
