//! The whole program over memory.
use crate::kernels::Answer;

/// The output is too short, and `value` is the length that it needs.
pub const TOO_SMALL: u64 = 16;

extern "C" {
    /// Returns the version of the library.
    pub fn vortex_rows_version() -> u32;

    /// Runs the program. Each word ends with a byte 0; the text is written to `dst`.
    pub fn vortex_program(
        words: *const u8,
        n: usize,
        document: *const u8,
        m: usize,
        dst: *mut u8,
        room: usize,
    ) -> Answer;
}
