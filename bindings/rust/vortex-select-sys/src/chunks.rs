//! Stores that are read chunk by chunk, as `include/vortex_chunks.h` has them.
use crate::kernels::Answer;

/// A row has no bytes, or more than [`MAX_WIDTH`].
pub const WIDTH: u64 = 1;
/// Chunks have no rows.
pub const LEN: u64 = 2;
/// `starts` isn't one longer than there are chunks.
pub const STARTS: u64 = 3;
/// `order` isn't as long as `places`.
pub const ORDER: u64 = 4;
/// There are bits of validity, and fewer than picks.
pub const VALID: u64 = 5;
/// A pick is past the rows, and `value` is the first one's number.
pub const PLACE: u64 = 6;
/// The column has no chunk of this number.
pub const CHUNK: u64 = 7;
/// The bytes are neither those of the chunk's rows nor those of a whole chunk.
pub const BYTES: u64 = 8;
/// `out` has no room for a row a pick.
pub const OUTPUT: u64 = 9;
/// An entry of `order` isn't the number of a pick in the chunk, and `value` is the first such one.
pub const STRAY: u64 = 10;

/// The most bytes that a row may have.
pub const MAX_WIDTH: u64 = 1 << 20;

extern "C" {
    /// Returns how many chunks a column has.
    pub fn vortex_chunks_count(len: u64, chunk_len: u64) -> Answer;

    /// Plans which chunks are to be read for picks, and which picks lie in each chunk.
    pub fn vortex_chunks_plan(
        places: *const u64,
        n_places: usize,
        valid: *const u8,
        n_valid: usize,
        len: u64,
        chunk_len: u64,
        starts: *mut u64,
        n_starts: usize,
        order: *mut u64,
        n_order: usize,
    ) -> Answer;

    /// Writes the picked rows of chunk `k` where they belong.
    pub fn vortex_chunks_scatter(
        chunk: *const u8,
        n_chunk: usize,
        k: u64,
        len: u64,
        chunk_len: u64,
        width: u64,
        places: *const u64,
        n_places: usize,
        order: *const u64,
        n_order: usize,
        out: *mut u8,
        n_out: usize,
    ) -> Answer;

    /// Writes zeros to the row of each null among `count` picks.
    pub fn vortex_chunks_fill_nulls(
        valid: *const u8,
        n_valid: usize,
        count: usize,
        width: u64,
        out: *mut u8,
        n_out: usize,
    ) -> Answer;

    /// Finds the picks from number `from` on that lie in one chunk.
    pub fn vortex_chunks_next_run(
        places: *const u64,
        n_places: usize,
        chunk_len: u64,
        from: usize,
    ) -> Answer;
}
