//! The kernels over flat lists, as `include/vortex_select.h` has them.

/// The call is done.
pub const DONE: u64 = 0;
/// Lengths disagree.
pub const LENGTHS: u64 = 1;
/// An index is out of bounds, and `value` is its place in the list.
pub const INDEX: u64 = 4;

/// A status and a number.
#[repr(C)]
#[derive(Clone, Copy, Debug)]
pub struct Answer {
    /// The status.
    pub status: u64,
    /// A count, a place or 0, as the call says.
    pub value: u64,
}

/// The rows from `start` up to `end`.
#[repr(C)]
#[derive(Clone, Copy, Debug)]
pub struct Run {
    /// The first row.
    pub start: u64,
    /// The row after the last one.
    pub end: u64,
}

/// A record of 16 bytes.
#[repr(C)]
#[derive(Clone, Copy, Debug)]
pub struct Record16([u64; 2]);

/// A record of 32 bytes.
#[repr(C)]
#[derive(Clone, Copy, Debug)]
pub struct Record32([u64; 4]);

macro_rules! of_width {
    ($item:ty: $filter:ident $in_place:ident $take:ident $front:ident) => {
        extern "C" {
            /// Writes the values at the set bits of the mask.
            pub fn $filter(
                src: *const $item,
                n: usize,
                words: *const u64,
                m: usize,
                at: usize,
                dst: *mut $item,
                room: usize,
            ) -> Answer;
            /// Moves the values at the set bits of the mask to the front.
            pub fn $in_place(
                values: *mut $item,
                n: usize,
                words: *const u64,
                m: usize,
                at: usize,
            ) -> Answer;
            /// Writes the values at the indices.
            pub fn $take(
                src: *const $item,
                n: usize,
                indices: *const u64,
                k: usize,
                valid: *const u64,
                m: usize,
                dst: *mut $item,
                room: usize,
            ) -> Answer;
            /// Writes the values at the indices before the first one out of bounds.
            pub fn $front(
                src: *const $item,
                n: usize,
                indices: *const u64,
                k: usize,
                valid: *const u64,
                m: usize,
                dst: *mut $item,
                room: usize,
            ) -> Answer;
        }
    };
}

of_width!(u8: vortex_filter_1 vortex_filter_in_place_1 vortex_take_1 vortex_take_front_1);
of_width!(u16: vortex_filter_2 vortex_filter_in_place_2 vortex_take_2 vortex_take_front_2);
of_width!(u32: vortex_filter_4 vortex_filter_in_place_4 vortex_take_4 vortex_take_front_4);
of_width!(u64: vortex_filter_8 vortex_filter_in_place_8 vortex_take_8 vortex_take_front_8);
of_width!(Record16: vortex_filter_16 vortex_filter_in_place_16 vortex_take_16 vortex_take_front_16);
of_width!(Record32: vortex_filter_32 vortex_filter_in_place_32 vortex_take_32 vortex_take_front_32);

extern "C" {
    /// Returns the version of the library.
    pub fn vortex_version() -> u32;
    /// Writes numbers of 32 bits as numbers of 64 bits to the front of `dst`.
    pub fn vortex_widen_4(src: *const u32, n: usize, dst: *mut u64, room: usize) -> Answer;
    /// Writes the bits at the set bits of the mask.
    pub fn vortex_filter_bits(
        src: *const u64,
        n: usize,
        src_at: usize,
        mask: *const u64,
        m: usize,
        mask_at: usize,
        rows: usize,
        dst: *mut u64,
        room: usize,
    ) -> Answer;
    /// Writes the bits at the indices.
    pub fn vortex_take_bits(
        src: *const u64,
        n: usize,
        src_at: usize,
        bits: usize,
        indices: *const u64,
        k: usize,
        valid: *const u64,
        m: usize,
        dst: *mut u64,
        room: usize,
    ) -> Answer;
    /// Writes the positions of the set bits.
    pub fn vortex_positions(
        words: *const u64,
        m: usize,
        rows: usize,
        dst: *mut u64,
        room: usize,
    ) -> Answer;
    /// Writes the maximal runs of set bits.
    pub fn vortex_runs(
        words: *const u64,
        m: usize,
        rows: usize,
        dst: *mut Run,
        room: usize,
    ) -> Answer;
    /// Returns the position of set bit `k`.
    pub fn vortex_rank(words: *const u64, m: usize, rows: usize, k: usize) -> Answer;
    /// Returns how many bits before `p` are set.
    pub fn vortex_count_before(words: *const u64, m: usize, rows: usize, p: usize) -> Answer;
}
