//! Columns cut into parts, as `include/vortex_parts.h` has them.
use crate::kernels::{Answer, Record16, Record32};

/// A slice begins past its end, or ends past the rows.
pub const RANGE: u64 = 5;
/// The bounds don't begin at 0 and ascend.
pub const BOUNDS: u64 = 6;
/// The parts have more rows than 64 bits count.
pub const TOO_MANY: u64 = 7;
/// A null among places, parts and rows.
pub const NULL: u64 = u64::MAX;

extern "C" {
    /// Writes where each part begins, and where the last one ends.
    pub fn vortex_cut_bounds(
        lengths: *const usize,
        n_lengths: usize,
        bounds: *mut usize,
        n_bounds: usize,
    ) -> Answer;

    /// Cuts a slice of the whole into a slice of each part.
    pub fn vortex_cut_slice(
        lengths: *const usize,
        n_lengths: usize,
        start: usize,
        end: usize,
        starts: *mut usize,
        n_starts: usize,
        ends: *mut usize,
        n_ends: usize,
        left: *mut usize,
        n_left: usize,
    ) -> Answer;

    /// Counts for each part the rows that a mask of the whole keeps.
    pub fn vortex_cut_mask(
        words: *const u64,
        n_words: usize,
        mask_at: usize,
        lengths: *const usize,
        n_lengths: usize,
        left: *mut usize,
        n_left: usize,
    ) -> Answer;

    /// Cuts picks of the whole into picks of each part.
    pub fn vortex_cut_picks(
        places: *const u64,
        n_places: usize,
        bounds: *const usize,
        n_bounds: usize,
        own: *mut usize,
        n_own: usize,
        ends: *mut usize,
        n_ends: usize,
        parts: *mut u64,
        n_parts: usize,
        rows: *mut u64,
        n_rows: usize,
    ) -> Answer;
}

/// A list of items.
#[repr(C)]
#[derive(Clone, Copy, Debug)]
pub struct List<T> {
    /// The first item.
    pub items: *const T,
    /// How many items there are.
    pub len: usize,
}

/// `len` bits from bit `at` of the words on.
#[repr(C)]
#[derive(Clone, Copy, Debug)]
pub struct BitList {
    /// The first word.
    pub words: *const u64,
    /// How many words there are.
    pub n_words: usize,
    /// The first bit.
    pub at: usize,
    /// How many bits there are.
    pub len: usize,
}

macro_rules! interleave {
    ($($name:ident $list:ty, $item:ty;)+) => {
        extern "C" {$(
            /// Writes items of several lists in the order of `parts` and `rows`.
            pub fn $name(
                lists: *const $list,
                n_lists: usize,
                parts: *const u64,
                n_parts: usize,
                rows: *const u64,
                n_rows: usize,
                dst: *mut $item,
                n_dst: usize,
            ) -> Answer;
        )+}
    };
}

interleave!(
    vortex_interleave_1 List<u8>, u8;
    vortex_interleave_2 List<u16>, u16;
    vortex_interleave_4 List<u32>, u32;
    vortex_interleave_8 List<u64>, u64;
    vortex_interleave_16 List<Record16>, Record16;
    vortex_interleave_32 List<Record32>, Record32;
    vortex_interleave_bits BitList, u64;
);
