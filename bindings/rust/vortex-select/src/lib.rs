//! Row selection by proved kernels: filters by masks and takes by indices, of values and of bits.
//! With the feature `arrow` also of columns in Arrow's memory, see [`arrow`], and with `chunks` of
//! stores that are read chunk by chunk, see `chunks`.
//!
//! ```
//! use vortex_select::{filter, take, Mask};
//!
//! let values = [10u32, 20, 30, 40];
//! let mask = Mask::from_bools(&[true, false, true, true]);
//! assert_eq!(filter(&values, &mask), [10, 30, 40]);
//! assert_eq!(take(&values, &[3, 0, 0]), Ok(vec![40, 10, 10]));
//! ```
//!
//! No safe function reads or writes memory outside of the slices that it is given. The declarations
//! of the libraries are in the crate `vortex-select-sys`.
//!
//! Threads: the kernels keep no state, so any thread may call them. [`Mask`], [`Bits`] and
//! [`OutOfBounds`] are `Send` and `Sync`.
#![deny(unsafe_op_in_unsafe_fn)]
#![warn(missing_docs)]

#[cfg(not(all(target_arch = "x86_64", target_pointer_width = "64")))]
compile_error!("the library is built for x86-64 alone, where `usize` has eight bytes");

#[cfg(feature = "arrow")]
pub mod arrow;
mod bits;
#[cfg(feature = "chunks")]
pub mod chunks;
mod mask;
#[cfg(feature = "parts")]
pub mod parts;
mod record;
#[cfg(feature = "rows")]
mod rows;

pub use bits::{filter_bits, take_bits, take_bits_u32, take_bits_valid, Bits};
pub use mask::Mask;
pub use record::Record;
#[cfg(feature = "rows")]
pub use rows::{file, made, page, rows, run, Answer};

use std::mem::MaybeUninit;
use vortex_select_sys::kernels::{self, Answer as CallAnswer, DONE, INDEX};

/// Returns the version of the library that is linked: a million times the major number, plus a
/// thousand times the minor number, plus the patch number.
///
/// ```
/// assert_eq!(vortex_select::version(), 1_000); // 0.1.0
/// ```
pub fn version() -> u32 {
    // SAFETY: the call has no arguments.
    unsafe { kernels::vortex_version() }
}

/// An index is out of bounds: the first such index of a list.
#[derive(Clone, Copy, Debug, PartialEq, Eq)]
pub struct OutOfBounds {
    /// The place of the index in the list.
    pub place: usize,
    /// The index.
    pub index: u64,
    /// How many items there are.
    pub len: usize,
}

impl OutOfBounds {
    fn of(indices: &[u64], place: usize, len: usize) -> Self {
        OutOfBounds {
            place,
            index: indices[place],
            len,
        }
    }
}

impl std::fmt::Display for OutOfBounds {
    fn fmt(&self, f: &mut std::fmt::Formatter<'_>) -> std::fmt::Result {
        let OutOfBounds { place, index, len } = self;
        let items = if *len == 1 { "item" } else { "items" };
        write!(f, "index {index} at place {place}, but {len} {items}")
    }
}

impl std::error::Error for OutOfBounds {}

/// All types may be sent to another thread and shared between threads.
const _: () = {
    const fn is_shared<T: Send + Sync>() {}
    is_shared::<Mask>();
    is_shared::<Bits<'static>>();
    is_shared::<OutOfBounds>();
};

/// Returns how many words hold so many bits.
fn words_of(bits: usize) -> usize {
    bits / 64 + usize::from(bits % 64 > 0)
}

/// Returns a list that a call writes, with room for `len` values.
///
/// # Safety
/// `write` writes as many values as it returns.
unsafe fn written<T>(
    len: usize,
    write: impl FnOnce(&mut [MaybeUninit<T>]) -> (CallAnswer, usize),
) -> (CallAnswer, Vec<T>) {
    let mut list = Vec::with_capacity(len);
    let (answer, count) = write(&mut list.spare_capacity_mut()[..len]);
    assert!(count <= len);
    // SAFETY: so many values were written, as the caller promises, and the list has room for them.
    unsafe { list.set_len(count) };
    (answer, list)
}

/// Returns the value of a call that is done, and 0 of another.
fn count_of(answer: CallAnswer) -> usize {
    if answer.status == DONE {
        answer.value as usize
    } else {
        0
    }
}

/// Returns the values at the set bits of the mask, in order.
///
/// # Panics
/// If the mask isn't as long as the values.
///
/// ```
/// use vortex_select::{filter, Mask};
///
/// let mask = Mask::from_bools(&[false, true, true]);
/// assert_eq!(filter(&[0.5f64, 1.5, 2.5], &mask), [1.5, 2.5]);
/// ```
pub fn filter<T: Record>(values: &[T], mask: &Mask) -> Vec<T> {
    filter_by(values, Bits::from(mask))
}

/// Returns the values at the set bits of a mask that may begin at any bit of its words, in order.
///
/// # Panics
/// If the mask isn't as long as the values.
///
/// ```
/// use vortex_select::{filter_by, Bits};
///
/// let bits = Bits::new(&[0b1101_0000], 5, 3).unwrap();
/// assert_eq!(filter_by(&[7u8, 8, 9], bits), [8, 9]);
/// ```
pub fn filter_by<T: Record>(values: &[T], mask: Bits) -> Vec<T> {
    assert_eq!(
        values.len(),
        mask.len(),
        "the mask must be as long as the values"
    );
    let count = mask.count();
    let call = |dst: &mut [_]| {
        let answer = record::filter(values, mask, dst);
        (answer, count_of(answer))
    };
    // SAFETY: a filter that is done wrote as many values as it returns.
    let (answer, kept) = unsafe { written(count, call) };
    assert_eq!(answer.status, DONE);
    kept
}

/// Keeps the values at the set bits of the mask, in order and in place.
///
/// # Panics
/// If the mask isn't as long as the values.
///
/// ```
/// use vortex_select::{filter_in_place, Mask};
///
/// let mut values = vec![1u8, 2, 3];
/// filter_in_place(&mut values, &Mask::from_bools(&[true, false, true]));
/// assert_eq!(values, [1, 3]);
/// ```
pub fn filter_in_place<T: Record>(values: &mut Vec<T>, mask: &Mask) {
    filter_in_place_by(values, Bits::from(mask))
}

/// Keeps the values at the set bits of a mask that may begin at any bit of its words, in order
/// and in place.
///
/// # Panics
/// If the mask isn't as long as the values.
///
/// ```
/// use vortex_select::{filter_in_place_by, Bits};
///
/// let mut values = vec![7u8, 8, 9];
/// filter_in_place_by(&mut values, Bits::new(&[0b1010_0000], 5, 3).unwrap());
/// assert_eq!(values, [7, 9]);
/// ```
pub fn filter_in_place_by<T: Record>(values: &mut Vec<T>, mask: Bits) {
    assert_eq!(
        values.len(),
        mask.len(),
        "the mask must be as long as the values"
    );
    let answer = record::filter_in_place(values, mask);
    assert_eq!(answer.status, DONE);
    values.truncate(answer.value as usize);
}

/// Returns the values at the indices, in order, or the first index that is out of bounds.
///
/// ```
/// use vortex_select::{take, OutOfBounds};
///
/// assert_eq!(take(&[7u16, 8, 9], &[2, 2, 0]), Ok(vec![9, 9, 7]));
/// let error = take(&[7u16, 8, 9], &[2, 3]).unwrap_err();
/// assert_eq!(error, OutOfBounds { place: 1, index: 3, len: 3 });
/// assert_eq!(error.to_string(), "index 3 at place 1, but 3 items");
/// ```
pub fn take<T: Record>(values: &[T], indices: &[u64]) -> Result<Vec<T>, OutOfBounds> {
    take_words(values, indices, &[])
}

/// Returns the values at the indices, in order, with zero at each null; or the first index that is
/// out of bounds and not null.
///
/// A clear bit of `there` is a null.
///
/// # Panics
/// If the mask isn't as long as the list of indices.
///
/// ```
/// use vortex_select::{take_valid, Mask};
///
/// let there = Mask::from_bools(&[true, false, true]);
/// assert_eq!(take_valid(&[7u16, 8, 9], &[2, 99, 0], &there), Ok(vec![9, 0, 7]));
/// ```
pub fn take_valid<T: Record>(
    values: &[T],
    indices: &[u64],
    there: &Mask,
) -> Result<Vec<T>, OutOfBounds> {
    assert_eq!(
        indices.len(),
        there.len(),
        "the mask must be as long as the indices"
    );
    take_words(values, indices, there.words())
}

fn take_words<T: Record>(
    values: &[T],
    indices: &[u64],
    valid: &[u64],
) -> Result<Vec<T>, OutOfBounds> {
    let count = indices.len();
    let call = |dst: &mut [_]| {
        let answer = record::take_front(values, indices, valid, dst);
        (answer, count_of(answer))
    };
    // SAFETY: such a take that is done wrote as many values as it returns.
    let (answer, taken) = unsafe { written(count, call) };
    assert_eq!(answer.status, DONE);
    if taken.len() < count {
        return Err(OutOfBounds::of(indices, taken.len(), values.len()));
    }
    Ok(taken)
}

/// How many indices of 32 bits are widened at a time: a multiple of 64, so that the mask of a block
/// begins with a word.
const BLOCK: usize = 4096;

/// Calls a function with blocks of indices, widened to 64 bits, and with their words of the mask.
fn in_blocks(
    indices: &[u32],
    valid: &[u64],
    mut take: impl FnMut(&[u64], &[u64]) -> Result<(), OutOfBounds>,
) -> Result<(), OutOfBounds> {
    let mut wide = [0; BLOCK];
    let mut valid = valid.chunks(BLOCK / 64);
    for (number, block) in indices.chunks(BLOCK).enumerate() {
        for (to, index) in wide.iter_mut().zip(block) {
            *to = u64::from(*index);
        }
        let there = valid.next().unwrap_or(&[]);
        take(&wide[..block.len()], there).map_err(|fault| OutOfBounds {
            place: BLOCK * number + fault.place,
            ..fault
        })?;
    }
    Ok(())
}

fn take_words_u32<T: Record>(
    values: &[T],
    indices: &[u32],
    valid: &[u64],
) -> Result<Vec<T>, OutOfBounds> {
    let mut taken = Vec::with_capacity(indices.len());
    in_blocks(indices, valid, |indices, valid| {
        taken.extend_from_slice(&take_words(values, indices, valid)?);
        Ok(())
    })?;
    Ok(taken)
}

/// [`take`] by indices of 32 bits.
///
/// ```
/// use vortex_select::{take_u32, OutOfBounds};
///
/// assert_eq!(take_u32(&[7u16, 8, 9], &[2, 2, 0]), Ok(vec![9, 9, 7]));
/// let error = OutOfBounds { place: 1, index: 3, len: 3 };
/// assert_eq!(take_u32(&[7u16, 8, 9], &[2, 3]), Err(error));
/// ```
pub fn take_u32<T: Record>(values: &[T], indices: &[u32]) -> Result<Vec<T>, OutOfBounds> {
    take_words_u32(values, indices, &[])
}

/// [`take_valid`] by indices of 32 bits.
///
/// # Panics
/// If the mask isn't as long as the list of indices.
///
/// ```
/// use vortex_select::{take_valid_u32, Mask};
///
/// let there = Mask::from_bools(&[true, false, true]);
/// assert_eq!(take_valid_u32(&[7u16, 8, 9], &[2, 99, 0], &there), Ok(vec![9, 0, 7]));
/// ```
pub fn take_valid_u32<T: Record>(
    values: &[T],
    indices: &[u32],
    there: &Mask,
) -> Result<Vec<T>, OutOfBounds> {
    assert_eq!(
        indices.len(),
        there.len(),
        "the mask must be as long as the indices"
    );
    take_words_u32(values, indices, there.words())
}

/// Writes the values at the indices to `dst`, in order. If an index is out of bounds, it writes
/// nothing and returns the first such index.
///
/// # Panics
/// If `dst` isn't as long as the list of indices.
///
/// ```
/// use vortex_select::{take_into, OutOfBounds};
///
/// let mut taken = [1u16, 2];
/// let error = OutOfBounds { place: 1, index: 3, len: 3 };
/// assert_eq!(take_into(&[7, 8, 9], &[2, 3], &mut taken), Err(error));
/// assert_eq!(taken, [1, 2]);
/// assert_eq!(take_into(&[7, 8, 9], &[2, 0], &mut taken), Ok(()));
/// assert_eq!(taken, [9, 7]);
/// ```
pub fn take_into<T: Record>(
    values: &[T],
    indices: &[u64],
    dst: &mut [T],
) -> Result<(), OutOfBounds> {
    assert_eq!(
        indices.len(),
        dst.len(),
        "dst must be as long as the indices"
    );
    // SAFETY: a take writes values.
    let room = unsafe { record::unwritten(dst) };
    let answer = record::take(values, indices, &[], room);
    match answer.status {
        DONE => Ok(()),
        INDEX => Err(OutOfBounds::of(
            indices,
            answer.value as usize,
            values.len(),
        )),
        status => unreachable!("status {status} of a take"),
    }
}
