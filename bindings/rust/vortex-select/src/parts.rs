//! A column cut into parts, by numbers alone: what slices, masks and picks of the whole are of each
//! part.
//!
//! ```
//! use vortex_select::parts::{bounds, cut_picks, Error, NULL};
//!
//! let bounds = bounds(&[2, 3])?;
//! assert_eq!(bounds, [0, 2, 5]);
//! let cut = cut_picks(&[4, NULL, 0], &bounds)?;
//! assert_eq!((cut.own, cut.ends), (vec![0, 2], vec![1, 2]));
//! assert_eq!((cut.parts, cut.rows), (vec![1, NULL, 0], vec![0, NULL, 0]));
//! # Ok::<(), Error>(())
//! ```
use crate::Bits;
use std::fmt;
use vortex_select_sys::kernels::{Answer, DONE, INDEX, LENGTHS};
use vortex_select_sys::parts as sys;

pub use vortex_select_sys::parts::NULL;

/// Why a cut fails.
#[derive(Clone, Copy, Debug, PartialEq, Eq)]
pub enum Error {
    /// A mask doesn't have as many bits as the parts have rows.
    Lengths,
    /// A slice begins past its end, or ends past the rows.
    Range,
    /// The bounds don't begin at 0 and ascend.
    Bounds,
    /// The parts have more rows than 64 bits count.
    TooMany,
    /// A pick is past the rows.
    OutOfBounds {
        /// Which pick it is.
        place: usize,
    },
}

impl fmt::Display for Error {
    fn fmt(&self, f: &mut fmt::Formatter<'_>) -> fmt::Result {
        match self {
            Error::Lengths => f.write_str("expected a bit for each row of the parts, got others"),
            Error::Range => f.write_str("expected a slice within the rows, got one that isn't"),
            Error::Bounds => f.write_str("expected bounds that ascend from 0, got others"),
            Error::TooMany => f.write_str("expected fewer than 2^64 rows, got more"),
            Error::OutOfBounds { place } => {
                write!(
                    f,
                    "pick {place}: expected a row of the parts, got one past them"
                )
            }
        }
    }
}

impl std::error::Error for Error {}

fn done(answer: Answer) -> Result<u64, Error> {
    match answer.status {
        DONE => Ok(answer.value),
        LENGTHS => Err(Error::Lengths),
        INDEX => Err(Error::OutOfBounds {
            place: answer.value as usize,
        }),
        sys::RANGE => Err(Error::Range),
        sys::BOUNDS => Err(Error::Bounds),
        sys::TOO_MANY => Err(Error::TooMany),
        status => unreachable!("status {status} of a cut"),
    }
}

/// Returns where each part begins, and where the last one ends.
pub fn bounds(lengths: &[usize]) -> Result<Vec<usize>, Error> {
    let mut bounds = vec![0; lengths.len() + 1];
    let (b, n) = (bounds.as_mut_ptr(), bounds.len());
    // SAFETY: both lists are as long as is said, and `bounds` is written alone.
    done(unsafe { sys::vortex_cut_bounds(lengths.as_ptr(), lengths.len(), b, n) })?;
    Ok(bounds)
}

/// A slice of the whole, cut into a slice of each part.
#[derive(Clone, Debug, PartialEq, Eq)]
pub struct Slices {
    /// The first row that each part keeps.
    pub starts: Vec<usize>,
    /// The row after the last one that each part keeps.
    pub ends: Vec<usize>,
    /// How many rows each part keeps.
    pub left: Vec<usize>,
}

/// Cuts the rows from `start` up to `end` of the whole into slices of parts of these lengths.
///
/// ```
/// let slices = vortex_select::parts::cut_slice(&[2, 3], 1, 4)?;
/// assert_eq!((slices.starts, slices.ends, slices.left), (vec![1, 0], vec![2, 2], vec![1, 2]));
/// # Ok::<(), vortex_select::parts::Error>(())
/// ```
pub fn cut_slice(lengths: &[usize], start: usize, end: usize) -> Result<Slices, Error> {
    let n = lengths.len();
    let (mut starts, mut ends, mut left) = (vec![0; n], vec![0; n], vec![0; n]);
    let (s, e, l) = (starts.as_mut_ptr(), ends.as_mut_ptr(), left.as_mut_ptr());
    // SAFETY: all lists are as long as is said, and those that are written overlap no other list.
    done(unsafe { sys::vortex_cut_slice(lengths.as_ptr(), n, start, end, s, n, e, n, l, n) })?;
    Ok(Slices { starts, ends, left })
}

/// Returns how many rows a mask of the whole keeps of each part.
///
/// ```
/// use vortex_select::{parts::cut_mask, Bits, Mask};
///
/// let mask = Mask::from_bools(&[true, false, true, true, false]);
/// assert_eq!(cut_mask(Bits::from(&mask), &[2, 3]), Ok(vec![1, 2]));
/// ```
pub fn cut_mask(mask: Bits, lengths: &[usize]) -> Result<Vec<usize>, Error> {
    let mut left = vec![0; lengths.len()];
    let is_held = |length: usize| length == mask.len();
    if !bounds(lengths)?.last().copied().map_or(false, is_held) {
        return Err(Error::Lengths);
    }
    let (words, n_words, at) = mask.parts();
    let (p, n) = (lengths.as_ptr(), lengths.len());
    let l = left.as_mut_ptr();
    // SAFETY: all lists are as long as is said, and `left` is written alone.
    done(unsafe { sys::vortex_cut_mask(words, n_words, at, p, n, l, n) })?;
    Ok(left)
}

/// Picks of the whole, cut into picks of each part.
#[derive(Clone, Debug, PartialEq, Eq)]
pub struct CutPicks {
    /// The picks of each part, counted from its first row, one part behind the other.
    pub own: Vec<usize>,
    /// Where the picks of each part end in `own`.
    pub ends: Vec<usize>,
    /// The part of each pick of the whole, `NULL` at a null.
    pub parts: Vec<u64>,
    /// Which of that part's picks it is, `NULL` at a null.
    pub rows: Vec<u64>,
}

/// Cuts picks of the whole into picks of parts with these bounds. A pick is a row or `NULL`.
pub fn cut_picks(places: &[u64], bounds: &[usize]) -> Result<CutPicks, Error> {
    let (n, parts_len) = (
        places.len(),
        bounds.len().checked_sub(1).ok_or(Error::Bounds)?,
    );
    let (mut own, mut ends) = (vec![0; n], vec![0; parts_len]);
    let (mut parts, mut rows) = (vec![0; n], vec![0; n]);
    let (o, e) = (own.as_mut_ptr(), ends.as_mut_ptr());
    let (p, r) = (parts.as_mut_ptr(), rows.as_mut_ptr());
    let (from, b, m) = (places.as_ptr(), bounds.as_ptr(), bounds.len());
    // SAFETY: all lists are as long as is said, and those that are written overlap no other list.
    done(unsafe { sys::vortex_cut_picks(from, n, b, m, o, n, e, parts_len, p, n, r, n) })?;
    own.truncate(ends.last().copied().unwrap_or(0));
    Ok(CutPicks {
        own,
        ends,
        parts,
        rows,
    })
}
