use crate::{words_of, Mask, OutOfBounds};
use std::mem::MaybeUninit;
use vortex_select_sys::kernels::{self, DONE, INDEX};

/// Bits in borrowed words, lowest bit first, which may begin at any bit.
#[derive(Clone, Copy, Debug)]
pub struct Bits<'a> {
    words: &'a [u64],
    at: usize,
    len: usize,
}

impl<'a> Bits<'a> {
    /// Returns `len` bits from bit `at` of the words on, or `None` if the words don't hold so many.
    ///
    /// ```
    /// use vortex_select::Bits;
    ///
    /// let bits = Bits::new(&[0b1000], 3, 2).unwrap();
    /// assert_eq!((bits.get(0), bits.get(1), bits.get(2)), (Some(true), Some(false), None));
    /// assert!(Bits::new(&[0b1000], 3, 62).is_none());
    /// ```
    pub fn new(words: &'a [u64], at: usize, len: usize) -> Option<Bits<'a>> {
        let is_held = words_of(at.checked_add(len)?) <= words.len();
        is_held.then_some(Bits { words, at, len })
    }

    /// Returns the number of bits.
    pub fn len(&self) -> usize {
        self.len
    }

    /// Returns whether there is no bit.
    pub fn is_empty(&self) -> bool {
        self.len == 0
    }

    // Returns the words, how many there are, and the place of the first bit.
    pub(crate) fn parts(&self) -> (*const u64, usize, usize) {
        (self.words.as_ptr(), self.words.len(), self.at)
    }

    // Returns the bits from bit `64 * i` on, with zeros past the last one.
    fn word(&self, i: usize) -> u64 {
        let (first, shift) = (self.at / 64 + i, self.at % 64);
        let high = self
            .words
            .get(first + 1)
            .map_or(0, |word| word << 1 << (63 - shift));
        let all = self.words[first] >> shift | high;
        match self.len - 64 * i {
            left if left < 64 => all & ((1 << left) - 1),
            _ => all,
        }
    }

    // Returns how many bits are set.
    pub(crate) fn count(&self) -> usize {
        let ones = |i| self.word(i).count_ones() as usize;
        (0..words_of(self.len)).map(ones).sum()
    }

    /// Returns bit `k`, if there is one.
    pub fn get(&self, k: usize) -> Option<bool> {
        (k < self.len).then(|| {
            let place = self.at + k;
            self.words[place / 64] >> (place % 64) & 1 == 1
        })
    }
}

impl<'a> From<&'a Mask> for Bits<'a> {
    fn from(mask: &'a Mask) -> Bits<'a> {
        Bits {
            words: mask.words(),
            at: 0,
            len: mask.len(),
        }
    }
}

/// Returns the bits of `src` at the set bits of the mask, in order.
///
/// # Panics
/// If the mask isn't as long as the bits.
///
/// ```
/// use vortex_select::{filter_bits, Bits, Mask};
///
/// let src = Bits::new(&[0b1010_0000], 4, 4).unwrap();
/// let mask = Mask::from_bools(&[false, true, true, true]);
/// let kept = filter_bits(src, Bits::from(&mask));
/// assert_eq!(kept, Mask::from_bools(&[true, false, true]));
/// ```
pub fn filter_bits(src: Bits, mask: Bits) -> Mask {
    assert_eq!(src.len, mask.len, "the mask must be as long as the bits");
    let (s, m) = (src.words, mask.words);
    // There is room for each row, so that the set bits needn't be counted first.
    let room = words_of(mask.len);
    let mut count = 0;
    let call = |dst: &mut [_]| {
        let dst: &mut [MaybeUninit<u64>] = dst;
        // SAFETY: each pointer is a slice's, with its length, and `dst` is borrowed alone.
        let answer = unsafe {
            kernels::vortex_filter_bits(
                s.as_ptr(),
                s.len(),
                src.at,
                m.as_ptr(),
                m.len(),
                mask.at,
                mask.len,
                dst.as_mut_ptr().cast(),
                room,
            )
        };
        count = crate::count_of(answer);
        (answer, words_of(count))
    };
    // SAFETY: the call wrote the words of as many bits as it returns.
    let (answer, mut kept) = unsafe { crate::written(room, call) };
    assert_eq!(answer.status, DONE);
    kept.shrink_to_fit();
    Mask::of(kept, count)
}

/// Returns the bits of `src` at the indices, in order, or the first index that is out of bounds.
///
/// ```
/// use vortex_select::{take_bits, Bits, Mask, OutOfBounds};
///
/// let bits = Mask::from_bools(&[true, false, true]);
/// let taken = take_bits(Bits::from(&bits), &[2, 1, 0, 0]);
/// assert_eq!(taken, Ok(Mask::from_bools(&[true, false, true, true])));
/// let error = OutOfBounds { place: 0, index: 3, len: 3 };
/// assert_eq!(take_bits(Bits::from(&bits), &[3]), Err(error));
/// ```
pub fn take_bits(src: Bits, indices: &[u64]) -> Result<Mask, OutOfBounds> {
    take_words(src, indices, &[])
}

/// [`take_bits`] by indices of 32 bits.
///
/// ```
/// use vortex_select::{take_bits_u32, Bits, Mask};
///
/// let bits = Mask::from_bools(&[true, false, true]);
/// let taken = take_bits_u32(Bits::from(&bits), &[2, 1]);
/// assert_eq!(taken, Ok(Mask::from_bools(&[true, false])));
/// ```
pub fn take_bits_u32(src: Bits, indices: &[u32]) -> Result<Mask, OutOfBounds> {
    let mut words = Vec::with_capacity(words_of(indices.len()));
    crate::in_blocks(indices, &[], |indices, _| {
        words.extend_from_slice(take_words(src, indices, &[])?.words());
        Ok(())
    })?;
    Ok(Mask::of(words, indices.len()))
}

/// Returns the bits of `src` at the indices, in order, with a clear bit at each null; or the first
/// index that is out of bounds and not null.
///
/// A clear bit of `there` is a null.
///
/// # Panics
/// If the mask isn't as long as the list of indices.
///
/// ```
/// use vortex_select::{take_bits_valid, Bits, Mask};
///
/// let bits = Mask::from_bools(&[true, false, true]);
/// let there = Mask::from_bools(&[true, false]);
/// let taken = take_bits_valid(Bits::from(&bits), &[2, 99], &there);
/// assert_eq!(taken, Ok(Mask::from_bools(&[true, false])));
/// ```
pub fn take_bits_valid(src: Bits, indices: &[u64], there: &Mask) -> Result<Mask, OutOfBounds> {
    assert_eq!(
        indices.len(),
        there.len(),
        "the mask must be as long as the indices"
    );
    take_words(src, indices, there.words())
}

fn take_words(src: Bits, indices: &[u64], valid: &[u64]) -> Result<Mask, OutOfBounds> {
    let room = words_of(indices.len());
    let (s, n) = (src.words.as_ptr(), src.words.len());
    let (i, k, v, m) = (indices.as_ptr(), indices.len(), valid.as_ptr(), valid.len());
    let call = |dst: &mut [_]| {
        let dst: &mut [MaybeUninit<u64>] = dst;
        let d = dst.as_mut_ptr().cast();
        // SAFETY: as in `filter_bits`.
        let answer =
            unsafe { kernels::vortex_take_bits(s, n, src.at, src.len, i, k, v, m, d, room) };
        (answer, words_of(crate::count_of(answer)))
    };
    // SAFETY: a take that is done wrote the words of as many bits as it returns.
    let (answer, words) = unsafe { crate::written(room, call) };
    match answer.status {
        DONE => Ok(Mask::of(words, k)),
        INDEX => Err(OutOfBounds::of(indices, answer.value as usize, src.len)),
        status => unreachable!("status {status} of a take"),
    }
}
