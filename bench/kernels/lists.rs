//! The plans of lists in plain Rust, each by the steps of the crate's scalar code, and written anew.
use crate::plain::{Mask, NULL, SetBits, bit_there, set_runs};

/// The density below which set positions are walked one by one.
const INDICES_BELOW: f64 = 0.05;

/// The fewest elements outside the selected lists, and the part of all that they are, for a crop.
const CROP_MIN: usize = 1024;
const CROP_FACTOR: usize = 20;

/// Bits that grow, in bytes.
struct Bits {
    bytes: Vec<u8>,
    len: usize,
}

impl Bits {
    fn with_capacity(len: usize) -> Bits {
        Bits { bytes: Vec::with_capacity(len.div_ceil(8)), len: 0 }
    }

    fn append_n(&mut self, value: bool, n: usize) {
        if n == 0 {
            return;
        }
        let (start, end) = (self.len, self.len + n);
        self.bytes.resize(end.div_ceil(8), 0);
        self.len = end;
        if value {
            fill(&mut self.bytes, start, end);
        }
    }

    fn count(&self) -> usize {
        let words = self.bytes.chunks_exact(8);
        let rest = words.remainder().iter().map(|byte| byte.count_ones() as usize).sum::<usize>();
        let word = |chunk: &[u8]| u64::from_le_bytes(chunk.try_into().expect("eight bytes"));
        words.map(|chunk| word(chunk).count_ones() as usize).sum::<usize>() + rest
    }
}

/// Sets the bits from `start` up to `end`.
#[inline]
fn fill(bytes: &mut [u8], start: usize, end: usize) {
    let (first, last) = (start / 8, end / 8);
    let low = 0xff << (start % 8);
    let high = !(0xff << (end % 8));
    if first == last {
        bytes[first] |= low & high;
        return;
    }
    bytes[first] |= low;
    bytes[first + 1..last].fill(0xff);
    if end % 8 != 0 {
        bytes[last] |= high;
    }
}

/// The bits of a mask, and how many are set.
#[allow(dead_code)]
pub struct Elements {
    pub bytes: Vec<u8>,
    pub count: usize,
}

fn mark(bits: &mut Bits, low: usize, high: usize) {
    if high > low {
        if low > bits.len {
            bits.append_n(false, low - bits.len);
        }
        bits.append_n(true, high - low);
    }
}

/// The mask of the elements of selected lists, by the indices that are handed in, or by runs.
fn marked(offsets: &[u64], mask: &Mask, indices: Option<&[usize]>, range: (usize, usize)) -> Elements {
    let len = range.1 - range.0;
    let mut bits = Bits::with_capacity(len);
    let at = |i: usize| offsets[i] as usize - range.0;
    match indices {
        Some(indices) => indices.iter().for_each(|i| mark(&mut bits, at(*i), at(*i + 1))),
        None => set_runs(&mask.words).iter().for_each(|run| mark(&mut bits, at(run.0), at(run.1))),
    }
    bits.append_n(false, len - bits.len);
    Elements { count: bits.count(), bytes: bits.bytes }
}

fn is_sparse(mask: &Mask) -> bool {
    (mask.count as f64) < INDICES_BELOW * mask.len as f64
}

#[inline(never)]
pub fn element_mask(offsets: &[u64], mask: &Mask) -> Elements {
    let range = (offsets[0] as usize, offsets[mask.len] as usize);
    let indices: Option<Vec<usize>> = is_sparse(mask).then(|| SetBits::new(&mask.words).collect());
    marked(offsets, mask, indices.as_deref(), range)
}

/// What a filter leaves.
pub struct Filtered {
    pub offsets: Vec<u64>,
    pub range: (usize, usize),
    pub elements: Elements,
}

fn cropped(offsets: &[u64], len: usize, indices: &[usize]) -> (usize, usize) {
    let all = (offsets[0] as usize, offsets[len] as usize);
    let part = (offsets[indices[0]] as usize, offsets[indices[indices.len() - 1] + 1] as usize);
    let outside = (all.1 - all.0) - (part.1 - part.0);
    let is_cut = outside >= CROP_MIN && outside.saturating_mul(CROP_FACTOR) >= all.1 - all.0;
    if is_cut { part } else { all }
}

#[inline(never)]
pub fn filter(offsets: &[u64], mask: &Mask) -> Filtered {
    let mut indices = Vec::with_capacity(mask.count);
    indices.extend(SetBits::new(&mask.words));
    let mut sums = Vec::with_capacity(mask.count + 1);
    let mut sum = 0;
    sums.push(sum);
    for (to, i) in sums.spare_capacity_mut().iter_mut().zip(&indices) {
        sum += offsets[i + 1] - offsets[*i];
        to.write(sum);
    }
    // SAFETY: as many were written.
    unsafe { sums.set_len(mask.count + 1) };
    let range = cropped(offsets, mask.len, &indices);
    let elements = marked(offsets, mask, is_sparse(mask).then_some(&indices), range);
    Filtered { offsets: sums, range, elements }
}

/// What a take leaves.
pub struct Taken {
    pub offsets: Vec<u64>,
    pub starts: Vec<u64>,
    pub lengths: Vec<u64>,
}

/// Takes the lists at picks, empty where a bit is clear; where there are no bits, each pick is
/// there.
#[inline(never)]
pub fn take(offsets: &[u64], picks: &[usize], valid: Option<&[u8]>) -> Taken {
    let mut taken = Taken {
        offsets: Vec::with_capacity(picks.len() + 1),
        starts: Vec::with_capacity(picks.len()),
        lengths: Vec::with_capacity(picks.len()),
    };
    let mut sum = 0usize;
    taken.offsets.push(0);
    match valid {
        None => picks.iter().for_each(|pick| push(&mut taken, offsets, *pick, true, &mut sum)),
        Some(bytes) => picks.iter().enumerate().for_each(|(k, pick)| {
            push(&mut taken, offsets, *pick, bit_there(bytes, k), &mut sum);
        }),
    }
    taken
}

#[inline(always)]
fn push(taken: &mut Taken, offsets: &[u64], pick: usize, is_there: bool, sum: &mut usize) {
    let (start, length) = if is_there && pick != NULL {
        (offsets[pick] as usize, (offsets[pick + 1] - offsets[pick]) as usize)
    } else {
        (0, 0)
    };
    *sum = sum.checked_add(length).expect("a sum that fits");
    taken.offsets.push(*sum as u64);
    taken.starts.push(start as u64);
    taken.lengths.push(length as u64);
}
