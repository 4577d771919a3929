use crate::words_of;
use std::mem::MaybeUninit;
use std::ops::Range;
use vortex_select_sys::kernels::{self, Run, DONE};

/// Which rows are selected: a bit for each row, in words of 64 bits, lowest bit first.
#[derive(Clone, Debug, PartialEq, Eq)]
pub struct Mask {
    words: Vec<u64>,
    len: usize,
}

impl Mask {
    /// Makes a mask that selects the rows whose bool is true.
    pub fn from_bools(rows: &[bool]) -> Mask {
        let word = |part: &[bool]| {
            part.iter()
                .rev()
                .fold(0, |word, row| 2 * word + *row as u64)
        };
        Mask {
            words: rows.chunks(64).map(word).collect(),
            len: rows.len(),
        }
    }

    /// Makes a mask of `len` rows of words. Returns `None` if there are more or fewer words than
    /// that takes, or if a bit past the rows is set.
    pub fn from_words(words: Vec<u64>, len: usize) -> Option<Mask> {
        let is_clear = len % 64 == 0 || words.last().map_or(false, |word| word >> (len % 64) == 0);
        (words.len() == words_of(len) && is_clear).then_some(Mask { words, len })
    }

    // Makes a mask of words that the library wrote.
    pub(crate) fn of(words: Vec<u64>, len: usize) -> Mask {
        Mask { words, len }
    }

    /// Returns the number of rows.
    pub fn len(&self) -> usize {
        self.len
    }

    /// Returns whether there is no row.
    pub fn is_empty(&self) -> bool {
        self.len == 0
    }

    /// Returns the words.
    pub fn words(&self) -> &[u64] {
        &self.words
    }

    /// Returns the number of rows that are selected.
    pub fn count(&self) -> usize {
        self.words
            .iter()
            .map(|word| word.count_ones() as usize)
            .sum()
    }

    /// Returns the rows that are selected, ascending.
    ///
    /// ```
    /// use vortex_select::Mask;
    ///
    /// assert_eq!(Mask::from_bools(&[true, false, true]).positions(), [0, 2]);
    /// ```
    pub fn positions(&self) -> Vec<u64> {
        let count = self.count();
        let (words, rows) = (self.words.as_ptr(), self.len);
        let call = |dst: &mut [_]| {
            let dst: &mut [MaybeUninit<u64>] = dst;
            let d = dst.as_mut_ptr().cast();
            // SAFETY: both pointers are slices', with their lengths, and `dst` is borrowed alone.
            let answer =
                unsafe { kernels::vortex_positions(words, self.words.len(), rows, d, dst.len()) };
            (answer, crate::count_of(answer))
        };
        // SAFETY: a call that is done wrote as many positions as it returns.
        let (answer, positions) = unsafe { crate::written(count, call) };
        assert_eq!(answer.status, DONE);
        positions
    }

    /// Returns the longest runs of rows that are selected, each from its start up to its end,
    /// ascending.
    ///
    /// ```
    /// use vortex_select::Mask;
    ///
    /// assert_eq!(Mask::from_bools(&[true, false, true, true]).runs(), [0..1, 2..4]);
    /// ```
    pub fn runs(&self) -> Vec<Range<u64>> {
        let (words, m, rows) = (self.words.as_ptr(), self.words.len(), self.len);
        let call = |dst: &mut [MaybeUninit<Run>]| {
            let d = dst.as_mut_ptr().cast();
            // SAFETY: as in `positions`. A slice of no runs has an aligned pointer too.
            let answer = unsafe { kernels::vortex_runs(words, m, rows, d, dst.len()) };
            (answer, crate::count_of(answer))
        };
        let (counted, _) = call(&mut []);
        // SAFETY: a call that is done wrote as many runs as it returns.
        let (answer, runs) = unsafe { crate::written(counted.value as usize, call) };
        assert_eq!(answer.status, DONE);
        runs.into_iter().map(|run| run.start..run.end).collect()
    }

    /// Returns the `k`-th row that is selected, from 0, or `None` if there are fewer.
    ///
    /// ```
    /// use vortex_select::Mask;
    ///
    /// let mask = Mask::from_bools(&[true, false, true]);
    /// assert_eq!((mask.rank(1), mask.rank(2)), (Some(2), None));
    /// ```
    pub fn rank(&self, k: usize) -> Option<usize> {
        let (words, m) = (self.words.as_ptr(), self.words.len());
        // SAFETY: the words are a slice.
        let answer = unsafe { kernels::vortex_rank(words, m, self.len, k) };
        (answer.status == DONE).then_some(answer.value as usize)
    }

    /// Returns how many rows before row `p` are selected, or `None` if `p` is past the rows.
    ///
    /// ```
    /// use vortex_select::Mask;
    ///
    /// let mask = Mask::from_bools(&[true, false, true]);
    /// assert_eq!((mask.count_before(3), mask.count_before(4)), (Some(2), None));
    /// ```
    pub fn count_before(&self, p: usize) -> Option<usize> {
        let (words, m) = (self.words.as_ptr(), self.words.len());
        // SAFETY: the words are a slice.
        let answer = unsafe { kernels::vortex_count_before(words, m, self.len, p) };
        (answer.status == DONE).then_some(answer.value as usize)
    }
}
