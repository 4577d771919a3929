//! Which chunks picks ask for, and the picked rows of a chunk, put where they belong.
use super::error::Fault;
use crate::arrow::Picks;
use std::ops::Range;
use vortex_select_sys::chunks as sys;
use vortex_select_sys::kernels::{Answer, DONE};

/// Beyond so many chunks a pick, picks are sorted by comparison, since a counting sort goes over
/// all chunks.
const CHUNKS_A_PICK: u64 = 4;
/// So many chunks are never too many for a counting sort.
const FEW_CHUNKS: u64 = 1024;

fn done(answer: Answer) -> Result<u64, Fault> {
    match answer.status {
        DONE => Ok(answer.value),
        sys::STRAY => Err(Fault::Chunk),
        status => Err(Fault::of(status, answer.value)),
    }
}

/// Returns a list of zeros, or an error if it can't be allocated.
pub(super) fn zeros<T: Clone + Default>(len: usize) -> Result<Vec<T>, Fault> {
    let mut list = Vec::new();
    list.try_reserve_exact(len).map_err(|_| Fault::NoMemory)?;
    list.resize(len, T::default());
    Ok(list)
}

/// A chunk of a plan, which is to be read.
#[derive(Clone, Debug, PartialEq, Eq)]
pub struct Chunk {
    /// The number of the chunk.
    pub number: u64,
    /// The rows of the column that the chunk has.
    pub rows: Range<u64>,
    range: Range<usize>,
}

impl Chunk {
    /// Returns how many picks lie in the chunk.
    pub fn picks(&self) -> usize {
        self.range.len()
    }
}

/// How the end of each chunk's range of numbers is found.
#[derive(Debug)]
enum Ends {
    /// By where each chunk's range begins.
    Starts(Vec<u64>),
    /// By the places, which ascend, and of which none is null.
    Ascending,
    /// By the places of the numbers, which are sorted by chunk.
    Sorted,
}

/// Which chunks of a column are to be read for some picks, and which picks lie in each chunk.
///
/// It needs 16 bytes a pick, and 8 a chunk if there are at most four chunks a pick.
///
/// ```
/// use vortex_select::arrow::{picks, Step};
/// use vortex_select::chunks::Plan;
///
/// // Ten rows of a byte in chunks of four. Row k is 100 + k.
/// let picks = picks(10, &[Step::take(&[9, 1, 9])]).unwrap();
/// let plan = Plan::new(10, 4, picks)?;
/// let mut out = vec![0; 3];
/// for chunk in plan.chunks() {
///     let rows: Vec<u8> = chunk.rows.clone().map(|row| 100 + row as u8).collect();
///     plan.scatter(&chunk, &rows, 1, &mut out)?;
/// }
/// assert_eq!(out, [109, 101, 109]);
/// # Ok::<(), vortex_select::chunks::Fault>(())
/// ```
#[derive(Debug)]
pub struct Plan {
    len: u64,
    chunk_len: u64,
    picks: Picks,
    order: Vec<u64>,
    ends: Ends,
}

impl Plan {
    /// Plans which chunks are to be read for picks of `len` rows in chunks of `chunk_len` rows.
    ///
    /// The time grows with the picks and the chunks. It is that of a sort of the picks if there are
    /// many more chunks than picks, and that of one pass if the picks ascend and none is null.
    ///
    /// # Errors
    /// `ChunkLen`, `Valid` and `Place`, the first that applies, and `NoMemory`.
    pub fn new(len: u64, chunk_len: u64, mut picks: Picks) -> Result<Plan, Fault> {
        // SAFETY: the call has numbers alone.
        let chunks = done(unsafe { sys::vortex_chunks_count(len, chunk_len) })?;
        let count = picks.places.len();
        if valid_of(&picks).len() < (count + 7) / 8 && picks.valid.is_some() {
            return Err(Fault::Valid);
        }
        picks.valid = picks.valid.filter(|valid| has_null(valid, count));
        let mut plan = Plan {
            len,
            chunk_len,
            picks,
            order: zeros(count)?,
            ends: Ends::Ascending,
        };
        if plan.ascends() {
            plan.number()?;
        } else if chunks / CHUNKS_A_PICK <= count as u64 || chunks <= FEW_CHUNKS {
            plan.count(chunks as usize)?;
        } else {
            plan.sort()?;
        }
        Ok(plan)
    }

    fn ascends(&self) -> bool {
        let places = &self.picks.places;
        self.picks.valid.is_none() && places.windows(2).all(|two| two[0] <= two[1])
    }

    /// Writes the number of each pick in order.
    fn number(&mut self) -> Result<(), Fault> {
        for (to, number) in self.order.iter_mut().zip(0..) {
            *to = number;
        }
        let is_beyond = |j: &usize| !self.is_null(*j) && self.picks.places[*j] >= self.len;
        match (0..self.order.len()).find(is_beyond) {
            Some(pick) => Err(Fault::Place { pick }),
            None => Ok(()),
        }
    }

    /// Sorts the picks by counting them chunk by chunk.
    fn count(&mut self, chunks: usize) -> Result<(), Fault> {
        let mut starts: Vec<u64> = zeros(chunks + 1)?;
        let (places, valid) = (&self.picks.places, valid_of(&self.picks));
        // SAFETY: all lists are as long as is said, and those that are written overlap no other
        // list.
        done(unsafe {
            sys::vortex_chunks_plan(
                places.as_ptr(),
                places.len(),
                valid.as_ptr(),
                valid.len(),
                self.len,
                self.chunk_len,
                starts.as_mut_ptr(),
                starts.len(),
                self.order.as_mut_ptr(),
                self.order.len(),
            )
        })?;
        self.ends = Ends::Starts(starts);
        Ok(())
    }

    /// Sorts the picks by comparison, nulls last.
    fn sort(&mut self) -> Result<(), Fault> {
        self.number()?;
        let mut order = std::mem::take(&mut self.order);
        order.sort_unstable_by_key(|j| (self.chunk_of(*j as usize).unwrap_or(u64::MAX), *j));
        self.order = order;
        self.ends = Ends::Sorted;
        Ok(())
    }

    fn is_null(&self, j: usize) -> bool {
        let valid = valid_of(&self.picks);
        !valid.is_empty() && valid[j / 8] >> (j % 8) & 1 == 0
    }

    /// Returns the chunk of a pick, or `None` at a null.
    fn chunk_of(&self, j: usize) -> Option<u64> {
        (!self.is_null(j)).then(|| self.picks.places[j] / self.chunk_len)
    }

    /// Returns how many picks there are, nulls included.
    pub fn picks(&self) -> usize {
        self.order.len()
    }

    /// Returns the chunks that are to be read, each once, ascending.
    pub fn chunks(&self) -> impl Iterator<Item = Chunk> + Send + '_ {
        Chunks {
            plan: self,
            at: 0,
            next: 0,
        }
    }

    /// Writes the picked rows of a chunk where they belong in `out`. All other bytes of `out` stay
    /// as they are.
    ///
    /// `bytes` has the chunk's rows of `width` bytes each, or the rows of a whole chunk if the last
    /// one has fewer. When each chunk of the plan is scattered, in any order, and the nulls are
    /// filled, `out` has the rows at the picks.
    ///
    /// # Errors
    /// `Width`, `Bytes`, `Output`, and `Chunk` for a chunk of another plan. Nothing is then written
    /// to `out`.
    pub fn scatter(
        &self,
        chunk: &Chunk,
        bytes: &[u8],
        width: usize,
        out: &mut [u8],
    ) -> Result<(), Fault> {
        // SAFETY: the output is borrowed alone.
        unsafe { self.scatter_at(chunk, bytes, width, out.as_mut_ptr(), out.len()) }
    }

    /// Does what `scatter` does, while other threads may scatter other chunks into the output.
    ///
    /// # Safety
    /// `out` leads to `len` bytes. No other thread touches the rows of this chunk's picks there.
    pub(super) unsafe fn scatter_at(
        &self,
        chunk: &Chunk,
        bytes: &[u8],
        width: usize,
        out: *mut u8,
        len: usize,
    ) -> Result<(), Fault> {
        let numbers = self.order.get(chunk.range.clone()).ok_or(Fault::Chunk)?;
        let places = &self.picks.places;
        // SAFETY: each list is as long as is said, and `out` overlaps none of them. The call
        // touches only those rows of `out` whose numbers are in `numbers`.
        let answer = unsafe {
            sys::vortex_chunks_scatter(
                bytes.as_ptr(),
                bytes.len(),
                chunk.number,
                self.len,
                self.chunk_len,
                width as u64,
                places.as_ptr(),
                places.len(),
                numbers.as_ptr(),
                numbers.len(),
                out,
                len,
            )
        };
        done(answer).map(drop)
    }

    /// Writes zeros to the row of each null. All other bytes of `out` stay as they are.
    ///
    /// # Errors
    /// `Width` and `Output`. Nothing is written then.
    pub fn fill_nulls(&self, width: usize, out: &mut [u8]) -> Result<(), Fault> {
        let valid = valid_of(&self.picks);
        let (place, len) = (out.as_mut_ptr(), out.len());
        // SAFETY: both lists are as long as is said, and `out` is borrowed alone.
        done(unsafe {
            sys::vortex_chunks_fill_nulls(
                valid.as_ptr(),
                valid.len(),
                self.picks(),
                width as u64,
                place,
                len,
            )
        })
        .map(drop)
    }

    /// Returns the first row of the output for a chunk whose picks are all of its rows, in order
    /// and side by side.
    pub(super) fn whole(&self, chunk: &Chunk) -> Option<usize> {
        let numbers = &self.order[chunk.range.clone()];
        let count = chunk.rows.end - chunk.rows.start;
        let first = *numbers.first()? as usize;
        let follows = |(number, i): (&u64, u64)| {
            let j = *number as usize;
            j == first + i as usize && self.picks.places[j] == chunk.rows.start + i
        };
        let is_whole = numbers.len() as u64 == count && numbers.iter().zip(0..).all(follows);
        is_whole.then_some(first)
    }

    /// Returns the bits of validity, which are dropped if no pick is null.
    pub(super) fn into_valid(self) -> Option<Vec<u8>> {
        self.picks.valid
    }
}

fn valid_of(picks: &Picks) -> &[u8] {
    picks.valid.as_deref().unwrap_or(&[])
}

fn has_null(valid: &[u8], count: usize) -> bool {
    let (whole, rest) = (count / 8, count % 8);
    let last = (1 << rest) - 1;
    valid[..whole].iter().any(|byte| *byte != 0xff) || (rest > 0 && valid[whole] & last != last)
}

/// The chunks of a plan that are left.
struct Chunks<'a> {
    plan: &'a Plan,
    at: usize,
    next: u64,
}

impl Chunks<'_> {
    fn by_starts(&mut self, starts: &[u64]) -> Option<(u64, Range<usize>)> {
        let is_told = |k: &usize| starts[*k] < starts[*k + 1];
        let k = (self.next as usize..starts.len() - 1).find(is_told)?;
        self.next = k as u64 + 1;
        Some((k as u64, starts[k] as usize..starts[k + 1] as usize))
    }

    fn by_places(&mut self) -> Option<(u64, Range<usize>)> {
        let (places, from) = (&self.plan.picks.places, self.at);
        let number = places.get(from)? / self.plan.chunk_len;
        // SAFETY: the list is as long as is said.
        let answer = unsafe {
            sys::vortex_chunks_next_run(places.as_ptr(), places.len(), self.plan.chunk_len, from)
        };
        self.at = answer.value as usize;
        Some((number, from..self.at))
    }

    fn by_order(&mut self) -> Option<(u64, Range<usize>)> {
        let (plan, from) = (self.plan, self.at);
        let of = |j: &u64| plan.chunk_of(*j as usize);
        let number = plan.order.get(from).and_then(of)?;
        let is_own = |j: &&u64| of(j) == Some(number);
        self.at = from + plan.order[from..].iter().take_while(is_own).count();
        Some((number, from..self.at))
    }
}

impl Iterator for Chunks<'_> {
    type Item = Chunk;

    fn next(&mut self) -> Option<Chunk> {
        let plan = self.plan;
        let (number, range) = match &plan.ends {
            Ends::Starts(starts) => self.by_starts(starts)?,
            Ends::Ascending => self.by_places()?,
            Ends::Sorted => self.by_order()?,
        };
        let start = number * plan.chunk_len;
        let end = start + plan.chunk_len.min(plan.len - start);
        Some(Chunk {
            number,
            rows: start..end,
            range,
        })
    }
}
