//! Sources, and their rows that steps leave.
use super::error::{Error, Fault};
use super::plan::{zeros, Chunk, Plan};
use crate::arrow::{picks, Step};
use std::ops::Range;
use std::sync::{Mutex, MutexGuard, PoisonError};
use std::thread;
use vortex_select_sys::chunks::MAX_WIDTH;

/// A column whose rows have a fixed width and are read chunk by chunk.
pub trait Source {
    /// Why a chunk can't be read.
    type Error;

    /// Returns how many rows the column has.
    fn rows(&self) -> u64;

    /// Returns how many rows a chunk has. The last chunk may have fewer.
    fn chunk_len(&self) -> u64;

    /// Returns how many bytes a row has: 1 to 2^20.
    fn width(&self) -> usize;

    /// Reads chunk `k`, and writes all of its rows to `rows`, which has their bytes exactly.
    ///
    /// # Errors
    /// The chunk can't be read. The caller gets this error and the chunk's number.
    fn read(&self, k: u64, rows: &mut [u8]) -> Result<(), Self::Error>;
}

/// Rows of a fixed width.
#[derive(Clone, Debug, PartialEq, Eq)]
pub struct Rows {
    /// How many rows there are.
    pub len: usize,
    /// Their bytes, zeros at a null.
    pub bytes: Vec<u8>,
    /// A bit for each row, clear at a null; `None` if no row is null.
    pub valid: Option<Vec<u8>>,
}

/// Returns the rows that the steps leave of a source.
///
/// `read` is called once for each chunk that has a row which is left, in ascending order, and for
/// no other chunk. If a chunk is left whole and in order, it is read right into its place, and is
/// copied from a buffer otherwise.
///
/// # Errors
/// An invalid step, before anything is read; the source's own error, with the chunk's number; a
/// source that changes its length; `Fault::Width`, `Fault::ChunkLen` and `Fault::NoMemory`.
pub fn select_chunks<S: Source>(source: &S, steps: &[Step]) -> Result<Rows, Error<S::Error>> {
    let shape = Shape::of(source)?;
    let selection = Selection::of(shape, steps)?;
    let mut bytes = selection.output(shape)?;
    let work = Work::new(source, shape, &selection, &mut bytes);
    let mut buffer = Vec::new();
    for job in selection.jobs(shape) {
        work.do_job(&job, &mut buffer)?;
    }
    selection.rows(bytes, shape)
}

/// Does what [`select_chunks`] does, by as many threads as are asked for. Each has a buffer of a
/// chunk. Chunks are handed to them in ascending order.
///
/// # Errors
/// Those of [`select_chunks`]. If several chunks can't be read, it is the error of the first of
/// them that was handed out.
pub fn select_chunks_by_threads<S>(
    source: &S,
    steps: &[Step],
    threads: usize,
) -> Result<Rows, Error<S::Error>>
where
    S: Source + Sync,
    S::Error: Send,
{
    let shape = Shape::of(source)?;
    let selection = Selection::of(shape, steps)?;
    let mut bytes = selection.output(shape)?;
    let work = Work::new(source, shape, &selection, &mut bytes);
    by_threads(
        &work,
        selection.jobs(shape),
        threads.clamp(1, selection.len().max(1)),
    )?;
    selection.rows(bytes, shape)
}

fn by_threads<S>(
    work: &Work<'_, S>,
    jobs: impl Iterator<Item = Job> + Send,
    threads: usize,
) -> Result<(), Error<S::Error>>
where
    S: Source + Sync,
    S::Error: Send,
{
    let (jobs, failed) = (Mutex::new(jobs.enumerate()), Mutex::new(None));
    thread::scope(|scope| {
        for _ in 0..threads {
            scope.spawn(|| work.do_jobs(&jobs, &failed));
        }
    });
    let failed = failed.into_inner().unwrap_or_else(PoisonError::into_inner);
    failed.map_or(Ok(()), |(_, error)| Err(error))
}

/// How many rows a source and a chunk have, and how many bytes a row.
#[derive(Clone, Copy)]
struct Shape {
    len: u64,
    chunk_len: u64,
    width: usize,
}

impl Shape {
    /// Asks a source, once.
    fn of<S: Source>(source: &S) -> Result<Shape, Fault> {
        let shape = Shape {
            len: source.rows(),
            chunk_len: source.chunk_len(),
            width: source.width(),
        };
        if shape.width == 0 || shape.width as u64 > MAX_WIDTH {
            return Err(Fault::Width);
        }
        if shape.chunk_len == 0 {
            return Err(Fault::ChunkLen);
        }
        Ok(shape)
    }
}

/// The rows that steps leave.
enum Selection {
    Slice(Range<u64>),
    Picks(Plan),
}

/// What is done with a chunk.
struct Job {
    number: u64,
    rows: Range<u64>,
    to: Target,
}

/// Where a chunk's rows go.
enum Target {
    /// All of them to the rows of the output from this one on.
    Whole(usize),
    /// Some that are side by side to those from this one on.
    Slice(Range<u64>, usize),
    /// The picked ones to where the plan says.
    Picks(Chunk),
}

/// Returns the rows that slices leave, or `None` if a step is no slice, or isn't valid.
fn sliced(len: u64, steps: &[Step]) -> Option<Range<u64>> {
    let mut left = 0..len;
    for step in steps {
        let (start, end) = step.bounds()?;
        if start > end || end > left.end - left.start {
            return None;
        }
        left = left.start + start..left.start + end;
    }
    Some(left)
}

impl Selection {
    fn of<E>(shape: Shape, steps: &[Step]) -> Result<Selection, Error<E>> {
        let (len, chunk_len) = (shape.len, shape.chunk_len);
        match sliced(len, steps) {
            Some(rows) => Ok(Selection::Slice(rows)),
            None => Ok(Selection::Picks(Plan::new(
                len,
                chunk_len,
                picks(len, steps)?,
            )?)),
        }
    }

    /// Returns an output with room for the rows.
    fn output(&self, shape: Shape) -> Result<Vec<u8>, Fault> {
        zeros(self.len().checked_mul(shape.width).ok_or(Fault::NoMemory)?)
    }

    fn len(&self) -> usize {
        match self {
            Selection::Slice(rows) => (rows.end - rows.start) as usize,
            Selection::Picks(plan) => plan.picks(),
        }
    }

    /// Returns what is done with each chunk that is read.
    fn jobs(&self, shape: Shape) -> Box<dyn Iterator<Item = Job> + Send + '_> {
        match self {
            Selection::Slice(rows) if rows.is_empty() => Box::new(std::iter::empty()),
            Selection::Slice(rows) => {
                let chunks = rows.start / shape.chunk_len..=(rows.end - 1) / shape.chunk_len;
                Box::new(chunks.map(move |k| slice_job(rows, k, shape)))
            }
            Selection::Picks(plan) => Box::new(plan.chunks().map(|chunk| {
                Job {
                    number: chunk.number,
                    rows: chunk.rows.clone(),
                    to: plan
                        .whole(&chunk)
                        .map_or(Target::Picks(chunk), Target::Whole),
                }
            })),
        }
    }

    /// Returns the rows, whose output is written but for nulls.
    fn rows<E>(self, mut bytes: Vec<u8>, shape: Shape) -> Result<Rows, Error<E>> {
        let len = self.len();
        let valid = match self {
            Selection::Slice(_) => None,
            Selection::Picks(plan) => {
                plan.fill_nulls(shape.width, &mut bytes)?;
                plan.into_valid()
            }
        };
        Ok(Rows { len, bytes, valid })
    }
}

/// Returns what is done with chunk `k`, of which a slice has some rows.
fn slice_job(slice: &Range<u64>, k: u64, shape: Shape) -> Job {
    let first = k * shape.chunk_len;
    let rows = first..first + shape.chunk_len.min(shape.len - first);
    let kept = rows.start.max(slice.start)..rows.end.min(slice.end);
    let at = (kept.start - slice.start) as usize;
    let to = if kept == rows {
        Target::Whole(at)
    } else {
        Target::Slice(kept, at)
    };
    Job {
        number: k,
        rows,
        to,
    }
}

/// The bytes of the output, which several threads write.
struct Output {
    place: *mut u8,
    len: usize,
}

// SAFETY: each thread touches only rows of the chunks that were handed to it, and two chunks have
// no row of the output in common.
unsafe impl Sync for Output {}

impl Output {
    /// Returns bytes of the output.
    ///
    /// # Safety
    /// Nothing else has them until the result is dropped.
    #[allow(clippy::mut_from_ref)] // the bytes are the caller's alone, as it promises
    unsafe fn bytes(&self, range: Range<usize>) -> &mut [u8] {
        assert!(range.start <= range.end && range.end <= self.len);
        // SAFETY: the output has these bytes, which are the caller's alone.
        unsafe { std::slice::from_raw_parts_mut(self.place.add(range.start), range.len()) }
    }
}

/// A source, the rows that are selected, and the output.
struct Work<'a, S> {
    source: &'a S,
    selection: &'a Selection,
    out: Output,
    len: u64,
    width: usize,
}

fn locked<T>(mutex: &Mutex<T>) -> MutexGuard<'_, T> {
    mutex.lock().unwrap_or_else(PoisonError::into_inner)
}

type Failure<E> = Mutex<Option<(usize, Error<E>)>>;

impl<'a, S: Source> Work<'a, S> {
    fn new(source: &'a S, shape: Shape, selection: &'a Selection, out: &'a mut [u8]) -> Self {
        Work {
            source,
            selection,
            out: Output {
                place: out.as_mut_ptr(),
                len: out.len(),
            },
            len: shape.len,
            width: shape.width,
        }
    }

    /// Does one job after another, until none is left or one has failed.
    fn do_jobs(
        &self,
        jobs: &Mutex<impl Iterator<Item = (usize, Job)>>,
        failed: &Failure<S::Error>,
    ) {
        let mut buffer = Vec::new();
        let next = || locked(failed).is_none().then(|| locked(jobs).next())?;
        while let Some((turn, job)) = next() {
            if let Err(error) = self.do_job(&job, &mut buffer) {
                let mut failed = locked(failed);
                if failed.as_ref().map_or(true, |(first, _)| turn < *first) {
                    *failed = Some((turn, error));
                }
            }
        }
    }

    /// Reads a chunk, and puts its rows where they belong.
    fn do_job(&self, job: &Job, buffer: &mut Vec<u8>) -> Result<(), Error<S::Error>> {
        let count = (job.rows.end - job.rows.start) as usize;
        if let Target::Whole(at) = job.to {
            // SAFETY: these rows of the output are this chunk's alone.
            let rows = unsafe { self.out.bytes(at * self.width..(at + count) * self.width) };
            return self.read(job.number, rows);
        }
        let size = count.checked_mul(self.width).ok_or(Fault::NoMemory)?;
        if buffer.len() != size {
            *buffer = Vec::new();
            *buffer = zeros(size)?;
        }
        self.read(job.number, buffer)?;
        match &job.to {
            Target::Slice(kept, at) => self.copy(job, kept, *at, buffer),
            Target::Picks(chunk) => self.scatter(chunk, buffer)?,
            Target::Whole(_) => (),
        }
        Ok(())
    }

    fn read(&self, k: u64, rows: &mut [u8]) -> Result<(), Error<S::Error>> {
        let read = self.source.read(k, rows);
        read.map_err(|error| Error::Read { chunk: k, error })?;
        let found = self.source.rows();
        if found != self.len {
            return Err(Error::Changed {
                expected: self.len,
                found,
            });
        }
        Ok(())
    }

    /// Copies rows that are side by side.
    fn copy(&self, job: &Job, kept: &Range<u64>, at: usize, rows: &[u8]) {
        let (start, end) = (kept.start - job.rows.start, kept.end - job.rows.start);
        let from = &rows[start as usize * self.width..end as usize * self.width];
        let to = at * self.width;
        // SAFETY: these rows of the output are this chunk's alone.
        unsafe { self.out.bytes(to..to + from.len()) }.copy_from_slice(from);
    }

    fn scatter(&self, chunk: &Chunk, rows: &[u8]) -> Result<(), Fault> {
        match self.selection {
            Selection::Slice(_) => Err(Fault::Chunk),
            // SAFETY: the output has so many bytes, and the rows of this chunk's picks are its
            // alone.
            Selection::Picks(plan) => unsafe {
                plan.scatter_at(chunk, rows, self.width, self.out.place, self.out.len)
            },
        }
    }
}
