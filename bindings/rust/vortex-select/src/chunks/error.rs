//! Why a call over chunks fails.
use crate::arrow;
use std::fmt;
use vortex_select_sys::chunks as sys;

/// Why a plan can't be made, or a chunk's rows can't be put where they belong.
#[derive(Clone, Copy, Debug, PartialEq, Eq)]
pub enum Fault {
    /// A row has no bytes, or more than 2^20.
    Width,
    /// Chunks have no rows.
    ChunkLen,
    /// There are bits of validity, and fewer than picks.
    Valid,
    /// A pick is past the rows.
    Place {
        /// The number of the first such pick.
        pick: usize,
    },
    /// The plan doesn't read this chunk.
    Chunk,
    /// The bytes are neither those of the chunk's rows nor those of a whole chunk.
    Bytes,
    /// The output has no room for a row a pick.
    Output,
    /// An allocation failed.
    NoMemory,
}

impl Fault {
    /// Returns the fault of a status other than 0.
    pub(super) fn of(status: u64, value: u64) -> Fault {
        match status {
            sys::WIDTH => Fault::Width,
            sys::LEN => Fault::ChunkLen,
            sys::VALID => Fault::Valid,
            sys::PLACE => Fault::Place {
                pick: value as usize,
            },
            sys::CHUNK => Fault::Chunk,
            sys::BYTES => Fault::Bytes,
            sys::OUTPUT => Fault::Output,
            status => unreachable!("status {status} of a call over chunks"),
        }
    }
}

impl fmt::Display for Fault {
    fn fmt(&self, f: &mut fmt::Formatter<'_>) -> fmt::Result {
        match self {
            Fault::Width => f.write_str("expected rows of 1 to 2^20 bytes, found others"),
            Fault::ChunkLen => f.write_str("expected chunks with rows, found chunks without"),
            Fault::Valid => f.write_str("expected a bit of validity for each pick, found fewer"),
            Fault::Place { pick } => {
                write!(f, "pick {pick}: expected a row, found one past them")
            }
            Fault::Chunk => f.write_str("expected a chunk of the plan, found another"),
            Fault::Bytes => f.write_str("expected the bytes of the chunk's rows, found others"),
            Fault::Output => f.write_str("expected room for a row a pick, found less"),
            Fault::NoMemory => f.write_str("out of memory"),
        }
    }
}

impl std::error::Error for Fault {}

/// Why rows can't be selected. `E` is the error of a source.
#[derive(Clone, Debug, PartialEq, Eq)]
pub enum Error<E> {
    /// A step is invalid.
    Steps(arrow::Error),
    /// The source has rows or chunks that no plan is made for, or memory is exhausted.
    Plan(Fault),
    /// A chunk can't be read.
    Read {
        /// The number of the chunk.
        chunk: u64,
        /// The source's own error.
        error: E,
    },
    /// The source changed its length while it was read.
    Changed {
        /// How many rows it had at first.
        expected: u64,
        /// How many rows it has now.
        found: u64,
    },
}

impl<E> From<arrow::Error> for Error<E> {
    fn from(error: arrow::Error) -> Self {
        match error {
            arrow::Error::NoMemory => Error::Plan(Fault::NoMemory),
            error => Error::Steps(error),
        }
    }
}

impl<E> From<Fault> for Error<E> {
    fn from(fault: Fault) -> Self {
        Error::Plan(fault)
    }
}

impl<E: fmt::Display> fmt::Display for Error<E> {
    fn fmt(&self, f: &mut fmt::Formatter<'_>) -> fmt::Result {
        match self {
            Error::Steps(error) => error.fmt(f),
            Error::Plan(fault) => fault.fmt(f),
            Error::Read { chunk, error } => write!(f, "chunk {chunk}: {error}"),
            Error::Changed { expected, found } => {
                write!(
                    f,
                    "expected a source of {expected} rows, found {found} after a read"
                )
            }
        }
    }
}

impl<E: std::error::Error + 'static> std::error::Error for Error<E> {
    fn source(&self) -> Option<&(dyn std::error::Error + 'static)> {
        match self {
            Error::Read { error, .. } => Some(error),
            _ => None,
        }
    }
}
