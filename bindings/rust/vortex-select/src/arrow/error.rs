//! Why a call fails.
use super::steps::Step;
use std::fmt;
use vortex_select_sys::arrow::{status, Fault};

/// Why a step is invalid.
#[derive(Clone, Copy, Debug, PartialEq, Eq)]
pub enum Cause {
    /// A slice starts after its end, or ends after the rows.
    BadRange,
    /// A filter isn't as long as the rows.
    BadMask,
    /// The indices of a take aren't integers.
    InvalidIndices,
    /// An index is negative, or not less than the number of rows.
    OutOfBounds,
    /// Another one of `include/vortex_arrow.h`. No step of this crate has it.
    Other(u64),
}

/// Why a call fails. Strings name the column or the step, what was expected and what was found.
///
/// ```
/// use vortex_select::arrow::{select, Cause, Column, Error, Step};
///
/// let mut numbers = Column::numbers(&[Some(1), Some(2)]);
/// let error = select(&mut numbers, &[Step::take(&[0, 9])]).unwrap_err();
/// assert_eq!(error.to_string(), "step 0: OutOfBounds: index 9, but 2 rows");
/// match error {
///     Error::Broken { step, cause, found, bound, .. } => {
///         assert_eq!((step, cause, found, bound), (0, Cause::OutOfBounds, 9, 2));
///     }
///     other => panic!("{other}"),
/// }
/// ```
#[derive(Clone, Debug, PartialEq, Eq)]
pub enum Error {
    /// A step is invalid.
    Broken {
        /// The step's number, from 0.
        step: usize,
        /// Why it is invalid.
        cause: Cause,
        /// The number that is wrong: the end of a slice, the length of a mask, or an index.
        found: i128,
        /// The number that it should be, or should not pass: how many rows there are. Of a slice
        /// that starts after its end, `found` is its start and this is its end.
        bound: u64,
        /// The error in words.
        text: String,
    },
    /// A step has fewer bits or numbers than it names.
    Lacking {
        /// The step's number, from 0.
        step: usize,
        /// The error in words.
        text: String,
    },
    /// The contents of the column aren't valid.
    NoMeaning(String),
    /// Offsets of 32 bits would pass 2^31 - 1.
    Overflow(String),
    /// The format of the column isn't known.
    Format(String),
    /// A null is selected of a union, whose rows are never null.
    NullPick(String),
    /// Columns that are to be one differ in type, or have different dictionaries.
    Unlike(String),
    /// A struct doesn't match its format, or is released.
    Shape(String),
    /// Columns are nested too deep.
    Depth(String),
    /// The source stream failed.
    Source(String),
    /// A selected row is past the rows.
    Beyond,
    /// An allocation failed.
    NoMemory,
}

impl Cause {
    fn of(cause: u64) -> Cause {
        match cause {
            0 => Cause::BadRange,
            1 => Cause::BadMask,
            3 => Cause::InvalidIndices,
            5 => Cause::OutOfBounds,
            other => Cause::Other(other),
        }
    }
}

/// Returns the number of a fault, which may be negative.
fn found_in(fault: &Fault) -> i128 {
    if fault.is_negative != 0 {
        i128::from(fault.found as i64)
    } else {
        i128::from(fault.found)
    }
}

impl Error {
    /// Returns the error of a status that is about a column.
    fn of(status: u64, text: String) -> Error {
        match status {
            status::BEYOND => Error::Beyond,
            status::OVERFLOW => Error::Overflow(text),
            status::NO_MEMORY => Error::NoMemory,
            status::FORMAT => Error::Format(text),
            status::NULL_PICK => Error::NullPick(text),
            status::UNLIKE => Error::Unlike(text),
            status::SHAPE => Error::Shape(text),
            status::DEPTH => Error::Depth(text),
            status::SOURCE => Error::Source(text),
            _ => Error::NoMeaning(text),
        }
    }

    /// Returns the error of a fault that a call with these steps reported.
    pub(super) fn of_fault(fault: &Fault, steps: &[Step]) -> Error {
        let text = fault.text.split(|byte| *byte == 0).next().unwrap_or(&[]);
        let text = String::from_utf8_lossy(text).into_owned();
        let step = fault.step as usize;
        match fault.status {
            status::BROKEN => Error::Broken {
                step,
                cause: Cause::of(fault.cause),
                found: found_in(fault),
                bound: fault.bound,
                text,
            },
            status::LACKING => {
                let lack = steps.get(step).and_then(Step::lack);
                let text = lack.map_or(text, |lack| format!("step {step}: {lack}"));
                Error::Lacking { step, text }
            }
            status => Error::of(status, text),
        }
    }

    /// Returns the error of a call that reports a status alone.
    pub(super) fn of_status(status: u64) -> Error {
        let text = match status {
            status::SHAPE => "expected what the format has, got another or a released struct",
            status::DEPTH => "expected at most 64 levels of columns, got more",
            _ => "expected a valid column, got another",
        };
        Error::of(status, text.into())
    }
}

impl fmt::Display for Error {
    fn fmt(&self, f: &mut fmt::Formatter<'_>) -> fmt::Result {
        match self {
            Error::Broken { text, .. }
            | Error::Lacking { text, .. }
            | Error::NoMeaning(text)
            | Error::Overflow(text)
            | Error::Format(text)
            | Error::NullPick(text)
            | Error::Unlike(text)
            | Error::Shape(text)
            | Error::Depth(text)
            | Error::Source(text) => f.write_str(text),
            Error::Beyond => f.write_str("expected selected rows within the rows, got one past"),
            Error::NoMemory => f.write_str("out of memory"),
        }
    }
}

impl std::error::Error for Error {}
