//! Steps as tuples of Python, and errors as exceptions.
use crate::memory::Held;
use pyo3::create_exception;
use pyo3::exceptions::{PyException, PyMemoryError, PyOverflowError, PyValueError};
use pyo3::prelude::*;
use std::slice;
use vortex_select::arrow::{Cause, Error, Number, Step};

create_exception!(
    _native,
    StepError,
    PyException,
    "An invalid step: its number, the number of its cause, the words, and the two numbers."
);

/// A step as Python writes it: kind, start, end, number type, offset, length, values, validity.
pub type Written<'p> = (
    u8,
    u64,
    u64,
    u8,
    usize,
    usize,
    Option<&'p PyAny>,
    Option<&'p PyAny>,
);

const NUMBERS: [Number; 11] = [
    Number::U8,
    Number::U16,
    Number::U32,
    Number::U64,
    Number::I8,
    Number::I16,
    Number::I32,
    Number::I64,
    Number::F16,
    Number::F32,
    Number::F64,
];

/// A step, and the buffers of its lists.
struct Listed {
    kind: u8,
    start: u64,
    end: u64,
    number: Number,
    offset: usize,
    len: usize,
    values: Option<Held>,
    valid: Option<Held>,
}

fn bytes(held: &Option<Held>) -> &[u8] {
    held.as_ref().map_or(&[], |held| {
        // SAFETY: the buffer is held for as long as the slice is used. The Python code hands in
        // bytes that nobody can write, or a buffer of an Arrow column, which nobody may write.
        unsafe { slice::from_raw_parts(held.place(), held.size()) }
    })
}

impl Listed {
    fn of(step: &Written) -> PyResult<Self> {
        let (kind, start, end, number, offset, len, values, valid) = *step;
        let number = *NUMBERS
            .get(usize::from(number))
            .ok_or_else(|| PyValueError::new_err(format!(
                    "type of indices: expected less than 11, got {number}"
                )))?;
        Ok(Listed {
            kind,
            start,
            end,
            number,
            offset,
            len,
            values: values.map(Held::read).transpose()?,
            valid: valid.map(Held::read).transpose()?,
        })
    }

    fn step(&self) -> Step<'_> {
        let valid = self.valid.as_ref().map(|_| bytes(&self.valid));
        match self.kind {
            0 => Step::slice(self.start, self.end),
            1 => Step::filter_bits(bytes(&self.values), self.offset, self.len, valid),
            _ => {
                let values = bytes(&self.values);
                Step::take_numbers(self.number, values, self.offset, self.len, valid)
            }
        }
    }
}

/// The steps of a call.
pub struct Steps(Vec<Listed>);

impl Steps {
    pub fn of(steps: &[Written]) -> PyResult<Self> {
        steps
            .iter()
            .map(Listed::of)
            .collect::<PyResult<_>>()
            .map(Steps)
    }

    pub fn list(&self) -> Vec<Step<'_>> {
        self.0.iter().map(Listed::step).collect()
    }
}

fn number_of(cause: Cause) -> u64 {
    match cause {
        Cause::BadRange => 0,
        Cause::BadMask => 1,
        Cause::InvalidIndices => 3,
        Cause::OutOfBounds => 5,
        Cause::Other(number) => number,
    }
}

/// Returns the exception of an error.
pub fn raised(error: Error) -> PyErr {
    let text = error.to_string();
    match error {
        Error::Broken {
            step,
            cause,
            found,
            bound,
            ..
        } => StepError::new_err((step, number_of(cause), text, found, bound)),
        Error::Overflow(_) => PyOverflowError::new_err(text),
        Error::NoMemory => PyMemoryError::new_err(text),
        _ => PyValueError::new_err(text),
    }
}
