//! What steps over a column are of each of its parts, by numbers alone.
use crate::memory::{Source, Target};
use pyo3::exceptions::{PyOverflowError, PyValueError};
use pyo3::prelude::*;
use vortex_select_sys::kernels::{Answer, DONE};
use vortex_select_sys::parts as raw;

fn done(answer: Answer) -> PyResult<()> {
    match answer.status {
        DONE => Ok(()),
        raw::TOO_MANY => Err(PyOverflowError::new_err(
            "parts: expected fewer than 2^64 rows, got more",
        )),
        status => Err(PyValueError::new_err(format!(
            "lists of parts: expected status 0, got {status}"
        ))),
    }
}

/// Writes where each part begins, and where the last one ends.
#[pyfunction]
pub fn cut_bounds(lengths: &PyAny, bounds: &PyAny) -> PyResult<()> {
    let (lengths, bounds) = (Source::of(lengths, 8)?, Target::of(bounds, 8)?);
    // SAFETY: each place leads to as many aligned numbers as is said. The Python code made the
    // lists, and no other thread knows of them.
    done(unsafe {
        raw::vortex_cut_bounds(lengths.place(), lengths.len(), bounds.place(), bounds.len())
    })
}

/// Writes what each part keeps of a slice; returns whether it is a slice of the rows.
#[pyfunction]
pub fn cut_slice(
    lengths: &PyAny,
    start: usize,
    end: usize,
    out: (&PyAny, &PyAny, &PyAny),
) -> PyResult<bool> {
    let lengths = Source::of(lengths, 8)?;
    let (starts, ends, left) = (
        Target::of(out.0, 8)?,
        Target::of(out.1, 8)?,
        Target::of(out.2, 8)?,
    );
    // SAFETY: as in `cut_bounds`.
    let answer = unsafe {
        raw::vortex_cut_slice(
            lengths.place(),
            lengths.len(),
            start,
            end,
            starts.place(),
            starts.len(),
            ends.place(),
            ends.len(),
            left.place(),
            left.len(),
        )
    };
    if answer.status == raw::RANGE {
        return Ok(false);
    }
    done(answer).map(|()| true)
}

/// Writes how many rows of each part a mask keeps that begins at bit `at` of the words.
#[pyfunction]
pub fn cut_mask(words: &PyAny, at: usize, lengths: &PyAny, left: &PyAny) -> PyResult<()> {
    let (words, lengths) = (Source::of(words, 8)?, Source::of(lengths, 8)?);
    let left = Target::of(left, 8)?;
    // SAFETY: as in `cut_bounds`.
    done(unsafe {
        raw::vortex_cut_mask(
            words.place(),
            words.len(),
            at,
            lengths.place(),
            lengths.len(),
            left.place(),
            left.len(),
        )
    })
}

/// Writes each part's own picks, where they end, and of each pick its part and row there.
#[pyfunction]
pub fn cut_picks(
    places: &PyAny,
    bounds: &PyAny,
    own: (&PyAny, &PyAny),
    order: (&PyAny, &PyAny),
) -> PyResult<()> {
    let (places, bounds) = (Source::of(places, 8)?, Source::of(bounds, 8)?);
    let (own, ends) = (Target::of(own.0, 8)?, Target::of(own.1, 8)?);
    let (parts, rows) = (Target::of(order.0, 8)?, Target::of(order.1, 8)?);
    // SAFETY: as in `cut_bounds`.
    done(unsafe {
        raw::vortex_cut_picks(
            places.place(),
            places.len(),
            bounds.place(),
            bounds.len(),
            own.place(),
            own.len(),
            ends.place(),
            ends.len(),
            parts.place(),
            parts.len(),
            rows.place(),
            rows.len(),
        )
    })
}
