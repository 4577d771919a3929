//! Rows of stores that are read chunk by chunk: plans, and rows put where they belong.
use crate::gil::without;
use crate::memory::{Held, Source, Target};
use pyo3::exceptions::PyValueError;
use pyo3::prelude::*;
use vortex_select_sys::chunks as raw;
use vortex_select_sys::kernels::{Answer, DONE};

fn done(answer: Answer) -> PyResult<u64> {
    match answer.status {
        DONE => Ok(answer.value),
        status => Err(PyValueError::new_err(format!(
            "chunks: status {status}, value {}",
            answer.value
        ))),
    }
}

/// Writes where each chunk's picks begin and the picks' numbers by chunk, nulls last.
///
/// `shape` is how many rows the source has, and how many a chunk has.
#[pyfunction]
pub fn chunk_plan(
    py: Python<'_>,
    places: &PyAny,
    valid: &PyAny,
    shape: (u64, u64),
    starts: &PyAny,
    order: &PyAny,
) -> PyResult<u64> {
    let (places, valid) = (Source::of(places, 8)?, Held::read(valid)?);
    let (starts, order) = (Target::of(starts, 8)?, Target::of(order, 8)?);
    // SAFETY: each place leads to as many aligned numbers as is said. The Python code made the
    // lists, and no other thread knows of them.
    done(without(py, || unsafe {
        raw::vortex_chunks_plan(
            places.place(),
            places.len(),
            valid.place(),
            valid.size(),
            shape.0,
            shape.1,
            starts.place(),
            starts.len(),
            order.place(),
            order.len(),
        )
    }))
}

/// Writes the picked rows of a chunk where they belong: those whose numbers are the entries of
/// `order` from one number up to another.
///
/// `shape` is the chunk's number, how many rows the source has, how many a chunk has, and how many
/// bytes a row has.
#[pyfunction]
pub fn chunk_scatter(
    py: Python<'_>,
    chunk: &PyAny,
    shape: (u64, u64, u64, u64),
    places: &PyAny,
    order: (&PyAny, usize, usize),
    out: &PyAny,
) -> PyResult<()> {
    let (chunk, places) = (Held::read(chunk)?, Source::of(places, 8)?);
    let (numbers, from, end) = (Source::of(order.0, 8)?, order.1, order.2);
    let out = Held::write(out)?;
    if from > end || end > numbers.len() {
        return Err(PyValueError::new_err("numbers that the plan doesn't have"));
    }
    // SAFETY: each place leads to as many aligned items as is said. The Python code made the places
    // and the numbers, and writes to neither. The rows of the output that the call touches are
    // those of the chunk's picks, which no other call has. If another thread writes to the chunk
    // meanwhile, it is unspecified which bytes are copied; nothing is read or written by them.
    done(without(py, || unsafe {
        raw::vortex_chunks_scatter(
            chunk.place(),
            chunk.size(),
            shape.0,
            shape.1,
            shape.2,
            shape.3,
            places.place(),
            places.len(),
            numbers.place::<u64>().add(from),
            end - from,
            out.place(),
            out.size(),
        )
    }))
    .map(drop)
}

/// Writes zeros to the row of each null among `count` picks.
#[pyfunction]
pub fn chunk_nulls(valid: &PyAny, count: usize, width: u64, out: &PyAny) -> PyResult<()> {
    let (valid, out) = (Held::read(valid)?, Held::write(out)?);
    // SAFETY: as in `chunk_scatter`.
    done(unsafe {
        raw::vortex_chunks_fill_nulls(
            valid.place(),
            valid.size(),
            count,
            width,
            out.place(),
            out.size(),
        )
    })
    .map(drop)
}

/// Returns the number of the pick after the last one that lies in the chunk of pick `from`.
#[pyfunction]
pub fn chunk_run(py: Python<'_>, places: &PyAny, chunk_len: u64, from: usize) -> PyResult<u64> {
    let places = Source::of(places, 8)?;
    // SAFETY: as in `chunk_plan`.
    done(without(py, || unsafe {
        raw::vortex_chunks_next_run(places.place(), places.len(), chunk_len, from)
    }))
}
