//! The kernels over flat lists.
//!
//! A kernel tests a list in one pass and reads by it in another, so what it tests is memory that no
//! other thread writes: masks are copies that the Python code made, indices are copied here.
use crate::gil::without;
use crate::memory::{Source, Target};
use pyo3::exceptions::{PyIndexError, PyValueError};
use pyo3::ffi;
use pyo3::prelude::*;
use pyo3::types::{PyByteArray, PyBytes};
use std::ptr::{copy_nonoverlapping, null, null_mut};
use vortex_select_sys::kernels as raw;
use vortex_select_sys::kernels::{Answer, Record16, Record32};

const BITS_PAST: u64 = 2;
const ROOM: u64 = 3;

/// The number of indices that are copied at a time. It is a multiple of 64, so that a block's
/// validity begins with a word, and a block is 1 MiB, which a second-level cache holds.
const BLOCK: usize = 1 << 17;

/// Returns the value of a call, or the exception of its status.
fn done(answer: Answer) -> PyResult<u64> {
    match answer.status {
        raw::DONE => Ok(answer.value),
        BITS_PAST => Err(PyValueError::new_err(
            "mask: expected clear bits after the rows, got a set one",
        )),
        raw::LENGTHS => Err(PyValueError::new_err(
            "expected lists of one length, got others",
        )),
        status => {
            let text = format!(
                "the kernel returned status {status}, value {}",
                answer.value
            );
            Err(PyValueError::new_err(text))
        }
    }
}

/// Returns how many items a call that was given no output needs.
fn wanted(answer: Answer) -> PyResult<usize> {
    let count = if answer.status == ROOM {
        answer.value
    } else {
        done(answer)?
    };
    Ok(count as usize)
}

/// Returns a new bytearray, whose bytes aren't written yet.
pub fn new_bytes(py: Python<'_>, len: usize) -> PyResult<&PyByteArray> {
    let len = ffi::Py_ssize_t::try_from(len)
        .map_err(|_| PyErr::new::<pyo3::exceptions::PyMemoryError, _>("out of memory"))?;
    // SAFETY: the call makes an object with so many bytes, which are not written yet, or fails.
    unsafe { py.from_owned_ptr_or_err(ffi::PyByteArray_FromStringAndSize(null(), len)) }
}

/// Calls the kernel of a width.
macro_rules! of_width {
    ($width:expr, $_1:ident $_2:ident $_4:ident $_8:ident $_16:ident $_32:ident,
        |$call:ident, $item:ident| $body:expr) => {
        match $width {
            1 => {
                use raw::$_1 as $call;
                type $item = u8;
                $body
            }
            2 => {
                use raw::$_2 as $call;
                type $item = u16;
                $body
            }
            4 => {
                use raw::$_4 as $call;
                type $item = u32;
                $body
            }
            8 => {
                use raw::$_8 as $call;
                type $item = u64;
                $body
            }
            16 => {
                use raw::$_16 as $call;
                type $item = Record16;
                $body
            }
            32 => {
                use raw::$_32 as $call;
                type $item = Record32;
                $body
            }
            width => Err(PyValueError::new_err(format!(
                "items: expected 1, 2, 4, 8, 16 or 32 bytes, got {width}"
            ))),
        }
    };
}

/// Returns the items at the set bits of a mask that begins at bit `at` of the words.
#[pyfunction]
pub fn filter<'p>(
    py: Python<'p>,
    width: usize,
    values: &PyAny,
    words: &PyAny,
    at: usize,
) -> PyResult<&'p PyByteArray> {
    of_width!(width, vortex_filter_1 vortex_filter_2 vortex_filter_4 vortex_filter_8
        vortex_filter_16 vortex_filter_32, |call, Item| {
        let (src, mask) = (Source::of(values, width)?, Source::of(words, 8)?);
        let (s, n, w, m) = (src.place::<Item>(), src.len(), mask.place(), mask.len());
        // SAFETY: each place leads to as many aligned items as is said, and none is written.
        let count = wanted(without(py, || unsafe { call(s, n, w, m, at, null_mut(), 0) }))?;
        let kept = new_bytes(py, width * count)?;
        let dst = Target::of(kept, width)?;
        let (d, room) = (dst.place::<Item>(), dst.len());
        // SAFETY: as above, and nobody else knows of what is written.
        done(without(py, || unsafe { call(s, n, w, m, at, d, room) }))?;
        Ok(kept)
    })
}

/// Moves the items at the set bits to the front, and returns their number.
#[pyfunction]
pub fn filter_in_place(
    py: Python<'_>,
    width: usize,
    values: &PyAny,
    words: &PyAny,
    at: usize,
) -> PyResult<u64> {
    of_width!(width, vortex_filter_in_place_1 vortex_filter_in_place_2 vortex_filter_in_place_4
        vortex_filter_in_place_8 vortex_filter_in_place_16 vortex_filter_in_place_32, |call, Item| {
        let (list, mask) = (Target::of(values, width)?, Source::of(words, 8)?);
        let (v, n, w, m) = (list.place::<Item>(), list.len(), mask.place(), mask.len());
        // SAFETY: each place leads to as many aligned items as is said; the items may be any bytes.
        done(without(py, || unsafe { call(v, n, w, m, at) }))
    })
}

/// A list of native integers, copied in blocks as numbers of 64 bits. A negative number becomes one
/// of 2^63 or more, which is out of bounds of every list.
struct Indices {
    list: Source,
    is_signed: bool,
    block: Vec<u64>,
}

impl Indices {
    fn of(object: &PyAny, width: usize, is_signed: bool) -> PyResult<Self> {
        if ![1, 2, 4, 8].contains(&width) {
                return Err(PyValueError::new_err(format!(
                "indices: expected 1, 2, 4 or 8 bytes, got {width}"
            )));
        }
        let list = Source::of(object, width)?;
        let block = Vec::new();
        Ok(Indices {
            list,
            is_signed,
            block,
        })
    }

    fn widened<T: Copy>(&mut self, start: usize, count: usize, wide: impl Fn(T) -> u64) {
        let first = self.list.place::<T>();
        // SAFETY: the list has these items, and is aligned for them. Another thread may write to
        // them meanwhile; each is read once.
        let read = |k: usize| unsafe { first.add(start + k).read() };
        self.block.clear();
        self.block.extend((0..count).map(|k| wide(read(k))));
    }

    /// Copies the indices from one on, and returns how many they are.
    fn copy_from(&mut self, start: usize) -> usize {
        let count = BLOCK.min(self.list.len() - start);
        match (self.list_width(), self.is_signed) {
            (1, false) => self.widened::<u8>(start, count, u64::from),
            (2, false) => self.widened::<u16>(start, count, u64::from),
            (4, false) => self.widened::<u32>(start, count, u64::from),
            (1, true) => self.widened::<i8>(start, count, |n| n as i64 as u64),
            (2, true) => self.widened::<i16>(start, count, |n| n as i64 as u64),
            (4, true) => self.widened::<i32>(start, count, |n| n as i64 as u64),
            _ => self.copied(start, count),
        }
        count
    }

    fn copied(&mut self, start: usize, count: usize) {
        self.block.resize(count, 0);
        let first = self.list.place::<u64>();
        // SAFETY: the list has these items, and the block is another one with room for them.
        unsafe { copy_nonoverlapping(first.add(start), self.block.as_mut_ptr(), count) };
    }

    fn list_width(&self) -> usize {
        self.list.width()
    }
}

/// The validity bitmap of indices; `None` if all are valid.
struct Valid(Option<Source>);

impl Valid {
    fn of(object: Option<&PyAny>, picks: usize) -> PyResult<Self> {
        let words = object.map(|object| Source::of(object, 8)).transpose()?;
        let has_all = words
            .as_ref()
            .map_or(true, |words| words.len() >= picks.div_ceil(64));
        if !has_all {
            return Err(PyValueError::new_err(
                "valid: expected a bit for each index, got fewer",
            ));
        }
        Ok(Valid(words))
    }

    /// Returns the words of `count` indices from `start` on, which is a multiple of 64.
    fn part(&self, start: usize, count: usize) -> (*const u64, usize) {
        self.0.as_ref().map_or((null(), 0), |words| {
            // SAFETY: there is a word for each 64 picks.
            (
                unsafe { words.place::<u64>().add(start / 64) },
                count.div_ceil(64),
            )
        })
    }
}

fn items(count: usize) -> String {
    format!("{count} {}", if count == 1 { "item" } else { "items" })
}

/// Returns the exception of an index of the last block, which begins at place `start`.
fn past(list: &Indices, start: usize, place: usize, len: usize) -> PyErr {
    let index = list.block[place];
    let (place, items) = (start + place, items(len));
    PyIndexError::new_err(if list.is_signed {
        format!("index {} at place {place}, but {items}", index as i64)
    } else {
        format!("index {index} at place {place}, but {items}")
    })
}

/// Returns the items at the indices, and zeros where the bit of `valid` is clear.
#[pyfunction]
pub fn take<'p>(
    py: Python<'p>,
    width: usize,
    values: &PyAny,
    indices: &PyAny,
    kind: (usize, bool),
    valid: Option<&PyAny>,
) -> PyResult<&'p PyByteArray> {
    of_width!(width, vortex_take_front_1 vortex_take_front_2 vortex_take_front_4
        vortex_take_front_8 vortex_take_front_16 vortex_take_front_32, |call, Item| {
        let (src, mut list) = (Source::of(values, width)?, Indices::of(indices, kind.0, kind.1)?);
        let (picks, s, n) = (list.list.len(), src.place::<Item>(), src.len());
        let valid = Valid::of(valid, picks)?;
        let taken = new_bytes(py, width * picks)?;
        let dst = Target::of(taken, width)?;
        let found = without(py, || {
            let mut start = 0;
            while start < picks {
                let count = list.copy_from(start);
                let (v, m) = valid.part(start, count);
                // SAFETY: each place leads to as many aligned items as is said. Nobody else knows
                // of the block, or of what is written.
                let answer = unsafe {
                    let to = dst.place::<Item>().add(start);
                    call(s, n, list.block.as_ptr(), count, v, m, to, count)
                };
                if answer.status != raw::DONE || (answer.value as usize) < count {
                    return (answer, start);
                }
                start += count;
            }
            (Answer { status: raw::DONE, value: 0 }, picks)
        });
        let (answer, start) = found;
        let taken_there = done(answer)? as usize;
        if start < picks {
            return Err(past(&list, start, taken_there, n));
        }
        Ok(taken)
    })
}

/// Returns the bits at the set bits of a mask, as whole words, and their number.
#[pyfunction]
pub fn filter_bits<'p>(
    py: Python<'p>,
    bits: (&PyAny, usize),
    mask: (&PyAny, usize),
    rows: usize,
) -> PyResult<(&'p PyByteArray, usize)> {
    let (src, by) = (Source::of(bits.0, 8)?, Source::of(mask.0, 8)?);
    let (s, n, w, m) = (src.place(), src.len(), by.place(), by.len());
    let call = |dst: *mut u64, room: usize| {
        // SAFETY: each place leads to as many words as is said, and `dst` to `room` ones that
        // nobody else knows of.
        unsafe { raw::vortex_filter_bits(s, n, bits.1, w, m, mask.1, rows, dst, room) }
    };
    let count = wanted(call(null_mut(), 0))?;
    let kept = new_bytes(py, 8 * count.div_ceil(64))?;
    let dst = Target::of(kept, 8)?;
    let (d, room) = (dst.place::<u64>(), dst.len());
    done(without(py, || call(d, room)))?;
    Ok((kept, count))
}

/// Returns the bits at the indices, as whole words, and clear bits where `valid` is clear.
#[pyfunction]
pub fn take_bits<'p>(
    py: Python<'p>,
    bits: (&PyAny, usize, usize),
    indices: &PyAny,
    kind: (usize, bool),
    valid: Option<&PyAny>,
) -> PyResult<&'p PyByteArray> {
    let (words, at, len) = bits;
    let (src, mut list) = (Source::of(words, 8)?, Indices::of(indices, kind.0, kind.1)?);
    let picks = list.list.len();
    let valid = Valid::of(valid, picks)?;
    let taken = new_bytes(py, 8 * picks.div_ceil(64))?;
    let dst = Target::of(taken, 8)?;
    let (s, n) = (src.place::<u64>(), src.len());
    let (answer, start) = without(py, || {
        let mut start = 0;
        while start < picks {
            let count = list.copy_from(start);
            let ((v, m), block) = (valid.part(start, count), list.block.as_ptr());
            // SAFETY: as in `take`, and a block begins with a word of the output.
            let answer = unsafe {
                let to = dst.place::<u64>().add(start / 64);
                raw::vortex_take_bits(s, n, at, len, block, count, v, m, to, count.div_ceil(64))
            };
            if answer.status != raw::DONE {
                return (answer, start);
            }
            start += count;
        }
        (
            Answer {
                status: raw::DONE,
                value: 0,
            },
            start,
        )
    });
    if answer.status == raw::INDEX {
        return Err(past(&list, start, answer.value as usize, len));
    }
    done(answer)?;
    Ok(taken)
}

/// Returns the rows that a mask selects, as numbers of 64 bits.
#[pyfunction]
pub fn positions<'p>(py: Python<'p>, words: &PyAny, rows: usize) -> PyResult<&'p PyByteArray> {
    let mask = Source::of(words, 8)?;
    let (w, m) = (mask.place(), mask.len());
    // SAFETY: the place leads to so many words.
    let count = done(unsafe { raw::vortex_count_before(w, m, rows, rows) })? as usize;
    let found = new_bytes(py, 8 * count)?;
    let dst = Target::of(found, 8)?;
    let (d, room) = (dst.place::<u64>(), dst.len());
    // SAFETY: as above, and nobody else knows of what is written.
    done(without(py, || unsafe {
        raw::vortex_positions(w, m, rows, d, room)
    }))?;
    Ok(found)
}

/// Returns the runs of rows that a mask selects, each a start and an end.
#[pyfunction]
pub fn runs<'p>(py: Python<'p>, words: &PyAny, rows: usize) -> PyResult<&'p PyByteArray> {
    let mask = Source::of(words, 8)?;
    let (w, m) = (mask.place(), mask.len());
    // SAFETY: the place leads to so many words, and nothing is written.
    let count = wanted(unsafe { raw::vortex_runs(w, m, rows, null_mut(), 0) })?;
    let found = new_bytes(py, 16 * count)?;
    let dst = Target::of(found, 16)?;
    let (d, room) = (dst.place(), dst.len());
    // SAFETY: as above, and nobody else knows of what is written.
    done(without(py, || unsafe {
        raw::vortex_runs(w, m, rows, d, room)
    }))?;
    Ok(found)
}

/// Returns the `k`-th row that a mask selects, from 0.
#[pyfunction]
pub fn rank(words: &PyAny, rows: usize, k: u64) -> PyResult<u64> {
    let mask = Source::of(words, 8)?;
    // SAFETY: the place leads to so many words.
    let answer = unsafe { raw::vortex_rank(mask.place(), mask.len(), rows, k as usize) };
    if answer.status == raw::INDEX {
        let text = format!("k: expected less than the {} selected rows, got {k}", answer.value);
        return Err(PyIndexError::new_err(text));
    }
    done(answer)
}

/// Returns how many rows before row `p` a mask selects.
#[pyfunction]
pub fn count_before(words: &PyAny, rows: usize, p: u64) -> PyResult<u64> {
    let mask = Source::of(words, 8)?;
    // SAFETY: the place leads to so many words.
    let answer = unsafe { raw::vortex_count_before(mask.place(), mask.len(), rows, p as usize) };
    if answer.status == raw::INDEX {
        return Err(PyIndexError::new_err(format!(
            "p: expected at most the {rows} rows, got {p}"
        )));
    }
    done(answer)
}

/// Returns a bit for each of eight bytes, set if the byte isn't 0, the first one lowest.
fn eight_bits(bytes: [u8; 8]) -> u8 {
    const LOW: u64 = 0x7f7f_7f7f_7f7f_7f7f;
    let word = u64::from_le_bytes(bytes);
    // Adding 0x7f to the low bits of a byte sets its highest bit, unless all of them are clear.
    let ones = (((word & LOW) + LOW) | word) >> 7 & 0x0101_0101_0101_0101;
    (ones.wrapping_mul(0x0102_0408_1020_4080) >> 56) as u8
}

/// Packs bools of a byte each into bits, the lowest bit of each byte first.
#[pyfunction]
pub fn pack<'p>(py: Python<'p>, bools: &PyAny) -> PyResult<&'p PyBytes> {
    let list = Source::of(bools, 1)?;
    let (place, len) = (list.place::<u8>(), list.len());
    PyBytes::new_with(py, len.div_ceil(8), |bits: &mut [u8]| {
        for (k, byte) in bits.iter_mut().enumerate() {
            let mut eight = [0; 8];
            let count = 8.min(len - 8 * k);
            if count == 8 {
                // SAFETY: the list has these eight bytes; each is read once.
                eight = unsafe { place.add(8 * k).cast::<[u8; 8]>().read() };
            } else {
                for (j, found) in eight.iter_mut().enumerate().take(count) {
                    // SAFETY: the list has this byte.
                    *found = unsafe { place.add(8 * k + j).read() };
                }
            }
            *byte = eight_bits(eight);
        }
        Ok(())
    })
}

/// Returns the version of the library.
#[pyfunction]
pub fn version() -> u32 {
    vortex_select::version()
}
