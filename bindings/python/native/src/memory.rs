//! Memory of Python's objects, by the buffer protocol.
#![deny(unsafe_op_in_unsafe_fn)]

use crate::gil;
use pyo3::exceptions::PyValueError;
use pyo3::ffi;
use pyo3::prelude::*;
use pyo3::AsPyPointer;
use std::os::raw::{c_int, c_void};
use std::ptr::{copy_nonoverlapping, null_mut};
use std::sync::Mutex;

/// A buffer of an object, acquired by the buffer protocol. Its memory stays at its place and keeps
/// its size until this is dropped.
pub struct Held(Option<Box<ffi::Py_buffer>>);

// SAFETY: the memory may be read by any thread, and a view is released by a thread with the GIL.
unsafe impl Send for Held {}
// SAFETY: as above; nothing of a view changes while it is held.
unsafe impl Sync for Held {}

impl Held {
    fn of(object: &PyAny, flags: c_int) -> PyResult<Self> {
        let mut view = Box::new(ffi::Py_buffer::new());
        // SAFETY: the object is alive, the view is to be written, and the GIL is held.
        if unsafe { ffi::PyObject_GetBuffer(object.as_ptr(), &mut *view, flags) } != 0 {
            return Err(PyErr::fetch(object.py()));
        }
        Ok(Held(Some(view)))
    }

    /// Acquires the bytes of an object for reading.
    ///
    /// # Errors
    /// `BufferError` if they aren't contiguous, `TypeError` if the object has no buffer.
    pub fn read(object: &PyAny) -> PyResult<Self> {
        Held::of(object, ffi::PyBUF_SIMPLE)
    }

    /// Acquires the bytes of an object for writing.
    pub fn write(object: &PyAny) -> PyResult<Self> {
        Held::of(object, ffi::PyBUF_WRITABLE)
    }

    pub fn size(&self) -> usize {
        self.0.as_ref().map_or(0, |view| view.len as usize)
    }

    /// Returns where the bytes are: a place that isn't null, and is aligned if there are none.
    pub fn place(&self) -> *mut u8 {
        let place: *mut u8 = self.0.as_ref().map_or(null_mut(), |view| view.buf.cast());
        if place.is_null() || self.size() == 0 {
            return std::ptr::NonNull::<u64>::dangling().as_ptr().cast();
        }
        place
    }
}

// SAFETY: a view's memory stays at its place until the view is released.
unsafe impl vortex_select::arrow::Buffer for Held {
    fn data(&self) -> *const u8 {
        self.place()
    }

    fn size(&self) -> usize {
        self.size()
    }

    fn may_change(&self) -> bool {
        self.0.as_ref().map_or(false, |view| view.readonly == 0)
    }
}

impl Drop for Held {
    fn drop(&mut self) {
        let Some(view) = self.0.take() else { return };
        if gil::is_held() {
            release(view);
        } else {
            leave(view);
        }
    }
}

fn release(mut view: Box<ffi::Py_buffer>) {
    // SAFETY: the caller holds the GIL, and the view was acquired and isn't released yet.
    unsafe { gil::keeping_exception(|| ffi::PyBuffer_Release(&mut *view)) }
}

struct Left(Box<ffi::Py_buffer>);
// SAFETY: only a thread with the GIL uses what the view leads to.
unsafe impl Send for Left {}

/// The views that were dropped by threads without the GIL.
static LEFT: Mutex<Vec<Left>> = Mutex::new(Vec::new());

extern "C" {
    fn Py_AddPendingCall(
        call: unsafe extern "C" fn(*mut c_void) -> c_int,
        of: *mut c_void,
    ) -> c_int;
}

/// Has the interpreter release a view as soon as it can. Once it has ended, the view is leaked.
fn leave(view: Box<ffi::Py_buffer>) {
    if !gil::is_running() {
        Box::leak(view);
        return;
    }
    if let Ok(mut left) = LEFT.lock() {
        left.push(Left(view));
    }
    // SAFETY: the call may be made by a thread without the GIL while the interpreter runs.
    unsafe { Py_AddPendingCall(release_left, null_mut()) };
}

unsafe extern "C" fn release_left(_: *mut c_void) -> c_int {
    let left = LEFT.lock().map(|mut left| std::mem::take(&mut *left));
    for Left(view) in left.unwrap_or_default() {
        release(view);
    }
    0
}

/// A list that a kernel reads: a buffer, or its copy if it isn't aligned for its items.
pub struct Source {
    held: Held,
    copy: Vec<[u64; 4]>,
    width: usize,
}

impl Source {
    /// Acquires the whole items of `width` bytes in an object's buffer.
    pub fn of(object: &PyAny, width: usize) -> PyResult<Self> {
        let held = Held::read(object)?;
        let mut copy = Vec::new();
        if held.place() as usize % width.min(8) != 0 {
            copy = vec![[0; 4]; held.size() / 32 + 1];
            // SAFETY: the copy has room for all bytes of the buffer.
            unsafe { copy_nonoverlapping(held.place(), copy.as_mut_ptr().cast(), held.size()) };
        }
        Ok(Source { held, copy, width })
    }

    pub fn place<T>(&self) -> *const T {
        if self.copy.is_empty() {
            self.held.place().cast()
        } else {
            self.copy.as_ptr().cast()
        }
    }

    /// Returns the items of a list of 8 bytes each. Nothing else writes to it meanwhile: the Python
    /// code made it, and no other thread knows of it.
    pub fn numbers(&self) -> &[u64] {
        assert_eq!(self.width, 8);
        // SAFETY: the place leads to so many aligned items, which are held for as long as this.
        unsafe { std::slice::from_raw_parts(self.place(), self.len()) }
    }

    pub fn len(&self) -> usize {
        self.held.size() / self.width
    }

    pub fn width(&self) -> usize {
        self.width
    }
}

/// A list that a kernel writes.
pub struct Target {
    held: Held,
    width: usize,
}

impl Target {
    /// Acquires the whole items of `width` bytes in an object's buffer.
    ///
    /// # Errors
    /// `ValueError` if it isn't aligned for its items, and those of `Held::write`.
    pub fn of(object: &PyAny, width: usize) -> PyResult<Self> {
        let held = Held::write(object)?;
        let align = width.min(8);
        if held.place() as usize % align != 0 {
            let text = format!("memory to be written: expected alignment {align}, got less");
            return Err(PyValueError::new_err(text));
        }
        Ok(Target { held, width })
    }

    pub fn place<T>(&self) -> *mut T {
        self.held.place().cast()
    }

    pub fn len(&self) -> usize {
        self.held.size() / self.width
    }
}
