//! Arrow's structs in capsules, by the Arrow PyCapsule interface.
#![deny(unsafe_op_in_unsafe_fn)]

use crate::gil;
use pyo3::exceptions::{PyTypeError, PyValueError};
use pyo3::ffi;
use pyo3::prelude::*;
use pyo3::AsPyPointer;
use std::ffi::CStr;
use std::os::raw::c_char;
use vortex_select::arrow::{ArrowArray, ArrowArrayStream, ArrowSchema};

/// A struct that a capsule may hold.
pub trait Struct: Sized {
    /// The capsule's name, which ends with a byte 0.
    const NAME: &'static str;

    fn is_released(&self) -> bool;

    fn drop_of(capsule: *mut ffi::PyObject) {
        // SAFETY: the interpreter calls a destructor with the capsule that it belongs to, which
        // `capsule` made of a box, and with the GIL held.
        unsafe {
            let place = ffi::PyCapsule_GetPointer(capsule, name_of::<Self>());
            gil::keeping_exception(|| drop(Box::from_raw(place.cast::<Self>())));
        }
    }
}

impl Struct for ArrowSchema {
    const NAME: &'static str = "arrow_schema\0";

    fn is_released(&self) -> bool {
        self.is_released()
    }
}

impl Struct for ArrowArray {
    const NAME: &'static str = "arrow_array\0";

    fn is_released(&self) -> bool {
        self.is_released()
    }
}

impl Struct for ArrowArrayStream {
    const NAME: &'static str = "arrow_array_stream\0";

    fn is_released(&self) -> bool {
        self.is_released()
    }
}

fn name_of<T: Struct>() -> *const c_char {
    T::NAME.as_ptr().cast()
}

unsafe extern "C" fn dropped<T: Struct>(capsule: *mut ffi::PyObject) {
    T::drop_of(capsule);
}

/// Returns a capsule with a struct. The struct is released with the capsule, unless a consumer
/// moves it out.
pub fn capsule<T: Struct>(py: Python<'_>, held: T) -> PyResult<PyObject> {
    let place = Box::into_raw(Box::new(held));
    // SAFETY: the place leads to a struct that the capsule owns from now on. The name is static.
    let made = unsafe { ffi::PyCapsule_New(place.cast(), name_of::<T>(), Some(dropped::<T>)) };
    if made.is_null() {
        // SAFETY: no capsule was made, so the box is still ours.
        drop(unsafe { Box::from_raw(place) });
        return Err(PyErr::fetch(py));
    }
    // SAFETY: it is a new reference.
    Ok(unsafe { PyObject::from_owned_ptr(py, made) })
}

/// Returns the struct in a capsule of a producer, to be moved out.
///
/// # Errors
/// `TypeError` if the object isn't such a capsule. `ValueError` if its struct is released, so that
/// a consumer has moved it out before.
pub fn held_in<T: Struct>(object: &PyAny) -> PyResult<*mut T> {
    let name = name_of::<T>();
    // SAFETY: the object is alive, and the name ends with a byte 0.
    let (is_valid, called) = unsafe {
        (
            ffi::PyCapsule_IsValid(object.as_ptr(), name) != 0,
            CStr::from_ptr(name),
        )
    };
    if !is_valid {
        let found = object.get_type().name().unwrap_or("object").to_string();
        return Err(PyTypeError::new_err(format!(
            "expected a capsule {called:?}, got {found}"
        )));
    }
    // SAFETY: the capsule is valid under this name, so its pointer isn't null.
    let place = unsafe { ffi::PyCapsule_GetPointer(object.as_ptr(), name) }.cast::<T>();
    // SAFETY: a capsule of this name leads to such a struct, and the GIL is held.
    if unsafe { (*place).is_released() } {
        let text =
            format!("expected a capsule {called:?} with a struct, got a released one: it was used");
        return Err(PyValueError::new_err(text));
    }
    Ok(place)
}
