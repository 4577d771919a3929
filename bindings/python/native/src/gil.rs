//! The interpreter's lock (GIL): whether this thread holds it, and calls that are made without it.
#![deny(unsafe_op_in_unsafe_fn)]

use pyo3::ffi;
use pyo3::Python;
use std::mem::forget;
use std::os::raw::c_int;
use std::ptr::null_mut;
use std::thread;

#[allow(clashing_extern_declarations)] // PyO3 declares it without unwinding
mod calls {
    use super::{c_int, ffi};

    extern "C" {
        pub fn _PyThreadState_UncheckedGet() -> *mut ffi::PyThreadState;
        pub fn PyGILState_GetThisThreadState() -> *mut ffi::PyThreadState;
        pub fn Py_IsInitialized() -> c_int;
    }
    extern "C-unwind" {
        pub fn PyEval_RestoreThread(state: *mut ffi::PyThreadState);
    }
}

/// Returns whether this thread holds the GIL, so that it may call the interpreter.
///
/// `PyGILState_Check` can't be asked: it is always true once a subinterpreter was made.
pub fn is_held() -> bool {
    // SAFETY: both calls may be made by any thread at any time; neither reads through a pointer.
    unsafe {
        let own = calls::PyGILState_GetThisThreadState();
        !own.is_null() && own == calls::_PyThreadState_UncheckedGet()
    }
}

/// Returns whether the interpreter is running and not ending.
pub fn is_running() -> bool {
    // SAFETY: the call reads a number, and may be made by any thread at any time.
    unsafe { calls::Py_IsInitialized() != 0 }
}

/// The thread state of a thread that released the GIL.
struct Released {
    state: *mut ffi::PyThreadState,
    is_waiting: bool,
}

impl Released {
    fn acquire(&mut self) {
        self.is_waiting = true;
        // SAFETY: the state is the one that this thread gave up.
        unsafe { calls::PyEval_RestoreThread(self.state) }
        self.is_waiting = false;
    }
}

impl Drop for Released {
    fn drop(&mut self) {
        // The interpreter is ending and ends this daemon thread by unwinding its stack, which
        // aborts the process where it meets Rust. The thread sleeps until the process ends instead.
        while self.is_waiting {
            thread::park();
        }
        self.acquire();
    }
}

/// Calls `work` without the GIL, so that other threads of Python run meanwhile.
pub fn without<T>(_py: Python<'_>, work: impl FnOnce() -> T) -> T {
    // SAFETY: the caller holds the GIL, as `_py` shows.
    let state = unsafe { ffi::PyEval_SaveThread() };
    let mut released = Released {
        state,
        is_waiting: false,
    };
    let result = work();
    released.acquire();
    forget(released);
    result
}

/// Calls `work`, which may run code of Python, and keeps the exception that is pending.
///
/// # Safety
/// The thread holds the GIL.
pub unsafe fn keeping_exception(work: impl FnOnce()) {
    let (mut kind, mut value, mut trace) = (null_mut(), null_mut(), null_mut());
    // SAFETY: the thread holds the GIL, and the three pointers are to be written.
    unsafe { ffi::PyErr_Fetch(&mut kind, &mut value, &mut trace) };
    work();
    // SAFETY: they are what was fetched.
    unsafe { ffi::PyErr_Restore(kind, value, trace) };
}
