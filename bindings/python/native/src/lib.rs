//! The native part of the Python module `vortex_select`: owners of memory, and calls.
//!
//! All unsafe code is here and in the crate `vortex-select`, whose functions are safe. The Python
//! code above it reads buffers by memoryviews, whose bounds were tested when they were made.
#![allow(unexpected_cfgs)] // those of PyO3

mod array;
mod capsules;
mod chunks;
mod cuts;
mod gil;
mod kernels;
mod memory;
#[cfg(feature = "rows")]
mod program;
mod steps;

use pyo3::exceptions::PyImportError;
use pyo3::ffi;
use pyo3::prelude::*;

extern "C" {
    #[cfg_attr(not(Py_3_9), link_name = "_PyInterpreterState_Get")]
    fn PyInterpreterState_Get() -> *mut ffi::PyInterpreterState;
}

/// Returns whether this isn't the main interpreter of the process.
fn is_subinterpreter() -> bool {
    // SAFETY: a module is made by a thread that runs an interpreter and holds its GIL.
    unsafe { PyInterpreterState_Get() != ffi::PyInterpreterState_Main() }
}

macro_rules! add {
    ($module:ident: $($file:ident::$name:ident)+) => {
        $($module.add_function(wrap_pyfunction!($file::$name, $module)?)?;)+
    };
}

#[pymodule]
fn _native(py: Python<'_>, m: &PyModule) -> PyResult<()> {
    if is_subinterpreter() {
        return Err(PyImportError::new_err(
            "vortex_select can be imported by the main interpreter alone, not by a subinterpreter",
        ));
    }
    m.add_class::<array::Array>()?;
    m.add_class::<array::Node>()?;
    m.add_class::<array::Buffer>()?;
    m.add("StepError", py.get_type::<steps::StepError>())?;
    m.add("HAS_PROGRAM", cfg!(feature = "rows"))?;
    add!(m: array::alive array::build array::array_from_capsules array::select array::compose
        array::concatenate array::interleave
        array::read_stream array::select_stream array::select_chunks array::stream_capsule);
    add!(m: kernels::filter kernels::filter_in_place kernels::take kernels::filter_bits
        kernels::take_bits kernels::positions kernels::runs kernels::rank kernels::count_before
        kernels::pack kernels::version);
    add!(m: cuts::cut_bounds cuts::cut_slice cuts::cut_mask cuts::cut_picks);
    add!(m: chunks::chunk_plan chunks::chunk_scatter chunks::chunk_nulls chunks::chunk_run);
    #[cfg(feature = "rows")]
    add!(m: program::program);
    Ok(())
}
