//! Structs as another language reads and makes them.
use std::ffi::CStr;
use std::os::raw::c_char;
use vortex_select::arrow::{ArrowArray, ArrowSchema, Column};
use vortex_select_sys::arrow as sys;

/// The fields of a schema.
pub fn schema_of(schema: &ArrowSchema) -> &sys::ArrowSchema {
    // SAFETY: the wrapper has the layout of the struct.
    unsafe { &*(schema as *const ArrowSchema).cast() }
}

/// The fields of an array.
pub fn array_of(array: &ArrowArray) -> &sys::ArrowArray {
    // SAFETY: the wrapper has the layout of the struct.
    unsafe { &*(array as *const ArrowArray).cast() }
}

/// A string of a struct.
pub fn text(place: *const c_char) -> String {
    assert!(!place.is_null());
    // SAFETY: strings of structs end with a byte 0.
    unsafe { CStr::from_ptr(place) }
        .to_str()
        .unwrap()
        .to_string()
}

/// Changes the fields of a column by functions.
pub fn changed(
    column: Column,
    schema: impl FnOnce(&mut sys::ArrowSchema),
    array: impl FnOnce(&mut sys::ArrowArray),
) -> Column {
    let (mut raw_schema, mut raw_array) = column.into_raw();
    // SAFETY: the wrappers have the layout of the structs.
    unsafe {
        schema(&mut *(&mut raw_schema as *mut ArrowSchema).cast());
        array(&mut *(&mut raw_array as *mut ArrowArray).cast());
        Column::from_raw(&mut raw_schema, &mut raw_array)
    }
}

/// Changes the fields of a column's array.
pub fn with_array(column: Column, change: impl FnOnce(&mut sys::ArrowArray)) -> Column {
    changed(column, |_| (), change)
}

/// The same rows from another producer: the shim's copies in place of structs made here.
pub fn foreign(mut column: Column) -> Column {
    column.share().unwrap()
}
