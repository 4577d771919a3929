//! A column as it is read: an array with its schema, and its children.
use super::error::Error;
use super::interface::{ArrowArray, ArrowSchema};
use super::layout::{Buffers, Kind, Layout, Source};
use super::metadata;
use std::borrow::Cow;
use std::ffi::CStr;
use std::os::raw::c_char;
use vortex_select_sys::arrow as sys;

/// A column, or a child or a dictionary of one, for reading.
///
/// Nothing is read of a struct that is released or null: it has no format, no rows and no buffers.
#[derive(Clone, Copy, Debug)]
pub struct Node<'a> {
    schema: Option<&'a sys::ArrowSchema>,
    array: Option<&'a sys::ArrowArray>,
}

// SAFETY: a node only reads, and what it reads is a column's, which is `Sync`.
unsafe impl Send for Node<'_> {}
// SAFETY: as above.
unsafe impl Sync for Node<'_> {}

/// The buffers of an array, whose lengths are trusted.
struct Trusted<'a>(&'a sys::ArrowArray);

impl<'a> Source<'a> for Trusted<'a> {
    fn bytes(&self, k: usize, _: &str, len: usize) -> Result<Option<&'a [u8]>, Error> {
        // SAFETY: an array has as many buffers as it says, of which this is one.
        let place = unsafe { *self.0.buffers.add(k) };
        if place.is_null() {
            return Ok(None);
        }
        // SAFETY: the buffer is as long as the format and the rows ask for. `Column::from_raw` has
        // the caller promise that, and `Column::from_parts` tests it.
        Ok(Some(unsafe {
            std::slice::from_raw_parts(place.cast(), len)
        }))
    }
}

/// Returns a string that ends with a byte 0.
///
/// # Safety
/// The pointer is null or leads to such a string, which lives for `'a`.
unsafe fn text<'a>(place: *const c_char) -> &'a [u8] {
    if place.is_null() {
        return &[];
    }
    // SAFETY: as the caller promises.
    unsafe { CStr::from_ptr(place) }.to_bytes()
}

/// Returns the structs that a list of pointers leads to, with `None` for null pointers.
///
/// # Safety
/// The list is null or has so many pointers, each null or to a struct that lives for `'a`.
unsafe fn structs<'a, T>(list: *mut *mut T, count: i64) -> Vec<Option<&'a T>> {
    if list.is_null() || count <= 0 {
        return Vec::new();
    }
    // SAFETY: as the caller promises.
    let places = unsafe { std::slice::from_raw_parts(list, count as usize) };
    // SAFETY: as above.
    places
        .iter()
        .map(|place| unsafe { place.as_ref() })
        .collect()
}

fn released() -> Error {
    Error::Shape("expected a column, got a released or missing struct".into())
}

impl<'a> Node<'a> {
    pub(super) fn of(schema: &'a ArrowSchema, array: &'a ArrowArray) -> Self {
        Node::of_raw(Some(&schema.0), Some(&array.0))
    }

    /// Returns a schema for reading, without an array.
    pub(super) fn of_schema(schema: &'a ArrowSchema) -> Self {
        Node::of_raw(Some(&schema.0), None)
    }

    /// Returns the children of the schema, without arrays.
    pub(super) fn schemas(&self) -> Vec<Node<'a>> {
        let schema = match self.schema {
            Some(schema) => schema,
            None => return Vec::new(),
        };
        // SAFETY: a schema has as many children as it says.
        let schemas = unsafe { structs(schema.children, schema.n_children) };
        schemas
            .into_iter()
            .map(|schema| Node::of_raw(schema, None))
            .collect()
    }

    /// Returns the dictionary of the schema, without an array.
    pub(super) fn dictionary_schema(&self) -> Option<Node<'a>> {
        // SAFETY: a schema's dictionary is null or leads to a schema.
        let schema = unsafe { self.schema?.dictionary.as_ref() }?;
        Some(Node::of_raw(Some(schema), None))
    }

    fn of_raw(schema: Option<&'a sys::ArrowSchema>, array: Option<&'a sys::ArrowArray>) -> Self {
        Node {
            schema: schema.filter(|schema| schema.release.is_some()),
            array: array.filter(|array| array.release.is_some()),
        }
    }

    fn array(&self) -> Result<&'a sys::ArrowArray, Error> {
        self.array
            .filter(|_| self.schema.is_some())
            .ok_or_else(released)
    }

    /// Returns whether the schema or the array is released or missing.
    pub fn is_released(&self) -> bool {
        self.schema.is_none() || self.array.is_none()
    }

    /// Returns the format, empty if there is none or if it isn't UTF-8.
    pub fn format(&self) -> &'a str {
        // SAFETY: a schema's format is null or a string that ends with a byte 0.
        let format = self
            .schema
            .map_or(&[][..], |schema| unsafe { text(schema.format) });
        std::str::from_utf8(format).unwrap_or("")
    }

    /// Returns the name, empty if there is none. Bytes that aren't UTF-8 are replaced.
    pub fn name(&self) -> Cow<'a, str> {
        // SAFETY: a schema's name is null or a string that ends with a byte 0.
        let name = self
            .schema
            .map_or(&[][..], |schema| unsafe { text(schema.name) });
        String::from_utf8_lossy(name)
    }

    /// Returns the flags of the schema.
    pub fn flags(&self) -> i64 {
        self.schema.map_or(0, |schema| schema.flags)
    }

    /// Returns whether the schema says that rows may be null.
    pub fn is_nullable(&self) -> bool {
        self.flags() & sys::NULLABLE != 0
    }

    /// Returns the metadata as it is encoded, `None` if there is none or a number in it is
    /// negative.
    pub fn metadata(&self) -> Option<&'a [u8]> {
        let place = self.schema?.metadata.cast::<u8>();
        if place.is_null() {
            return None;
        }
        // SAFETY: metadata has the bytes that its numbers say, and none further on is read.
        let read = |at| Some(unsafe { place.add(at).cast::<[u8; 4]>().read_unaligned() });
        let size = metadata::size(read, isize::MAX as usize)?;
        // SAFETY: as above.
        Some(unsafe { std::slice::from_raw_parts(place, size) })
    }

    /// Returns the number of rows, 0 if it is negative.
    pub fn len(&self) -> usize {
        self.array
            .map_or(0, |array| usize::try_from(array.length).unwrap_or(0))
    }

    /// Returns whether there is no row.
    pub fn is_empty(&self) -> bool {
        self.len() == 0
    }

    /// Returns how many rows of the buffers come before the first row, 0 if that is negative.
    pub fn offset(&self) -> usize {
        self.array
            .map_or(0, |array| usize::try_from(array.offset).unwrap_or(0))
    }

    /// Returns how many rows are null, or -1 if that isn't known.
    pub fn null_count(&self) -> i64 {
        self.array.map_or(0, |array| array.null_count)
    }

    pub(super) fn layout(&self) -> Result<Layout, Error> {
        self.array()?;
        Layout::of(self.format())
    }

    /// Returns the row after the last one, counted from the start of the buffers.
    pub(super) fn end(&self) -> Result<usize, Error> {
        let array = self.array()?;
        Layout::end(array.length, array.offset)
    }

    /// Returns the buffers from their start on, each as long as the format, the offset and the
    /// length ask for, and `None` for a null pointer.
    ///
    /// Strings have as many bytes as their last offset says, and the buffers that views lead to as
    /// many as the last buffer says.
    pub fn buffers(&self) -> Result<Vec<Option<&'a [u8]>>, Error> {
        let (array, end) = (self.array()?, self.end()?);
        let count = usize::try_from(array.n_buffers).unwrap_or(usize::MAX);
        if array.buffers.is_null() && count > 0 {
            return Err(Error::Shape("buffers: expected a list, got null".into()));
        }
        let buffers: Buffers<'a> = self.layout()?.buffers(end, count, &Trusted(array))?;
        Ok(buffers)
    }

    /// Returns whether the first `len` rows have no bytes past those of all rows. That is tested of
    /// strings, whose last offset says how many bytes they have.
    pub(super) fn ends_within(&self, len: usize) -> bool {
        let layout = match self.layout() {
            Ok(layout) if matches!(layout.kind, Kind::Strings(_)) => layout,
            _ => return true,
        };
        let buffers = self.buffers().unwrap_or_default();
        let data = buffers.get(2).copied().flatten().unwrap_or(&[]);
        let ends = buffers.get(1).copied().flatten();
        let last = layout.last_offset(ends, self.offset() + len);
        last.map_or(false, |last| last <= data.len())
    }

    /// Returns the children, none if schema and array don't have the same number of them.
    pub fn children(&self) -> Vec<Node<'a>> {
        let (schema, array) = match (self.schema, self.array) {
            (Some(schema), Some(array)) if schema.n_children == array.n_children => (schema, array),
            _ => return Vec::new(),
        };
        // SAFETY: a schema has as many children as it says.
        let schemas = unsafe { structs(schema.children, schema.n_children) };
        // SAFETY: an array has as many children as it says.
        let arrays = unsafe { structs(array.children, array.n_children) };
        let both = schemas.into_iter().zip(arrays);
        both.map(|(schema, array)| Node::of_raw(schema, array))
            .collect()
    }

    /// Returns the dictionary, if schema and array have one.
    pub fn dictionary(&self) -> Option<Node<'a>> {
        // SAFETY: a schema's dictionary is null or leads to a schema.
        let schema = unsafe { self.schema?.dictionary.as_ref() }?;
        // SAFETY: an array's dictionary is null or leads to an array.
        let array = unsafe { self.array?.dictionary.as_ref() }?;
        Some(Node::of_raw(Some(schema), Some(array)))
    }
}
