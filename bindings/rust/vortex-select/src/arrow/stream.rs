//! Streams of columns.
use super::column::{copy_schema, Column};
use super::error::Error;
use super::interface::{ArrowArray, ArrowArrayStream, ArrowSchema};
use super::node::Node;
use super::steps::Step;
use std::collections::VecDeque;
use std::ffi::{CStr, CString};
use std::os::raw::{c_char, c_int};
use std::ptr::null;
use vortex_select_sys::arrow as sys;

// Numbers of errors on Linux.
const ENOMEM: c_int = 12;
const EINVAL: c_int = 22;
const EOVERFLOW: c_int = 75;

/// A stream of columns of one type, by Arrow's C Stream Interface. It is released when it is
/// dropped.
#[derive(Debug)]
pub struct Stream {
    raw: ArrowArrayStream,
    schema: Option<ArrowSchema>,
}

/// What a stream made here owns.
struct Chunks {
    schema: ArrowSchema,
    left: VecDeque<ArrowArray>,
    error: CString,
}

fn errno_of(error: &Error) -> c_int {
    match error {
        Error::NoMemory => ENOMEM,
        Error::Overflow(_) => EOVERFLOW,
        _ => EINVAL,
    }
}

/// Returns the chunks of a stream made here.
///
/// # Safety
/// The stream is made here and isn't released, and nothing else uses it for the time of `'a`.
unsafe fn chunks<'a>(stream: *mut sys::ArrowArrayStream) -> &'a mut Chunks {
    // SAFETY: such a stream has a box of chunks.
    unsafe { &mut *(*stream).private_data.cast::<Chunks>() }
}

unsafe extern "C" fn get_schema(
    stream: *mut sys::ArrowArrayStream,
    out: *mut sys::ArrowSchema,
) -> c_int {
    // SAFETY: a consumer hands over the stream that has this function.
    let chunks = unsafe { chunks(stream) };
    let (number, schema) = match copy_schema(&chunks.schema) {
        Ok(schema) => (0, schema),
        Err(error) => {
            chunks.error = CString::new(error.to_string()).unwrap_or_default();
            (errno_of(&error), ArrowSchema::empty())
        }
    };
    // SAFETY: the consumer hands over memory for a schema, whose contents aren't read.
    unsafe { out.cast::<ArrowSchema>().write(schema) };
    number
}

unsafe extern "C" fn get_next(
    stream: *mut sys::ArrowArrayStream,
    out: *mut sys::ArrowArray,
) -> c_int {
    // SAFETY: a consumer hands over the stream that has this function.
    let next = unsafe { chunks(stream) }.left.pop_front();
    let next = next.unwrap_or_else(ArrowArray::empty);
    // SAFETY: the consumer hands over memory for an array, whose contents aren't read.
    unsafe { out.cast::<ArrowArray>().write(next) };
    0
}

unsafe extern "C" fn get_last_error(stream: *mut sys::ArrowArrayStream) -> *const c_char {
    // SAFETY: a consumer hands over the stream that has this function.
    let error = unsafe { &chunks(stream).error };
    if error.as_bytes().is_empty() {
        null()
    } else {
        error.as_ptr()
    }
}

unsafe extern "C" fn release(stream: *mut sys::ArrowArrayStream) {
    // SAFETY: a consumer hands over the stream that has this function, and releases it once.
    unsafe {
        (*stream).release = None;
        drop(Box::from_raw((*stream).private_data.cast::<Chunks>()));
    }
}

/// Columns of a type that are compared at most: children that are shared may make them countless.
const MOST_NODES: usize = 65_536;

/// Returns the children and the dictionary of two columns in pairs, if they have as many.
fn paired<'a>(left: Node<'a>, right: Node<'a>) -> Option<Vec<(Node<'a>, Node<'a>)>> {
    let nested = |node: Node<'a>| -> (Vec<Node<'a>>, Option<Node<'a>>) {
        (node.children(), node.dictionary())
    };
    let ((lefts, left), (rights, right)) = (nested(left), nested(right));
    if lefts.len() != rights.len() || left.is_some() != right.is_some() {
        return None;
    }
    let children = lefts.into_iter().zip(rights);
    Some(children.chain(left.into_iter().zip(right)).collect())
}

/// Tests that two columns have the same formats, with their children and dictionaries.
fn test_alike(k: usize, wanted: Node<'_>, found: Node<'_>) -> Result<(), Error> {
    let mut pending = vec![(wanted, found)];
    for _ in 0..MOST_NODES {
        let (left, right) = match pending.pop() {
            Some(pair) => pair,
            None => return Ok(()),
        };
        let pairs = paired(left, right).filter(|_| left.format() == right.format());
        pending.extend(pairs.ok_or_else(|| {
            Error::Shape(format!(
                "chunk {k}: expected the type of the stream, {:?}, got {:?}",
                wanted.format(),
                found.format()
            ))
        })?);
    }
    Err(Error::Depth(format!(
        "chunk {k}: expected at most {MOST_NODES} nested columns, got more"
    )))
}

/// Returns the error of a stream that is released, or lacks a function.
fn test_whole(stream: &sys::ArrowArrayStream) -> Result<(), Error> {
    if stream.release.is_none() {
        return Err(Error::Shape("expected a stream, got a released one".into()));
    }
    let has_both = stream.get_schema.is_some() && stream.get_next.is_some();
    if has_both && stream.get_last_error.is_some() {
        return Ok(());
    }
    Err(Error::Shape(
        "expected a stream with all its functions, got a null pointer".into(),
    ))
}

impl Stream {
    /// Makes a stream of a struct of another crate or another language, which is moved, and is
    /// marked as released where it was.
    ///
    /// # Safety
    /// - The pointer leads to a struct as Arrow's C Stream Interface has it.
    /// - Its batches are arrays of its schema, and meet the duties of [`Column::from_raw`].
    pub unsafe fn from_raw(stream: *mut ArrowArrayStream) -> Self {
        Stream {
            // SAFETY: the pointer leads to a stream, as the caller promises.
            raw: unsafe { ArrowArrayStream::moved_out(stream) },
            schema: None,
        }
    }

    /// Returns the struct, which the caller then owns.
    pub fn into_raw(self) -> ArrowArrayStream {
        self.raw
    }

    /// Makes a stream of columns that have the type of `schema_of`.
    pub fn of(schema_of: &Column, chunks: Vec<Column>) -> Result<Stream, Error> {
        let schema = schema_of.copy_schema()?;
        for (k, chunk) in chunks.iter().enumerate() {
            test_alike(k, schema_of.node(), chunk.node())?;
        }
        let held = Box::new(Chunks {
            schema,
            left: chunks.into_iter().map(|chunk| chunk.into_raw().1).collect(),
            error: CString::default(),
        });
        let mut raw = ArrowArrayStream::empty();
        raw.0.get_schema = Some(get_schema);
        raw.0.get_next = Some(get_next);
        raw.0.get_last_error = Some(get_last_error);
        raw.0.release = Some(release);
        raw.0.private_data = Box::into_raw(held).cast();
        Ok(Stream { raw, schema: None })
    }

    /// Returns whether the stream is released.
    pub fn is_released(&self) -> bool {
        self.raw.is_released()
    }

    /// Returns the schema of all batches.
    pub fn schema(&mut self) -> Result<ArrowSchema, Error> {
        if let Some(schema) = &self.schema {
            return copy_schema(schema);
        }
        test_whole(&self.raw.0)?;
        let mut schema = ArrowSchema::empty();
        let get = self.raw.0.get_schema;
        // SAFETY: the stream isn't released, and it is used by `&mut` alone.
        let number = get.map_or(0, |get| unsafe { get(&mut self.raw.0, &mut schema.0) });
        if number != 0 {
            // What a failing call wrote isn't a schema.
            std::mem::forget(schema);
            return Err(self.error_of(number));
        }
        let copy = copy_schema(&schema)?;
        self.schema = Some(schema);
        Ok(copy)
    }

    /// Returns the next batch, and `None` at the end.
    #[allow(clippy::should_implement_trait)] // It fails in a way that an iterator can't.
    pub fn next(&mut self) -> Result<Option<Column>, Error> {
        let schema = self.schema()?;
        test_whole(&self.raw.0)?;
        let mut array = ArrowArray::empty();
        let get = self.raw.0.get_next;
        // SAFETY: the stream isn't released, and it is used by `&mut` alone.
        let number = get.map_or(0, |get| unsafe { get(&mut self.raw.0, &mut array.0) });
        if number != 0 {
            // What a failing call wrote isn't an array.
            std::mem::forget(array);
            return Err(self.error_of(number));
        }
        if array.is_released() {
            return Ok(None);
        }
        Ok(Some(Column { schema, array }))
    }

    /// Returns the error of a call of the stream that failed.
    fn error_of(&mut self, number: c_int) -> Error {
        if number == ENOMEM {
            return Error::NoMemory;
        }
        // SAFETY: the stream isn't released, and it is used by `&mut` alone.
        let words = self
            .raw
            .0
            .get_last_error
            .map(|get| unsafe { get(&mut self.raw.0) });
        let words = match words.filter(|words| !words.is_null()) {
            // SAFETY: the words end with a byte 0, and live until the next call of the stream.
            Some(words) => unsafe { CStr::from_ptr(words) }
                .to_string_lossy()
                .into_owned(),
            None => format!("the source stream failed with error {number}, and gave no message"),
        };
        match number {
            EOVERFLOW => Error::Overflow(words),
            _ => Error::Source(words),
        }
    }
}

/// Returns a stream of the rows that the steps select of all batches of a stream, end to end.
///
/// The source is read to its end. The result has a batch for each longest run of selected rows that
/// are of one batch of the source.
pub fn select_stream(source: &mut Stream, steps: &[Step]) -> Result<Stream, Error> {
    test_whole(&source.raw.0)?;
    let images: Vec<sys::Step> = steps.iter().map(Step::image).collect();
    let mut raw = ArrowArrayStream::empty();
    let mut fault = sys::Fault::none();
    // SAFETY: the source isn't released and is used by `&mut` alone, and the lists of the steps
    // are borrowed.
    let status = unsafe {
        sys::vortex_select_arrow_stream(
            &mut source.raw.0,
            images.as_ptr(),
            images.len(),
            &mut raw.0,
            &mut fault,
        )
    };
    match status {
        sys::status::DONE => Ok(Stream { raw, schema: None }),
        _ => Err(Error::of_fault(&fault, steps)),
    }
}
