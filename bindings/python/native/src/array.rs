//! Arrays: columns in Arrow's memory that objects of Python own.
use crate::capsules::{capsule, held_in};
use crate::gil;
use crate::memory::{Held, Source};
use crate::steps::{raised, Steps, Written};
use pyo3::exceptions::{PyMemoryError, PyValueError};
use pyo3::ffi;
use pyo3::prelude::*;
use pyo3::types::{PyBytes, PyString, PyTuple};
use pyo3::AsPyPointer;
use std::mem::ManuallyDrop;
use std::os::raw::{c_int, c_void};
use std::sync::atomic::{AtomicUsize, Ordering};
use std::sync::{Arc, Mutex, MutexGuard, PoisonError};
use vortex_select::arrow::{
    self, ArrowArray, ArrowArrayStream, ArrowSchema, Column, Field, Span, Stream,
};

/// A column that is released when its last owner is dropped.
///
/// The array is reference-counted from the start: the first share replaces an array by one that is,
/// and later shares change nothing. So what a `Node` points to stays at its place.
struct Owned(ManuallyDrop<Mutex<Column>>);

/// The number of columns that are alive, for tests of leaks.
static ALIVE: AtomicUsize = AtomicUsize::new(0);

/// Returns the number of arrays that aren't released yet.
#[pyfunction]
pub fn alive() -> usize {
    ALIVE.load(Ordering::Relaxed)
}

impl Owned {
    fn of(mut column: Column) -> PyResult<Arc<Self>> {
        drop(column.share().map_err(raised)?);
        ALIVE.fetch_add(1, Ordering::Relaxed);
        Ok(Arc::new(Owned(ManuallyDrop::new(Mutex::new(column)))))
    }

    fn lock(&self) -> MutexGuard<'_, Column> {
        self.0.lock().unwrap_or_else(PoisonError::into_inner)
    }
}

impl Drop for Owned {
    fn drop(&mut self) {
        ALIVE.fetch_sub(1, Ordering::Relaxed);
        // SAFETY: this is the only place that takes the column out.
        let column = unsafe { ManuallyDrop::take(&mut self.0) };
        if gil::is_held() {
            // SAFETY: the GIL is held. Releasing an array of somebody else's may run any code.
            unsafe { gil::keeping_exception(|| drop(column)) }
        } else {
            drop(column);
        }
    }
}

/// A column of one array.
#[pyclass(frozen, module = "vortex_select._native")]
pub struct Array {
    of: Arc<Owned>,
    length: usize,
}

impl Array {
    pub fn new(column: Column) -> PyResult<Self> {
        let length = column.len();
        Ok(Array {
            of: Owned::of(column)?,
            length,
        })
    }

    /// Returns a column of the same rows in the same memory.
    fn shared(&self) -> PyResult<Column> {
        self.of.lock().share().map_err(raised)
    }
}

#[pymethods]
impl Array {
    fn __len__(&self) -> usize {
        self.length
    }

    /// Returns the schema and the array for reading.
    #[getter]
    fn node(&self) -> Node {
        let column = self.of.lock();
        // SAFETY: the structs stay at their places for as long as `of` is there, which the node
        // has, and nothing changes them.
        let node =
            unsafe { std::mem::transmute::<arrow::Node<'_>, arrow::Node<'static>>(column.node()) };
        Node {
            node,
            of: self.of.clone(),
        }
    }

    /// Tests the whole column.
    fn check(&self, py: Python<'_>) -> PyResult<()> {
        let mut column = self.shared()?;
        gil::without(py, || column.check()).map_err(raised)
    }

    /// Returns the rows from `start` up to `end`, in the same memory.
    fn slice(&self, start: u64, end: u64) -> PyResult<Array> {
        let sliced = self.of.lock().slice(start, end);
        Array::new(sliced.map_err(raised)?)
    }

    /// Returns the children: those of a struct have the struct's own rows.
    fn split(&self) -> PyResult<Vec<Array>> {
        let children = self.shared()?.into_children();
        children.into_iter().map(Array::new).collect()
    }

    /// Returns the column under another name and with other flags.
    fn described(&self, name: &str, flags: i64) -> PyResult<Array> {
        Array::new(self.shared()?.described(name, flags).map_err(raised)?)
    }

    /// Returns capsules with a schema and an array of the same rows in the same memory.
    fn capsules(&self, py: Python<'_>) -> PyResult<(PyObject, PyObject)> {
        let (schema, array) = self.shared()?.into_raw();
        Ok((capsule(py, schema)?, capsule(py, array)?))
    }

    /// Returns a capsule with a copy of the schema.
    fn schema_capsule(&self, py: Python<'_>) -> PyResult<PyObject> {
        let schema = self.of.lock().copy_schema().map_err(raised)?;
        capsule(py, schema)
    }
}

/// A schema and an array for reading, or a child or the dictionary of such.
#[pyclass(frozen, module = "vortex_select._native")]
pub struct Node {
    node: arrow::Node<'static>,
    of: Arc<Owned>,
}

impl Node {
    fn below(&self, node: arrow::Node<'static>) -> Node {
        Node {
            node,
            of: self.of.clone(),
        }
    }
}

#[pymethods]
impl Node {
    #[getter]
    fn format(&self) -> &str {
        self.node.format()
    }

    #[getter]
    fn name<'p>(&self, py: Python<'p>) -> &'p PyString {
        PyString::new(py, &self.node.name())
    }

    #[getter]
    fn flags(&self) -> i64 {
        self.node.flags()
    }

    #[getter]
    fn metadata<'p>(&self, py: Python<'p>) -> Option<&'p PyBytes> {
        self.node.metadata().map(|bytes| PyBytes::new(py, bytes))
    }

    #[getter]
    fn length(&self) -> usize {
        self.node.len()
    }

    #[getter]
    fn offset(&self) -> usize {
        self.node.offset()
    }

    #[getter]
    fn null_count(&self) -> i64 {
        self.node.null_count()
    }

    /// Returns the buffers as memoryviews, each as long as the format and the rows need.
    #[getter]
    fn buffers<'p>(&self, py: Python<'p>) -> PyResult<&'p PyTuple> {
        let buffers = self.node.buffers().map_err(raised)?;
        let mut views = Vec::with_capacity(buffers.len());
        for bytes in buffers {
            views.push(bytes.map(|bytes| self.view(py, bytes)).transpose()?);
        }
        Ok(PyTuple::new(py, views))
    }

    /// Returns the addresses of the buffers, by which two nodes are compared.
    #[getter]
    fn places<'p>(&self, py: Python<'p>) -> PyResult<&'p PyTuple> {
        let buffers = self.node.buffers().map_err(raised)?;
        let place = |bytes: Option<&[u8]>| bytes.map_or(0, |bytes| bytes.as_ptr() as usize);
        Ok(PyTuple::new(py, buffers.into_iter().map(place)))
    }

    #[getter]
    fn children(&self) -> Vec<Node> {
        self.node
            .children()
            .into_iter()
            .map(|node| self.below(node))
            .collect()
    }

    #[getter]
    fn dictionary(&self) -> Option<Node> {
        self.node.dictionary().map(|node| self.below(node))
    }
}

impl Node {
    fn view(&self, py: Python<'_>, bytes: &'static [u8]) -> PyResult<PyObject> {
        let buffer = Py::new(
            py,
            Buffer {
                bytes,
                _of: self.of.clone(),
            },
        )?;
        // SAFETY: the buffer is an object of Python, and the result a new reference or null.
        unsafe {
            PyObject::from_owned_ptr_or_err(py, ffi::PyMemoryView_FromObject(buffer.as_ptr()))
        }
    }
}

/// A buffer of an array. Its memoryviews keep the array alive.
#[pyclass(frozen, module = "vortex_select._native")]
pub struct Buffer {
    bytes: &'static [u8], // for as long as `_of` is there
    _of: Arc<Owned>,
}

#[pymethods]
impl Buffer {
    unsafe fn __getbuffer__(
        slf: &PyCell<Self>,
        view: *mut ffi::Py_buffer,
        flags: c_int,
    ) -> PyResult<()> {
        let bytes = slf.borrow().bytes;
        let place = bytes.as_ptr() as *mut c_void;
        let (size, read_only) = (bytes.len() as ffi::Py_ssize_t, 1);
        // SAFETY: the view keeps the object, which keeps the memory; nobody may write to it.
        let status =
            unsafe { ffi::PyBuffer_FillInfo(view, slf.as_ptr(), place, size, read_only, flags) };
        if status != 0 {
            return Err(PyErr::fetch(slf.py()));
        }
        Ok(())
    }
}

/// A field as Python writes it: format, name, flags and metadata.
type Written4 = (String, String, i64, Option<Vec<u8>>);

fn field_of(written: Written4) -> Field {
    let (format, name, flags, metadata) = written;
    Field {
        format,
        name,
        flags,
        metadata,
    }
}

/// Returns an array over buffers of Python objects. Each buffer is acquired once and held.
#[pyfunction]
pub fn build(
    field: Written4,
    rows: (usize, i64, usize),
    buffers: Vec<Option<&PyAny>>,
    children: Vec<PyRef<'_, Array>>,
    dictionary: Option<PyRef<'_, Array>>,
) -> PyResult<Array> {
    let mut held: Vec<Option<Box<dyn arrow::Buffer>>> = Vec::with_capacity(buffers.len());
    for buffer in buffers {
        let buffer = buffer.map(Held::read).transpose()?;
        held.push(buffer.map(|buffer| Box::new(buffer) as Box<dyn arrow::Buffer>));
    }
    let (length, null_count, offset) = rows;
    let children = children
        .iter()
        .map(|child| child.shared())
        .collect::<PyResult<_>>()?;
    let inner = dictionary.map(|inner| inner.shared()).transpose()?;
    let field = field_of(field);
    let made = Column::from_parts(field, length, null_count, offset, held, children, inner);
    Array::new(made.map_err(raised)?)
}

/// Returns the array of two capsules, which are consumed.
#[pyfunction]
pub fn array_from_capsules(schema: &PyAny, array: &PyAny) -> PyResult<Array> {
    let (schema, array) = (
        held_in::<ArrowSchema>(schema)?,
        held_in::<ArrowArray>(array)?,
    );
    // SAFETY: whoever hands over capsules vouches for what Arrow's interface asks of the structs.
    Array::new(unsafe { Column::from_raw(schema, array) })
}

/// Returns the rows that the steps leave of an array.
#[pyfunction]
pub fn select(py: Python<'_>, array: &Array, steps: Vec<Written<'_>>) -> PyResult<Array> {
    let (mut source, steps) = (array.shared()?, Steps::of(&steps)?);
    let list = steps.list();
    let answer = gil::without(py, || arrow::select(&mut source, &list));
    Array::new(answer.map_err(raised)?)
}

fn shared(arrays: &[PyRef<'_, Array>]) -> PyResult<Vec<Column>> {
    arrays.iter().map(|array| array.shared()).collect()
}

/// Returns all rows of arrays of one type, end to end, in memory of their own.
#[pyfunction]
pub fn concatenate(py: Python<'_>, arrays: Vec<PyRef<'_, Array>>) -> PyResult<Array> {
    let mut columns = shared(&arrays)?;
    let answer = gil::without(py, || arrow::concatenate(&mut columns));
    Array::new(answer.map_err(raised)?)
}

/// Returns spans of single rows, those of one column that follow one another as one.
fn spans_of(columns: &Source, rows: &Source) -> PyResult<Vec<Span>> {
    let mut spans: Vec<Span> = Vec::new();
    for (column, start) in columns.numbers().iter().zip(rows.numbers()) {
        let (column, start) = (*column, *start);
        let next = |last: &Span| {
            last.column == column && last.start.checked_add(last.len) == Some(start)
        };
        match spans.last_mut().filter(|last| next(last)) {
            Some(last) => last.len += 1,
            None => {
                let room = spans.try_reserve(1);
                room.map_err(|_| PyMemoryError::new_err("out of memory"))?;
                spans.push(Span { column, start, len: 1 });
            }
        }
    }
    Ok(spans)
}

/// Returns rows of arrays of one type: for each k row `rows[k]` of array `columns[k]`. Both are
/// lists of 64-bit numbers.
#[pyfunction]
pub fn interleave(
    py: Python<'_>,
    arrays: Vec<PyRef<'_, Array>>,
    columns: &PyAny,
    rows: &PyAny,
) -> PyResult<Array> {
    let mut joined = shared(&arrays)?;
    let (columns, rows) = (Source::of(columns, 8)?, Source::of(rows, 8)?);
    let spans = spans_of(&columns, &rows)?;
    let answer = gil::without(py, || arrow::interleave(&mut joined, &spans));
    Array::new(answer.map_err(raised)?)
}

/// Returns the row numbers that the steps leave of `rows` rows, 64 bits each, and a validity
/// bitmap, empty if no take has one.
#[pyfunction]
pub fn compose<'p>(
    py: Python<'p>,
    rows: u64,
    steps: Vec<Written<'_>>,
) -> PyResult<(&'p PyBytes, &'p PyBytes)> {
    let steps = Steps::of(&steps)?;
    let list = steps.list();
    let picks = gil::without(py, || arrow::picks(rows, &list)).map_err(raised)?;
    let bytes = PyBytes::new_with(py, 8 * picks.places.len(), |to: &mut [u8]| {
        for (to, place) in to.chunks_exact_mut(8).zip(&picks.places) {
            to.copy_from_slice(&place.to_le_bytes());
        }
        Ok(())
    })?;
    Ok((
        bytes,
        PyBytes::new(py, picks.valid.as_deref().unwrap_or(&[])),
    ))
}

/// Reads a stream to its end: returns an array without rows that has its schema, and its batches.
fn read_all(mut stream: Stream) -> Result<(Column, Vec<Column>), arrow::Error> {
    let empty = stream.empty()?;
    let mut batches = Vec::new();
    while let Some(batch) = stream.next()? {
        batches.push(batch);
    }
    Ok((empty, batches))
}

type Batches = (Array, Vec<Array>);

fn arrays((empty, batches): (Column, Vec<Column>)) -> PyResult<Batches> {
    let batches = batches
        .into_iter()
        .map(Array::new)
        .collect::<PyResult<_>>()?;
    Ok((Array::new(empty)?, batches))
}

fn stream_in(capsule: &PyAny) -> PyResult<Stream> {
    let stream = held_in::<ArrowArrayStream>(capsule)?;
    // SAFETY: as in `array_from_capsules`.
    Ok(unsafe { Stream::from_raw(stream) })
}

/// Returns the batches of a stream, which is consumed.
///
/// The GIL is held, since the stream may run Python code.
#[pyfunction]
pub fn read_stream(py: Python<'_>, capsule: &PyAny) -> PyResult<Batches> {
    let found = read_all(stream_in(capsule)?);
    py.check_signals()?;
    arrays(found.map_err(raised)?)
}

fn selected(mut source: Stream, steps: &Steps) -> Result<(Column, Vec<Column>), arrow::Error> {
    read_all(arrow::select_stream(&mut source, &steps.list())?)
}

/// Returns the rows that the steps leave of the batches of a stream, end to end. The stream is
/// consumed.
#[pyfunction]
pub fn select_stream(
    py: Python<'_>,
    capsule: &PyAny,
    steps: Vec<Written<'_>>,
) -> PyResult<Batches> {
    let (source, steps) = (stream_in(capsule)?, Steps::of(&steps)?);
    let found = selected(source, &steps);
    py.check_signals()?;
    arrays(found.map_err(raised)?)
}

/// Returns a stream of the arrays; `schema_of` has the schema.
fn stream_of(schema_of: &Array, chunks: &[PyRef<'_, Array>]) -> PyResult<Stream> {
    let chunks = chunks
        .iter()
        .map(|chunk| chunk.shared())
        .collect::<PyResult<_>>()?;
    Stream::of(&schema_of.of.lock(), chunks).map_err(raised)
}

/// Returns the rows that the steps leave of several arrays of one type, end to end.
#[pyfunction]
pub fn select_chunks(
    py: Python<'_>,
    schema_of: &Array,
    chunks: Vec<PyRef<'_, Array>>,
    steps: Vec<Written<'_>>,
) -> PyResult<Batches> {
    let (source, steps) = (stream_of(schema_of, &chunks)?, Steps::of(&steps)?);
    let found = gil::without(py, || selected(source, &steps));
    arrays(found.map_err(raised)?)
}

/// Returns a capsule with a stream of arrays in the memory of these.
#[pyfunction]
pub fn stream_capsule(
    py: Python<'_>,
    schema_of: &Array,
    chunks: Vec<PyRef<'_, Array>>,
) -> PyResult<PyObject> {
    if chunks.iter().any(|chunk| chunk.length > i64::MAX as usize) {
        return Err(PyValueError::new_err("batch: expected fewer than 2^63 rows, got more"));
    }
    capsule(py, stream_of(schema_of, &chunks)?.into_raw())
}
