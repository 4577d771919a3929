//! Rows of several columns as one.
use super::column::Column;
use super::error::Error;
use super::interface::ArrowArray;
use super::node::Node;
use vortex_select_sys::arrow as sys;

pub use vortex_select_sys::arrow::Span;

/// The flag of a field that may be null.
const NULLABLE: i64 = 2;

/// Returns whether two columns have one type: format, names, and what may be null.
fn are_alike(one: Node<'_>, other: Node<'_>, is_top: bool) -> bool {
    let (below, others) = (one.children(), other.children());
    let dictionaries = match (one.dictionary(), other.dictionary()) {
        (None, None) => true,
        (Some(one), Some(other)) => are_alike(one, other, true),
        _ => false,
    };
    let mut pairs = below.into_iter().zip(others.clone());
    one.format() == other.format()
        && (is_top || one.name() == other.name())
        && one.flags() & NULLABLE == other.flags() & NULLABLE
        && one.children().len() == others.len()
        && dictionaries
        && pairs.all(|(one, other)| are_alike(one, other, false))
}

/// Tests that there are columns, and that all have the type of the first one.
fn test_alike(columns: &[Column]) -> Result<(), Error> {
    let Some(first) = columns.first() else {
        return Err(Error::Shape("expected at least one column, got none".into()));
    };
    if columns.iter().any(Column::is_released) {
        return Err(Error::Shape("expected columns, got a released one".into()));
    }
    let unlike = |column: &Column| !are_alike(first.node(), column.node(), true);
    match columns.iter().position(unlike) {
        None => Ok(()),
        Some(number) => Err(Error::Unlike(format!(
            "column {number}: expected the type of column 0, got another"
        ))),
    }
}

/// Returns rows of several columns of one type as one column: those of the first span, then those
/// of the second, and so on. It has the name and the metadata of the first column.
///
/// The rows are copied. Dictionaries are shared with the first column, and have to be equal.
///
/// ```
/// use vortex_select::arrow::{interleave, Column, Error, Span};
///
/// let mut names = [Column::texts(&[Some("ann"), None]), Column::texts(&[Some("bo")])];
/// let spans = [(1, 0), (0, 1), (0, 0)].map(|(column, start)| Span { column, start, len: 1 });
/// let mixed = interleave(&mut names, &spans)?;
/// assert_eq!(mixed.to_texts(), Some(vec![Some("bo"), None, Some("ann")]));
/// # Ok::<(), Error>(())
/// ```
///
/// # Errors
/// - [`Error::Unlike`]: the columns differ in type or dictionary.
/// - [`Error::Beyond`]: a span is past the rows of its column, or there is no such column.
/// - [`Error::Shape`]: there is no column, or one is released.
/// - [`Error::NoMeaning`], [`Error::Overflow`], [`Error::Format`], [`Error::NoMemory`]: as of
///   [`select`](super::select).
pub fn interleave(columns: &mut [Column], spans: &[Span]) -> Result<Column, Error> {
    test_alike(columns)?;
    let schema = columns[0].copy_schema()?;
    let place = |column: &mut Column| -> *mut sys::ArrowArray { &mut column.array.0 };
    let arrays: Vec<*mut sys::ArrowArray> = columns.iter_mut().map(place).collect();
    let mut out = ArrowArray::empty();
    let mut fault = sys::Fault::none();
    // SAFETY: the arrays are those of columns of the schema's type, which are borrowed to be
    // changed, and both lists are borrowed.
    let status = unsafe {
        sys::vortex_interleave_arrow(
            &schema.0,
            arrays.as_ptr(),
            arrays.len(),
            spans.as_ptr(),
            spans.len(),
            &mut out.0,
            &mut fault,
        )
    };
    match status {
        sys::status::DONE => Ok(Column { schema, array: out }),
        _ => Err(Error::of_fault(&fault, &[])),
    }
}

/// Returns all rows of several columns of one type, end to end.
///
/// ```
/// use vortex_select::arrow::{concatenate, Column, Error};
///
/// let mut numbers = [Column::numbers(&[Some(1), None]), Column::numbers(&[Some(3)])];
/// let all = concatenate(&mut numbers)?;
/// assert_eq!(all.to_numbers(), Some(vec![Some(1), None, Some(3)]));
/// # Ok::<(), Error>(())
/// ```
///
/// # Errors
/// As of [`interleave`].
pub fn concatenate(columns: &mut [Column]) -> Result<Column, Error> {
    let all = |(number, column): (usize, &Column)| Span {
        column: number as u64,
        start: 0,
        len: column.len() as u64,
    };
    let spans: Vec<Span> = columns.iter().enumerate().map(all).collect();
    interleave(columns, &spans)
}
