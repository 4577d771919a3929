//! Columns: a schema and an array that belong together.
use super::error::Error;
use super::interface::{ArrowArray, ArrowSchema};
use super::layout::Kind;
use super::node::Node;
use super::steps::Step;
use vortex_select_sys::arrow as sys;

/// A column in Arrow's memory: an array, and the schema that says what it is. Both are released
/// when the column is dropped.
///
/// A column can be sent to another thread and shared between threads. Its memory is only read
/// through `&Column`, and all calls that replace structs take `&mut Column`. Arrow's interface lets
/// any thread release a struct.
#[derive(Debug)]
pub struct Column {
    pub(super) schema: ArrowSchema,
    pub(super) array: ArrowArray,
}

/// Returns the error of a released struct.
fn test_released(schema: &ArrowSchema, array: &ArrowArray) -> Result<(), Error> {
    let released = match (schema.is_released(), array.is_released()) {
        (false, false) => return Ok(()),
        (true, _) => "schema",
        _ => "array",
    };
    Err(Error::Shape(format!(
        "expected a column, got a released {released}"
    )))
}

fn done(status: u64) -> Result<(), Error> {
    match status {
        sys::status::DONE => Ok(()),
        status => Err(Error::of_status(status)),
    }
}

impl Column {
    /// Makes a column of two structs of another crate or another language. Both are moved, and are
    /// marked as released where they were.
    ///
    /// Structs that are released already make a released column, which all calls reject.
    ///
    /// # Safety
    /// - Both pointers lead to structs as Arrow's C Data Interface has them, and nothing else
    ///   releases them or writes to what they lead to.
    /// - The schema is the array's, and its buffers are as long as the two say.
    /// - The contents are valid: the column passed [`Column::check`], or its producer is trusted.
    pub unsafe fn from_raw(schema: *mut ArrowSchema, array: *mut ArrowArray) -> Self {
        // SAFETY: the pointers lead to structs, as the caller promises.
        unsafe {
            Column {
                schema: ArrowSchema::moved_out(schema),
                array: ArrowArray::moved_out(array),
            }
        }
    }

    /// Returns the two structs, which the caller then owns.
    pub fn into_raw(self) -> (ArrowSchema, ArrowArray) {
        (self.schema, self.array)
    }

    /// Returns whether the schema or the array is released.
    pub fn is_released(&self) -> bool {
        self.schema.is_released() || self.array.is_released()
    }

    /// Returns the column for reading.
    pub fn node(&self) -> Node<'_> {
        Node::of(&self.schema, &self.array)
    }

    /// Returns the number of rows.
    pub fn len(&self) -> usize {
        self.node().len()
    }

    /// Returns whether there is no row.
    pub fn is_empty(&self) -> bool {
        self.len() == 0
    }

    /// Returns whether a row may be null.
    pub fn is_nullable(&self) -> bool {
        self.node().is_nullable()
    }

    /// Returns a copy of the schema.
    pub fn copy_schema(&self) -> Result<ArrowSchema, Error> {
        copy_schema(&self.schema)
    }

    /// Returns a column of the same rows in the same memory, which is released on its own.
    pub fn share(&mut self) -> Result<Column, Error> {
        test_released(&self.schema, &self.array)?;
        let mut shared = Column {
            schema: self.copy_schema()?,
            array: ArrowArray::empty(),
        };
        // SAFETY: the array isn't released, and nothing else reads it meanwhile.
        done(unsafe { sys::vortex_arrow_share(&mut self.array.0, &mut shared.array.0) })?;
        Ok(shared)
    }

    /// Returns the rows from `start` up to `end`, in the same memory. It is released on its own,
    /// and the time doesn't depend on the number of rows.
    ///
    /// No row is tested. Strings whose offsets then lead past their bytes are
    /// [`Error::NoMeaning`]: see [`Column::check`].
    ///
    /// ```
    /// use vortex_select::arrow::{Column, Error};
    ///
    /// let mut names = Column::texts(&[Some("ann"), None, Some("bo")]);
    /// let last = names.slice(1, 3)?;
    /// drop(names);
    /// assert_eq!(last.to_texts(), Some(vec![None, Some("bo")]));
    /// # Ok::<(), Error>(())
    /// ```
    pub fn slice(&mut self, start: u64, end: u64) -> Result<Column, Error> {
        test_released(&self.schema, &self.array)?;
        let mut sliced = Column {
            schema: self.copy_schema()?,
            array: ArrowArray::empty(),
        };
        let mut fault = sys::Fault::none();
        // SAFETY: both structs are those of a column, and nothing else reads them meanwhile.
        let status = unsafe {
            sys::vortex_arrow_slice(
                &self.schema.0,
                &mut self.array.0,
                start,
                end,
                &mut sliced.array.0,
                &mut fault,
            )
        };
        if status != sys::status::DONE {
            return Err(Error::of_fault(&fault, &[]));
        }
        // The slice is within the rows, so that its end is a row's number.
        if !self.node().ends_within(end as usize) {
            return Err(Error::NoMeaning(
                "offsets: expected a last one within the data, got a higher one".into(),
            ));
        }
        Ok(sliced)
    }

    /// Tests that the contents are valid: offsets, type ids, views, codes, map entries, null counts
    /// and lengths of children.
    ///
    /// The lengths of buffers aren't tested: an array doesn't have them.
    pub fn check(&mut self) -> Result<(), Error> {
        test_released(&self.schema, &self.array)?;
        let mut fault = sys::Fault::none();
        // SAFETY: both structs are those of a column, and nothing else reads them meanwhile.
        let status =
            unsafe { sys::vortex_arrow_check_array(&self.schema.0, &mut self.array.0, &mut fault) };
        match status {
            sys::status::DONE => Ok(()),
            _ => Err(Error::of_fault(&fault, &[])),
        }
    }

    /// Returns the children, moved out. Those of structs, sparse unions and lists of a fixed size
    /// have the column's rows; those of other lists and unions have all their rows.
    ///
    /// A child is a released column if the parent's is, or if it has strings whose offsets aren't
    /// valid: see [`Column::check`].
    pub fn into_children(self) -> Vec<Column> {
        let (count, rows) = (self.node().children().len(), self.rows_of_children());
        let child = |k: usize| {
            // SAFETY: both structs have so many children.
            let places = unsafe {
                let schema = *self.schema.0.children.add(k);
                (
                    schema.cast::<ArrowSchema>(),
                    (*self.array.0.children.add(k)).cast::<ArrowArray>(),
                )
            };
            if places.0.is_null() || places.1.is_null() {
                return Column {
                    schema: ArrowSchema::empty(),
                    array: ArrowArray::empty(),
                };
            }
            // SAFETY: a child may be moved out of a parent that is released later.
            let child = unsafe { Column::from_raw(places.0, places.1) };
            match rows {
                Some((start, len)) => child.sliced(start, len),
                None => child,
            }
        };
        (0..count).map(child).collect()
    }

    /// Returns the rows of the children that are those of the column, if that is a range.
    fn rows_of_children(&self) -> Option<(usize, usize)> {
        let (node, kind) = (self.node(), self.node().layout().ok()?.kind);
        let width = match kind {
            Kind::Struct | Kind::SparseUnion => 1,
            Kind::FixedList(width) => width,
            _ => return None,
        };
        Some((
            node.offset().saturating_mul(width),
            node.len().saturating_mul(width),
        ))
    }

    /// Narrows the column to `len` rows from `start` on, or to those of them that it has.
    ///
    /// Strings whose offsets then lead past their bytes make a released column.
    fn sliced(mut self, start: usize, len: usize) -> Column {
        let had = self.len();
        let start = start.min(had);
        let len = len.min(had - start);
        if len == had {
            return self;
        }
        if !self.node().ends_within(start + len) {
            return Column {
                schema: ArrowSchema::empty(),
                array: ArrowArray::empty(),
            };
        }
        let array = &mut self.array.0;
        // Rows are fewer than 2^63, so that these numbers are too.
        array.offset = array.offset.saturating_add(start as i64);
        array.length = len as i64;
        array.null_count = match array.null_count {
            0 => 0,
            all if all == had as i64 => array.length,
            _ => -1,
        };
        self
    }
}

/// Returns a copy of a schema.
pub(super) fn copy_schema(schema: &ArrowSchema) -> Result<ArrowSchema, Error> {
    if schema.is_released() {
        return Err(Error::Shape("expected a schema, got a released one".into()));
    }
    let mut copy = ArrowSchema::empty();
    // SAFETY: the schema isn't released, and the copy is written alone.
    done(unsafe { sys::vortex_arrow_copy_schema(&schema.0, &mut copy.0) })?;
    Ok(copy)
}

/// Returns the rows that the steps select of a column.
///
/// The column keeps its rows. It shares dictionaries, and what views lead to, with the result.
pub fn select(column: &mut Column, steps: &[Step]) -> Result<Column, Error> {
    // SAFETY: a column's schema and array are as Arrow has them.
    let (schema, array) = unsafe { select_arrow(&column.schema, &mut column.array, steps)? };
    Ok(Column { schema, array })
}

/// Returns the rows that the steps select of an array.
///
/// # Safety
/// As for [`Column::from_raw`].
pub unsafe fn select_arrow(
    schema: &ArrowSchema,
    array: &mut ArrowArray,
    steps: &[Step],
) -> Result<(ArrowSchema, ArrowArray), Error> {
    test_released(schema, array)?;
    let images: Vec<sys::Step> = steps.iter().map(Step::image).collect();
    let (mut out_schema, mut out_array) = (ArrowSchema::empty(), ArrowArray::empty());
    let mut fault = sys::Fault::none();
    // SAFETY: the structs are as the caller promises, and the lists of the steps are borrowed.
    let status = unsafe {
        sys::vortex_select_arrow(
            &schema.0,
            &mut array.0,
            images.as_ptr(),
            images.len(),
            &mut out_schema.0,
            &mut out_array.0,
            &mut fault,
        )
    };
    if status == sys::status::DONE {
        Ok((out_schema, out_array))
    } else {
        Err(Error::of_fault(&fault, steps))
    }
}
