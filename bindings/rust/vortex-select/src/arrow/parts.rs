//! Columns made of buffers, whose lengths are tested.
use super::column::Column;
use super::error::Error;
use super::held::{made_array, made_schema, Texts};
use super::layout::{Kind, Layout, Slot, Source, MOST_ROWS};
use super::metadata;
use std::ffi::CString;

/// Memory that a column reads.
///
/// # Safety
/// `size` bytes at `data` stay readable at that place until the value is dropped. `data` and `size`
/// always return the same. If anything may write to the bytes until then, `may_change` returns true.
pub unsafe trait Buffer: Send + Sync {
    /// Returns the place of the first byte.
    fn data(&self) -> *const u8;

    /// Returns the number of bytes.
    fn size(&self) -> usize;

    /// Returns whether anything may write to the bytes. [`Column::from_parts`] then copies offsets,
    /// sizes, type ids and views, since readers are bounded by them.
    fn may_change(&self) -> bool {
        false
    }
}

// SAFETY: the bytes of a list stay in their place, and nothing writes to one that is owned.
unsafe impl Buffer for Vec<u8> {
    fn data(&self) -> *const u8 {
        self.as_ptr()
    }

    fn size(&self) -> usize {
        self.len()
    }
}

/// What a schema says of a column.
#[derive(Clone, Debug, Default, PartialEq, Eq)]
pub struct Field {
    /// The format of Arrow's C Data Interface.
    pub format: String,
    /// The name.
    pub name: String,
    /// Bits: ordered dictionary (1), nullable (2), sorted keys (4).
    pub flags: i64,
    /// The metadata as the interface encodes it.
    pub metadata: Option<Vec<u8>>,
}

impl Field {
    fn texts(self) -> Result<Texts, Error> {
        let name = CString::new(self.name).map_err(|error| {
            let place = error.nul_position();
            Error::Shape(format!("name: expected no byte 0, got one at {place}"))
        })?;
        let format = CString::new(self.format);
        if self
            .metadata
            .as_ref()
            .map_or(false, |bytes| metadata::size_within(bytes).is_none())
        {
            let whole = "metadata: expected a count and as many pairs, got fewer bytes";
            return Err(Error::Shape(whole.into()));
        }
        Ok(Texts {
            format: format.map_err(|_| Error::Format("expected no byte 0 in a format".into()))?,
            name,
            flags: self.flags,
            metadata: self.metadata,
        })
    }
}

/// Buffers whose lengths are tested.
struct Tested<'a>(&'a [Option<Box<dyn Buffer>>]);

impl<'a> Source<'a> for Tested<'a> {
    fn bytes(&self, k: usize, name: &str, len: usize) -> Result<Option<&'a [u8]>, Error> {
        let buffer = self.0[k].as_ref().filter(|buffer| !buffer.data().is_null());
        let may_be_null = len == 0 || name == Slot::Validity.name();
        let (place, size) = match buffer {
            Some(buffer) => (buffer.data(), buffer.size()),
            None if may_be_null => return Ok(None),
            None => {
                return Err(Error::Shape(format!(
                    "{name}: expected {len} bytes, got null"
                )))
            }
        };
        if size < len {
            return Err(Error::Shape(format!(
                "{name}: expected {len} bytes, got {size}"
            )));
        }
        // SAFETY: the buffer has so many bytes, which stay readable for as long as it lives.
        Ok(Some(unsafe { std::slice::from_raw_parts(place, len) }))
    }
}

/// Copies the first `len` bytes of a buffer, or all of them if there are fewer.
fn copied(buffer: &dyn Buffer, len: usize) -> Result<Box<dyn Buffer>, Error> {
    let mut copy: Vec<u8> = Vec::new();
    let len = len.min(buffer.size());
    copy.try_reserve_exact(len).map_err(|_| Error::NoMemory)?;
    // SAFETY: the buffer has so many bytes, the copy has room for them, and memory that was just
    // allocated doesn't overlap them.
    unsafe {
        std::ptr::copy_nonoverlapping(buffer.data(), copy.as_mut_ptr(), len);
        copy.set_len(len);
    }
    Ok(Box::new(copy))
}

/// Copies the buffers that lead to places of others, if they may change.
fn settle(
    layout: &Layout,
    end: usize,
    buffers: &mut [Option<Box<dyn Buffer>>],
) -> Result<(), Error> {
    for (k, len) in layout.leading(end, buffers.len()) {
        let buffer = match buffers.get_mut(k) {
            Some(Some(buffer)) if buffer.may_change() && !buffer.data().is_null() => buffer,
            _ => continue,
        };
        *buffer = copied(buffer.as_ref(), len)?;
    }
    Ok(())
}

/// The numbers of an array.
#[derive(Clone, Copy)]
struct Rows {
    len: usize,
    offset: usize,
    end: usize,
    null_count: i64,
}

impl Rows {
    fn of(len: usize, null_count: i64, offset: usize) -> Result<Rows, Error> {
        let bounded = |number: usize| i64::try_from(number).unwrap_or(i64::MAX);
        let end = Layout::end(bounded(len), bounded(offset))?;
        if null_count < -1 || null_count > bounded(len) {
            return Err(Error::Shape(format!(
                "null count: expected -1 or up to {len}, got {null_count}"
            )));
        }
        Ok(Rows {
            len,
            offset,
            end,
            null_count,
        })
    }

    fn numbers(self) -> [i64; 3] {
        // Both are less than 2^60.
        [self.len as i64, self.null_count, self.offset as i64]
    }
}

/// Tests that nulls are counted only if there is a validity, or if each row is null.
fn test_nulls(layout: &Layout, rows: Rows, validity: Option<&[u8]>) -> Result<(), Error> {
    if rows.null_count <= 0 || layout.kind == Kind::Null || validity.is_some() {
        return Ok(());
    }
    let count = rows.null_count;
    Err(Error::Shape(format!(
        "validity: expected a buffer for {count} nulls, got none"
    )))
}

/// Tests the number of children, and that each has the rows that the column leads to.
fn test_children(
    layout: &Layout,
    rows: Rows,
    ends: Option<&[u8]>,
    children: &[Column],
) -> Result<(), Error> {
    if let Some(count) = layout.children.filter(|count| *count != children.len()) {
        let found = children.len();
        return Err(Error::Shape(format!(
            "children: expected {count}, got {found}"
        )));
    }
    let needed = match layout.kind {
        Kind::Struct | Kind::SparseUnion => rows.end,
        Kind::FixedList(width) => rows.end.saturating_mul(width).min(MOST_ROWS),
        Kind::List(_) => layout.last_offset(ends, rows.end)?,
        _ => 0,
    };
    for (k, child) in children.iter().enumerate() {
        if child.is_released() {
            return Err(Error::Shape(format!(
                "child {k}: expected a column, got a released one"
            )));
        }
        if child.len() < needed {
            let (name, len) = (child.node().name(), child.len());
            return Err(Error::Shape(format!(
                "child {k} {name:?}: expected at least {needed} rows, got {len}"
            )));
        }
    }
    Ok(())
}

fn test_dictionary(layout: &Layout, dictionary: Option<&Column>) -> Result<(), Error> {
    match dictionary {
        Some(_) if !layout.is_integer => Err(Error::Shape(
            "dictionary: expected one of integer codes alone, got one of another format".into(),
        )),
        Some(values) if values.is_released() => Err(Error::Shape(
            "dictionary: expected a column, got a released one".into(),
        )),
        _ => Ok(()),
    }
}

impl Column {
    /// Makes a column of buffers, of children and of a dictionary.
    ///
    /// The buffers and the children are tested: that there are as many as the format has, and that
    /// each is as long as the format, the offset, the length and the last offset ask for. So
    /// nothing that reads the column leaves its buffers, whatever they hold. Offsets, type ids,
    /// codes and views aren't tested: [`Column::check`] does that.
    ///
    /// ```
    /// use vortex_select::arrow::{Column, Error, Field};
    ///
    /// let field = |format: &str| Field { format: format.into(), ..Field::default() };
    /// let bytes = |len| vec![None, Some(Box::new(vec![0u8; len]) as _)];
    /// let column = Column::from_parts(field("l"), 2, 0, 0, bytes(16), Vec::new(), None)?;
    /// assert_eq!(column.to_numbers(), Some(vec![Some(0), Some(0)]));
    /// let short = Column::from_parts(field("l"), 2, 0, 0, bytes(15), Vec::new(), None);
    /// assert!(matches!(short, Err(Error::Shape(_))));
    /// # Ok::<(), Error>(())
    /// ```
    pub fn from_parts(
        field: Field,
        len: usize,
        null_count: i64,
        offset: usize,
        mut buffers: Vec<Option<Box<dyn Buffer>>>,
        children: Vec<Column>,
        dictionary: Option<Column>,
    ) -> Result<Column, Error> {
        let layout = Layout::of(&field.format)?;
        let rows = Rows::of(len, null_count, offset)?;
        settle(&layout, rows.end, &mut buffers)?;
        let found = layout.buffers(rows.end, buffers.len(), &Tested(&buffers))?;
        let has_validity = layout.kind.slots().first() == Some(&Slot::Validity);
        let validity = found.first().copied().flatten().filter(|_| has_validity);
        test_nulls(&layout, rows, validity)?;
        test_children(&layout, rows, found.get(1).copied().flatten(), &children)?;
        test_dictionary(&layout, dictionary.as_ref())?;
        let texts = field.texts()?;
        let (schemas, arrays) = children.into_iter().map(Column::into_raw).unzip();
        let (schema, array) = dictionary
            .map(Column::into_raw)
            .map_or((None, None), |raw| {
                let (schema, array) = raw;
                (Some(schema), Some(array))
            });
        Ok(Column {
            schema: made_schema(texts, schemas, schema),
            array: made_array(rows.numbers(), buffers, arrays, array),
        })
    }
}
