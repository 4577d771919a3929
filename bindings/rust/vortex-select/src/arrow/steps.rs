//! Steps of a selection.
use super::column::Column;
use super::error::Error;
use std::borrow::Cow;
use std::mem::size_of_val;
use vortex_select_sys::arrow::{kind, Bytes, Step as Image};

/// The type of a take's numbers. Numbers are little-endian.
#[derive(Clone, Copy, Debug, PartialEq, Eq)]
pub enum Number {
    /// Unsigned, 8 bits.
    U8,
    /// Unsigned, 16 bits.
    U16,
    /// Unsigned, 32 bits.
    U32,
    /// Unsigned, 64 bits.
    U64,
    /// Signed, 8 bits.
    I8,
    /// Signed, 16 bits.
    I16,
    /// Signed, 32 bits.
    I32,
    /// Signed, 64 bits.
    I64,
    /// A float of 16 bits. Indices of this type are invalid.
    F16,
    /// A float of 32 bits. Indices of this type are invalid.
    F32,
    /// A float of 64 bits. Indices of this type are invalid.
    F64,
}

/// One step of a selection.
#[derive(Clone, Debug)]
pub struct Step<'a> {
    kind: u64,
    start: u64,
    end: u64,
    number: Number,
    offset: usize,
    len: usize,
    values: Cow<'a, [u8]>,
    valid: Option<Cow<'a, [u8]>>,
}

/// Packs bools into bits, the lowest bit of each byte first.
pub(super) fn packed(bools: impl ExactSizeIterator<Item = bool>) -> Vec<u8> {
    let mut bits = vec![0; (bools.len() + 7) / 8];
    for (k, is_set) in bools.enumerate() {
        bits[k / 8] |= u8::from(is_set) << (k % 8);
    }
    bits
}

/// Returns the values and the validity of a column that has one of the formats of one letter.
fn lists_of<'a>(
    column: &'a Column,
    formats: &str,
    what: &str,
) -> Result<(&'a [u8], Option<&'a [u8]>), Error> {
    let node = column.node();
    let format = node.format();
    if format.len() != 1 || !formats.contains(format) || node.dictionary().is_some() {
        return Err(Error::Format(format!(
            "expected a column of {what}, got format {format:?}"
        )));
    }
    let buffers = node.buffers()?;
    Ok((buffers[1].unwrap_or(&[]), buffers[0]))
}

impl<'a> Step<'a> {
    fn listed(kind: u64, offset: usize, len: usize, values: Cow<'a, [u8]>) -> Self {
        Step {
            kind,
            start: 0,
            end: 0,
            number: Number::U64,
            offset,
            len,
            values,
            valid: None,
        }
    }

    /// Selects the rows from `start` up to `end`.
    pub fn slice(start: u64, end: u64) -> Step<'static> {
        Step {
            start,
            end,
            ..Step::listed(kind::SLICE, 0, 0, Cow::Borrowed(&[]))
        }
    }

    /// Selects the rows whose bool is true.
    pub fn filter(mask: &[bool]) -> Step<'static> {
        let bits = packed(mask.iter().copied());
        Step::listed(kind::FILTER, 0, mask.len(), bits.into())
    }

    /// Selects the rows whose bit is set: `len` bits from bit `at` on, the lowest bit of each byte
    /// first.
    ///
    /// A clear bit of `valid`, whose bits begin at bit `at` too, is a null, which selects no row.
    pub fn filter_bits(bits: &'a [u8], at: usize, len: usize, valid: Option<&'a [u8]>) -> Self {
        Step {
            valid: valid.map(Cow::Borrowed),
            ..Step::listed(kind::FILTER, at, len, Cow::Borrowed(bits))
        }
    }

    /// Selects the rows at the indices.
    pub fn take(indices: &'a [u64]) -> Self {
        let (place, len) = (indices.as_ptr().cast(), size_of_val(indices));
        // SAFETY: the bytes are those of the indices, which are borrowed for as long.
        let bytes = unsafe { std::slice::from_raw_parts(place, len) };
        Step::listed(kind::TAKE, 0, indices.len(), Cow::Borrowed(bytes))
    }

    /// Selects the rows at the indices, and a null for each `None`: the result is nullable.
    pub fn take_or_null(indices: &[Option<u64>]) -> Step<'static> {
        let numbers = indices.iter().map(|index| index.unwrap_or(0));
        let bytes: Vec<u8> = numbers.flat_map(u64::to_le_bytes).collect();
        let valid = packed(indices.iter().map(Option::is_some));
        Step {
            valid: Some(valid.into()),
            ..Step::listed(kind::TAKE, 0, indices.len(), bytes.into())
        }
    }

    /// Selects the rows at `len` numbers of a type, from number `offset` of the bytes on.
    ///
    /// A clear bit of `valid`, whose bits begin at bit `offset`, is a null; with `valid` the result
    /// is nullable.
    pub fn take_numbers(
        number: Number,
        bytes: &'a [u8],
        offset: usize,
        len: usize,
        valid: Option<&'a [u8]>,
    ) -> Self {
        Step {
            number,
            valid: valid.map(Cow::Borrowed),
            ..Step::listed(kind::TAKE, offset, len, Cow::Borrowed(bytes))
        }
    }

    /// Returns the bounds of a slice, or `None` for another step.
    #[cfg(feature = "chunks")]
    pub(crate) fn bounds(&self) -> Option<(u64, u64)> {
        (self.kind == kind::SLICE).then_some((self.start, self.end))
    }

    /// Selects the rows whose place in a column of bools is true. A null counts as false.
    ///
    /// ```
    /// use vortex_select::arrow::{select, Column, Error, Step};
    ///
    /// let mask = Column::bools(&[Some(true), None, Some(true)]);
    /// let mut rows = Column::numbers(&[Some(5), Some(6), Some(7)]);
    /// let kept = select(&mut rows, &[Step::filter_by(&mask)?])?;
    /// assert_eq!(kept.to_numbers(), Some(vec![Some(5), Some(7)]));
    /// # Ok::<(), Error>(())
    /// ```
    pub fn filter_by(mask: &'a Column) -> Result<Self, Error> {
        let (bits, valid) = lists_of(mask, "b", "bools")?;
        let node = mask.node();
        Ok(Step::filter_bits(bits, node.offset(), node.len(), valid))
    }

    /// Selects the rows at the indices in a column of integers, and a null for each null.
    ///
    /// ```
    /// use vortex_select::arrow::{select, Column, Error, Step};
    ///
    /// let indices = Column::numbers(&[Some(2), None]);
    /// let mut rows = Column::bools(&[None, None, Some(true)]);
    /// let taken = select(&mut rows, &[Step::take_by(&indices)?])?;
    /// assert_eq!(taken.to_bools(), Some(vec![Some(true), None]));
    /// # Ok::<(), Error>(())
    /// ```
    pub fn take_by(indices: &'a Column) -> Result<Self, Error> {
        let (bytes, valid) = lists_of(indices, "CSILcsil", "integers")?;
        let node = indices.node();
        let number = match node.format() {
            "C" => Number::U8,
            "S" => Number::U16,
            "I" => Number::U32,
            "L" => Number::U64,
            "c" => Number::I8,
            "s" => Number::I16,
            "i" => Number::I32,
            _ => Number::I64,
        };
        Ok(Step::take_numbers(
            number,
            bytes,
            node.offset(),
            node.len(),
            valid,
        ))
    }

    /// Returns whether the step is a take that may leave nulls.
    pub(super) fn leaves_nulls(&self) -> bool {
        self.kind == kind::TAKE && self.valid.is_some()
    }

    /// Returns whether there is no validity although there are bits or numbers, or some before them.
    fn lacks_validity(&self) -> bool {
        let is_empty = self.valid.as_ref().map_or(false, |valid| valid.is_empty());
        is_empty && (self.offset > 0 || self.len > 0)
    }

    /// Returns what the step lacks that its descriptor can't say.
    pub(super) fn lack(&self) -> Option<String> {
        let rows = self.offset.saturating_add(self.len);
        let bytes = rows / 8 + usize::from(rows % 8 > 0);
        let text = || format!("expected {bytes} bytes of validity, got 0");
        self.lacks_validity().then(text)
    }

    /// Returns the descriptor of the step, which borrows its lists.
    pub(super) fn image(&self) -> Image {
        let bytes = |list: &[u8]| Bytes {
            data: list.as_ptr(),
            len: list.len(),
        };
        // No bytes of validity mean that no row is null. So an empty list is replaced by a byte that
        // nothing reads. If there are rows, an unknown kind has the library reject the step.
        let valid: &[u8] = match self.valid.as_deref() {
            Some([]) => &[0],
            valid => valid.unwrap_or(&[]),
        };
        Image {
            kind: if self.lacks_validity() {
                u64::MAX
            } else {
                self.kind
            },
            start: self.start,
            end: self.end,
            ptype: self.number as u64,
            offset: self.offset as u64,
            len: self.len as u64,
            declared: 0,
            values: bytes(&self.values),
            valid: bytes(valid),
            lengths: bytes(&[]),
            multipliers: bytes(&[]),
        }
    }
}
