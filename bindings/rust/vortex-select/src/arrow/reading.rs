//! Rows of columns, read.
use super::column::Column;
use super::error::Error;
use super::layout::{number, Buffers, Kind, Slot};
use super::node::Node;
use super::views;
use std::ops::Range;

/// A column of a known format, with its buffers.
pub(super) struct Rows<'a> {
    buffers: Buffers<'a>,
    range: Range<usize>,
}

impl<'a> Rows<'a> {
    /// Returns the rows of a column, if it has one of the formats and its buffers are valid.
    pub fn of(node: Node<'a>, formats: &[&str]) -> Option<Self> {
        if !formats.contains(&node.format()) {
            return None;
        }
        let end = node.end().ok()?;
        Some(Rows {
            buffers: node.buffers().ok()?,
            range: end - node.len()..end,
        })
    }

    /// Returns the numbers of the rows in the buffers.
    pub fn range(&self) -> Range<usize> {
        self.range.clone()
    }

    /// Returns a buffer, empty if it is missing.
    pub fn buffer(&self, k: usize) -> &'a [u8] {
        self.buffers.get(k).copied().flatten().unwrap_or(&[])
    }

    /// Returns the buffers from number `k` on.
    pub fn buffers_from(&self, k: usize) -> &[Option<&'a [u8]>] {
        self.buffers.get(k..).unwrap_or(&[])
    }

    /// Returns whether a row isn't null, by the validity in the first buffer.
    pub fn is_valid(&self, row: usize) -> bool {
        let bits = self.buffers.first().copied().flatten();
        bits.map_or(true, |bits| (bits[row / 8] >> (row % 8)) & 1 == 1)
    }

    /// Returns number `at` of 4 bytes of a buffer, if it isn't negative.
    pub fn narrow(&self, k: usize, at: usize) -> Option<usize> {
        usize::try_from(number(self.buffer(k), 4 * at, 4)?).ok()
    }

    /// Reads each row by a function, and nulls as `None`. Returns `None` if one can't be read.
    pub fn read<T>(&self, row: impl Fn(usize) -> Option<T>) -> Option<Vec<Option<T>>> {
        let read = |k: usize| match self.is_valid(k) {
            true => row(k).map(Some),
            false => Some(None),
        };
        self.range().map(read).collect()
    }
}

impl<'a> Rows<'a> {
    /// Returns the bytes of a row of strings or binary values with offsets of 32 bits.
    fn bytes(&self, row: usize) -> Option<&'a [u8]> {
        self.buffer(2)
            .get(self.narrow(1, row)?..self.narrow(1, row + 1)?)
    }
}

impl Column {
    /// Returns whether each row is valid. Returns `None` of a column whose buffers aren't valid.
    ///
    /// A row of a union is always valid.
    pub fn to_valid(&self) -> Option<Vec<bool>> {
        let (node, len) = (self.node(), self.len());
        let kind = node.layout().ok()?.kind;
        if kind == Kind::Null {
            return Some(vec![false; len]);
        }
        if kind.slots().first() != Some(&Slot::Validity) {
            return Some(vec![true; len]);
        }
        let rows = Rows::of(node, &[node.format()])?;
        Some(rows.range().map(|k| rows.is_valid(k)).collect())
    }

    /// Returns the rows of a column of integers of 64 bits, and `None` of another column.
    pub fn to_numbers(&self) -> Option<Vec<Option<i64>>> {
        let rows = Rows::of(self.node(), &["l"])?;
        rows.read(|k| number(rows.buffer(1), 8 * k, 8))
    }

    /// Returns the rows of a column of bools, and `None` of another column.
    pub fn to_bools(&self) -> Option<Vec<Option<bool>>> {
        let rows = Rows::of(self.node(), &["b"])?;
        rows.read(|k| Some(rows.buffer(1).get(k / 8)? >> (k % 8) & 1 == 1))
    }

    /// Returns the rows of a column of binary values, with offsets of 32 bits or as views. Returns
    /// `None` of another column, and if a value isn't within the buffers.
    pub fn to_binary(&self) -> Option<Vec<Option<&[u8]>>> {
        if self.node().format() == "vz" {
            return views::values(self.node());
        }
        let rows = Rows::of(self.node(), &["z"])?;
        rows.read(|k| rows.bytes(k))
    }

    /// Returns the rows of a column of strings, with offsets of 32 bits or as views. Returns `None`
    /// of another column, and if a string isn't UTF-8 or isn't within the buffers.
    pub fn to_texts(&self) -> Option<Vec<Option<&str>>> {
        if self.node().format() == "vu" {
            let found = views::values(self.node())?;
            return found.into_iter().map(text).collect();
        }
        let rows = Rows::of(self.node(), &["u"])?;
        rows.read(|k| std::str::from_utf8(rows.bytes(k)?).ok())
    }

    /// Returns the range of each row's items in the child, of a column of lists or of list views
    /// with numbers of 32 bits. Returns `None` of another column, and if a number is negative.
    pub fn to_ranges(&self) -> Option<Vec<Option<Range<usize>>>> {
        let is_view = self.node().format() == "+vl";
        let rows = Rows::of(self.node(), &["+l", "+m", "+vl"])?;
        rows.read(|k| {
            let start = rows.narrow(1, k)?;
            let end = match is_view {
                true => start + rows.narrow(2, k)?,
                false => rows.narrow(1, k + 1)?,
            };
            Some(start..end)
        })
    }

    /// Returns a field of structs as a column of its own, in the same memory. It has the rows of the
    /// structs, also where a struct is null. Returns `None` if no field has the name.
    ///
    /// ```
    /// use vortex_select::arrow::{Column, Error};
    ///
    /// let ids = Column::numbers(&[Some(5), None]);
    /// let mut people = Column::structs(2, vec![("id", ids)]);
    /// let ids = people.field("id")?.unwrap();
    /// assert_eq!(ids.to_numbers(), Some(vec![Some(5), None]));
    /// # Ok::<(), Error>(())
    /// ```
    pub fn field(&mut self, name: &str) -> Result<Option<Column>, Error> {
        let is_named = |child: &Node<'_>| child.name() == name;
        let number = self.node().children().iter().position(is_named);
        match number {
            Some(number) => Ok(self.share()?.into_children().into_iter().nth(number)),
            None => Ok(None),
        }
    }
}

/// Returns a row of strings, if its bytes are UTF-8.
fn text(row: Option<&[u8]>) -> Option<Option<&str>> {
    match row {
        Some(bytes) => std::str::from_utf8(bytes).ok().map(Some),
        None => Some(None),
    }
}
