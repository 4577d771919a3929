//! Columns made of rows.
use super::column::Column;
use super::held::{made_array, made_schema, renamed, Texts};
use super::parts::Buffer;
use super::steps::packed;

/// Returns the bits of the rows that aren't null, if one is, and how many are.
pub(super) fn validity<T>(rows: &[Option<T>]) -> (Option<Vec<u8>>, usize) {
    let nulls = rows.iter().filter(|row| row.is_none()).count();
    let bits = packed(rows.iter().map(Option::is_some));
    (Some(bits).filter(|_| nulls > 0), nulls)
}

/// Returns offsets of 32 bits of items of these sizes.
///
/// # Panics
/// If there are more than 2^31 - 1.
fn offsets(sizes: impl Iterator<Item = usize>) -> Vec<u8> {
    let mut at = 0i32;
    let mut bytes = at.to_le_bytes().to_vec();
    for size in sizes {
        let size = i32::try_from(size).ok();
        at = size
            .and_then(|size| at.checked_add(size))
            .expect("at most 2^31 - 1 items");
        bytes.extend(at.to_le_bytes());
    }
    bytes
}

/// Makes a column of its own buffers and of children.
pub(super) fn made(
    format: &str,
    len: usize,
    nulls: usize,
    buffers: Vec<Option<Vec<u8>>>,
    children: Vec<Column>,
) -> Column {
    let boxed = |buffer: Vec<u8>| Box::new(buffer) as Box<dyn Buffer>;
    let buffers = buffers
        .into_iter()
        .map(|buffer| buffer.map(boxed))
        .collect();
    let (schemas, arrays) = children.into_iter().map(Column::into_raw).unzip();
    // A list has fewer than 2^63 items.
    let numbers = [len as i64, nulls as i64, 0];
    Column {
        schema: made_schema(Texts::nullable(format), schemas, None),
        array: made_array(numbers, buffers, arrays, None),
    }
}

/// Gives each column a name.
///
/// # Panics
/// If a name holds a byte 0.
pub(super) fn named(fields: Vec<(&str, Column)>) -> Vec<Column> {
    let named = |(name, field): (&str, Column)| Column {
        schema: renamed(field.schema, name),
        array: field.array,
    };
    fields.into_iter().map(named).collect()
}

impl Column {
    /// Makes a column of integers of 64 bits.
    pub fn numbers(rows: &[Option<i64>]) -> Self {
        let (valid, nulls) = validity(rows);
        let number = |row: &Option<i64>| row.unwrap_or(0).to_le_bytes();
        let data = rows.iter().flat_map(number).collect();
        made("l", rows.len(), nulls, vec![valid, Some(data)], Vec::new())
    }

    /// Makes a column of bools.
    ///
    /// ```
    /// use vortex_select::arrow::Column;
    ///
    /// let column = Column::bools(&[Some(true), None, Some(false)]);
    /// assert_eq!(column.to_bools(), Some(vec![Some(true), None, Some(false)]));
    /// ```
    pub fn bools(rows: &[Option<bool>]) -> Self {
        let (valid, nulls) = validity(rows);
        let bits = packed(rows.iter().map(|row| *row == Some(true)));
        made("b", rows.len(), nulls, vec![valid, Some(bits)], Vec::new())
    }

    /// Makes a column of binary values, with offsets of 32 bits.
    ///
    /// # Panics
    /// If they have more than 2^31 - 1 bytes together.
    ///
    /// ```
    /// use vortex_select::arrow::Column;
    ///
    /// let column = Column::binary(&[Some(&b"ab"[..]), None]);
    /// assert_eq!(column.to_binary(), Some(vec![Some(&b"ab"[..]), None]));
    /// ```
    pub fn binary(rows: &[Option<&[u8]>]) -> Self {
        bytes("z", rows)
    }

    /// Makes a column of strings, with offsets of 32 bits.
    ///
    /// # Panics
    /// If they have more than 2^31 - 1 bytes together.
    pub fn texts(rows: &[Option<&str>]) -> Self {
        let rows: Vec<_> = rows.iter().map(|row| row.map(str::as_bytes)).collect();
        bytes("u", &rows)
    }

    /// Makes a column of lists. Each has so many items of a column, one list after another.
    ///
    /// # Panics
    /// If they have more items together than there are.
    ///
    /// ```
    /// use vortex_select::arrow::Column;
    ///
    /// let items = Column::numbers(&[Some(5), Some(6), Some(7)]);
    /// let lists = Column::lists(&[Some(2), None, Some(1)], items);
    /// assert_eq!(lists.to_ranges(), Some(vec![Some(0..2), None, Some(2..3)]));
    /// ```
    pub fn lists(sizes: &[Option<usize>], items: Column) -> Self {
        let (valid, nulls) = validity(sizes);
        let used: usize = sizes.iter().flatten().sum();
        assert!(
            used <= items.len(),
            "expected {used} items, got {}",
            items.len()
        );
        let offsets = offsets(sizes.iter().map(|size| size.unwrap_or(0)));
        made(
            "+l",
            sizes.len(),
            nulls,
            vec![valid, Some(offsets)],
            vec![items],
        )
    }

    /// Makes a column of structs of these fields.
    ///
    /// # Panics
    /// If a field doesn't have `len` rows, or a name holds a byte 0.
    pub fn structs(len: usize, fields: Vec<(&str, Column)>) -> Self {
        Column::structs_or_null(&vec![true; len], fields)
    }

    /// Makes a column of structs of these fields. A row is null if its bool is false.
    ///
    /// # Panics
    /// If a field has another number of rows, or a name holds a byte 0.
    ///
    /// ```
    /// use vortex_select::arrow::Column;
    ///
    /// let ids = Column::numbers(&[Some(5), Some(6)]);
    /// let people = Column::structs_or_null(&[true, false], vec![("id", ids)]);
    /// assert_eq!(people.to_valid(), Some(vec![true, false]));
    /// ```
    pub fn structs_or_null(valid: &[bool], fields: Vec<(&str, Column)>) -> Self {
        for (name, field) in &fields {
            assert_eq!(field.len(), valid.len(), "rows of {name}");
        }
        let rows: Vec<_> = valid
            .iter()
            .map(|is_valid| is_valid.then_some(()))
            .collect();
        let (bits, nulls) = validity(&rows);
        made("+s", valid.len(), nulls, vec![bits], named(fields))
    }
}

/// Makes a column of bytes, with offsets of 32 bits.
fn bytes(format: &str, rows: &[Option<&[u8]>]) -> Column {
    let (valid, nulls) = validity(rows);
    let offsets = offsets(rows.iter().map(|row| row.map_or(0, <[u8]>::len)));
    let data = rows
        .iter()
        .flatten()
        .flat_map(|row| row.iter().copied())
        .collect();
    let buffers = vec![valid, Some(offsets), Some(data)];
    made(format, rows.len(), nulls, buffers, Vec::new())
}
