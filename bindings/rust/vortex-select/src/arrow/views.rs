//! Columns of views, of strings and of lists, and unions.
use super::building::{made, named, validity};
use super::column::Column;
use super::formats::type_ids;
use super::layout::number;
use super::node::Node;
use super::reading::Rows;
use std::ops::Range;

/// A string of at most so many bytes is in its view.
const SHORT: usize = 12;

fn small(number: usize) -> [u8; 4] {
    let number = i32::try_from(number).expect("a number of 32 bits");
    number.to_le_bytes()
}

/// Returns number `k` of a view.
fn word(view: &[u8], k: usize) -> Option<usize> {
    usize::try_from(number(view, 4 * k, 4)?).ok()
}

/// Returns the bytes that a view leads to in these buffers, if it leads within them.
fn viewed<'a>(view: &'a [u8], data: &[Option<&'a [u8]>]) -> Option<&'a [u8]> {
    let len = word(view, 0)?;
    if len <= SHORT {
        return view.get(4..4 + len);
    }
    let (which, at) = (word(view, 2)?, word(view, 3)?);
    let bytes = data.get(which).copied().flatten()?;
    bytes.get(at..at + len)
}

/// Returns the rows of a column of views, of strings or of binary values.
pub(super) fn values(node: Node<'_>) -> Option<Vec<Option<&[u8]>>> {
    let rows = Rows::of(node, &["vu", "vz"])?;
    let views = rows.buffer(1);
    // The last buffer has the lengths of the data buffers.
    let (_, data) = rows.buffers_from(2).split_last()?;
    rows.read(|k| viewed(views.get(16 * k..16 * k + 16)?, data))
}

impl Column {
    /// Makes a column of strings that are views. Those of more than twelve bytes are in one buffer.
    ///
    /// # Panics
    /// If a string or the buffer has more than 2^31 - 1 bytes.
    pub fn text_views(rows: &[Option<&str>]) -> Self {
        let (valid, nulls) = validity(rows);
        let (mut views, mut data) = (Vec::new(), Vec::new());
        for row in rows {
            let text = row.unwrap_or("").as_bytes();
            views.extend(small(text.len()));
            if text.len() <= SHORT {
                views.extend(text);
                views.resize(views.len() + SHORT - text.len(), 0);
            } else {
                views.extend(&text[..4]);
                views.extend(small(0));
                views.extend(small(data.len()));
                data.extend(text);
            }
        }
        let len = (data.len() as i64).to_le_bytes().to_vec();
        let buffers = vec![valid, Some(views), Some(data), Some(len)];
        made("vu", rows.len(), nulls, buffers, Vec::new())
    }

    /// Makes a column of list views. Each has the items of a column in a range.
    ///
    /// # Panics
    /// If a range begins past its end or ends past the items, or these are more than 2^31 - 1.
    pub fn list_views(ranges: &[Option<Range<usize>>], items: Column) -> Self {
        let (valid, nulls) = validity(ranges);
        let (mut offsets, mut sizes) = (Vec::new(), Vec::new());
        for range in ranges {
            let range = range.clone().unwrap_or(0..0);
            let is_within = range.start <= range.end && range.end <= items.len();
            assert!(
                is_within,
                "expected a range within {} items, got {range:?}",
                items.len()
            );
            offsets.extend(small(range.start));
            sizes.extend(small(range.len()));
        }
        let buffers = vec![valid, Some(offsets), Some(sizes)];
        made("+vl", ranges.len(), nulls, buffers, vec![items])
    }

    /// Makes a dense union. Each row is the row of a field, by the field's number and a place in
    /// it.
    ///
    /// # Panics
    /// If there is no such field or row of it, there are more than 128 fields, or a name holds a
    /// byte 0.
    pub fn unions(rows: &[(usize, usize)], fields: Vec<(&str, Column)>) -> Self {
        assert!(
            fields.len() <= 128,
            "expected at most 128 fields, got {}",
            fields.len()
        );
        let (mut ids, mut places) = (Vec::new(), Vec::new());
        for (field, place) in rows {
            let len = fields[*field].1.len();
            assert!(
                *place < len,
                "expected a row of {len} of field {field}, got {place}"
            );
            ids.push(*field as u8);
            places.extend(small(*place));
        }
        let names: Vec<String> = (0..fields.len()).map(|id| id.to_string()).collect();
        let format = format!("+ud:{}", names.join(","));
        made(
            &format,
            rows.len(),
            0,
            vec![Some(ids), Some(places)],
            named(fields),
        )
    }

    /// Returns the field of each row, by its number, and the place in it, of a dense union. Returns
    /// `None` of another column, and if an id isn't that of a field or a place is negative.
    pub fn to_chosen(&self) -> Option<Vec<(usize, usize)>> {
        let format = self.node().format();
        let listed = type_ids(format.strip_prefix("+ud:")?)?;
        let rows = Rows::of(self.node(), &[format])?;
        let row = |k: usize| {
            let id = rows.buffer(0).get(k)?;
            let field = listed.iter().position(|other| other == id)?;
            Some((field, rows.narrow(1, k)?))
        };
        rows.range().map(row).collect()
    }
}
