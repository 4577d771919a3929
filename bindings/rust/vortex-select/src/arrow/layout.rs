//! What a format says of an array: how long each buffer must be, and how many children it has.
use super::error::Error;
use super::formats::type_ids;
pub(super) use super::formats::{Kind, Slot};

/// Rows of an array and those before them are fewer.
pub(super) const MOST_ROWS: usize = 1 << 60;

/// A format that was parsed.
#[derive(Clone, Debug, PartialEq, Eq)]
pub(super) struct Layout {
    pub kind: Kind,
    /// Whether it is of integers, which may be the codes of a dictionary.
    pub is_integer: bool,
    /// How many children there are; `None` if the format doesn't say.
    pub children: Option<usize>,
}

impl Kind {
    /// Returns the bytes of one value, offset or size of a row.
    fn width(self) -> usize {
        match self {
            Kind::Fixed(width)
            | Kind::Strings(width)
            | Kind::List(width)
            | Kind::ListViews(width) => width,
            Kind::Views => 16,
            Kind::DenseUnion => 4,
            _ => 1,
        }
    }

    /// Returns how many bytes a buffer must have for `end` rows, but for that of `Slot::Bytes`.
    fn needed(self, slot: Slot, end: usize) -> Option<usize> {
        match slot {
            Slot::Validity | Slot::Bits => Some(end / 8 + usize::from(end % 8 > 0)),
            Slot::TypeIds => Some(end),
            // Without rows, offsets may have no bytes.
            Slot::Ends if end == 0 => Some(0),
            Slot::Ends => (end + 1).checked_mul(self.width()),
            _ => end.checked_mul(self.width()),
        }
    }
}

/// Returns a number of 4 or 8 bytes at a place, sign extended.
pub(super) fn number(bytes: &[u8], at: usize, width: usize) -> Option<i64> {
    let bytes = bytes.get(at..at.checked_add(width)?)?;
    Some(match width {
        4 => i32::from_le_bytes(bytes.try_into().ok()?).into(),
        _ => i64::from_le_bytes(bytes.try_into().ok()?),
    })
}

/// Buffers of an array; `None` is a null pointer.
pub(super) type Buffers<'a> = Vec<Option<&'a [u8]>>;

/// A place where the buffers of an array are read.
pub(super) trait Source<'a> {
    /// Returns `len` bytes of buffer `k`, or `None` if it is a null pointer.
    fn bytes(&self, k: usize, name: &str, len: usize) -> Result<Option<&'a [u8]>, Error>;
}

fn too_long(name: &str) -> Error {
    Error::Shape(format!("{name}: expected fewer than 2^63 bytes, got more"))
}

impl Layout {
    /// Parses a format.
    pub fn of(format: &str) -> Result<Layout, Error> {
        let unknown = || Error::Format(format!("expected a format of Arrow, got {format:?}"));
        let kind = Kind::of(format).ok_or_else(unknown)?;
        let children = match kind {
            Kind::Struct => None,
            Kind::List(_) | Kind::FixedList(_) | Kind::ListViews(_) => Some(1),
            Kind::SparseUnion | Kind::DenseUnion => {
                Some(type_ids(&format[4..]).ok_or_else(unknown)?.len())
            }
            _ => Some(0),
        };
        Ok(Layout {
            kind,
            is_integer: format.len() == 1 && "cCsSiIlL".contains(format),
            children,
        })
    }

    /// Returns the row after the last one, counted from the start of the buffers.
    pub fn end(len: i64, offset: i64) -> Result<usize, Error> {
        let rows = |number: i64| usize::try_from(number).ok().filter(|n| *n < MOST_ROWS);
        let end = rows(len).and_then(|len| rows(offset)?.checked_add(len));
        end.filter(|end| *end < MOST_ROWS).ok_or_else(|| {
            Error::Shape(format!(
                "length: expected rows from 0 up to 2^60, got {len} from row {offset} on"
            ))
        })
    }

    /// Returns the last offset of strings or lists, 0 of no rows.
    pub fn last_offset(&self, ends: Option<&[u8]>, end: usize) -> Result<usize, Error> {
        if end == 0 {
            return Ok(0);
        }
        let width = self.kind.width();
        let last = ends.and_then(|ends| number(ends, end * width, width));
        let last =
            last.ok_or_else(|| Error::Shape("offsets: expected a buffer, got null".into()))?;
        usize::try_from(last).map_err(|_| {
            Error::NoMeaning(format!(
                "offsets: expected a last offset of 0 or more, got {last}"
            ))
        })
    }

    /// Returns each buffer, as long as the format and the rows ask for. All lengths of buffers are
    /// computed here.
    pub fn buffers<'a>(
        &self,
        end: usize,
        count: usize,
        source: &impl Source<'a>,
    ) -> Result<Buffers<'a>, Error> {
        self.test_count(count)?;
        let mut found: Buffers<'a> = Vec::with_capacity(self.kind.slots().len());
        for (k, slot) in self.kind.slots().iter().enumerate() {
            let len = match slot {
                Slot::Bytes => self.last_offset(found[k - 1], end)?,
                _ => self
                    .kind
                    .needed(*slot, end)
                    .ok_or_else(|| too_long(slot.name()))?,
            };
            found.push(source.bytes(k, slot.name(), bounded(slot.name(), len)?)?);
        }
        if self.kind == Kind::Views {
            found.extend(viewed(count, source)?);
        }
        Ok(found)
    }

    /// Returns the buffers that lead to places of others or of children, each with its length.
    pub fn leading(&self, end: usize, count: usize) -> Vec<(usize, usize)> {
        let slots = self.kind.slots().iter().enumerate();
        let leads = slots.filter(|(_, slot)| slot.leads());
        let length = |slot: &Slot| self.kind.needed(*slot, end).unwrap_or(usize::MAX);
        let mut found: Vec<_> = leads.map(|(k, slot)| (k, length(slot))).collect();
        if self.kind == Kind::Views && count > 3 {
            found.push((count - 1, 8 * (count - 3)));
        }
        found
    }

    fn test_count(&self, count: usize) -> Result<(), Error> {
        let is_views = self.kind == Kind::Views;
        let least = self.kind.slots().len() + usize::from(is_views);
        if count == least || (is_views && count > least && count <= i32::MAX as usize) {
            return Ok(());
        }
        let more = if is_views { " or more" } else { "" };
        Err(Error::Shape(format!(
            "buffers: expected {least}{more}, got {count}"
        )))
    }
}

/// Returns the length, if a slice can have it.
fn bounded(name: &str, len: usize) -> Result<usize, Error> {
    Some(len)
        .filter(|len| *len <= isize::MAX as usize)
        .ok_or_else(|| too_long(name))
}

/// Returns the buffers that views lead to, and the buffer of their lengths, which is the last.
fn viewed<'a>(count: usize, source: &impl Source<'a>) -> Result<Buffers<'a>, Error> {
    const NAME: &str = "lengths of data buffers";
    let lengths = source.bytes(count - 1, NAME, 8 * (count - 3))?;
    let length = |k: usize| {
        let length = lengths.and_then(|lengths| number(lengths, 8 * k, 8));
        let length = length.ok_or_else(|| Error::Shape(format!("{NAME}: found null")))?;
        let is_negative = |_| Error::Shape(format!("{NAME}: expected 0 or more, got {length}"));
        usize::try_from(length).map_err(is_negative)
    };
    let data = |k: usize| source.bytes(2 + k, "data", length(k)?);
    let mut found = (0..count - 3)
        .map(data)
        .collect::<Result<Buffers<'a>, Error>>()?;
    found.push(lengths);
    Ok(found)
}
