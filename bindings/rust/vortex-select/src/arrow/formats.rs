//! What Arrow's format strings say: how rows are laid out, and in which buffers.

/// Bytes of an offset or a size.
type Width = usize;

/// How rows are laid out.
#[derive(Clone, Copy, Debug, PartialEq, Eq)]
pub(super) enum Kind {
    Null,
    Bits,
    Fixed(usize),
    Strings(Width),
    Struct,
    List(Width),
    FixedList(usize),
    Views,
    ListViews(Width),
    SparseUnion,
    DenseUnion,
}

/// What a buffer holds.
#[derive(Clone, Copy, Debug, PartialEq, Eq)]
pub(super) enum Slot {
    Validity,
    Bits,
    Values,
    /// An offset for each row and one more.
    Ends,
    /// The bytes that the offsets lead to.
    Bytes,
    /// An offset for each row.
    Starts,
    Sizes,
    TypeIds,
    Views,
}

/// Returns the digits of a text as a number of at most 2^31 - 1, if there is nothing else.
fn digits(text: &str) -> Option<usize> {
    let is_number = text.bytes().all(|byte| byte.is_ascii_digit());
    text.parse().ok().filter(|number| is_number && *number < 1 << 31)
}

/// Returns the bytes of a decimal: `precision,scale` or `precision,scale,bits`.
fn decimal(text: &str) -> Option<usize> {
    let mut parts = text.split(',');
    digits(parts.next()?)?;
    let scale = parts.next()?;
    digits(scale.strip_prefix('-').unwrap_or(scale))?;
    let bits = parts.next().map_or(Some(128), digits)?;
    let is_known = matches!(bits, 32 | 64 | 128 | 256) && parts.next().is_none();
    Some(bits / 8).filter(|_| is_known)
}

/// Returns the ids of a union's children, each less than 128 and listed once.
pub(super) fn type_ids(text: &str) -> Option<Vec<u8>> {
    let mut ids: Vec<u8> = Vec::new();
    if text.is_empty() {
        return Some(ids);
    }
    for id in text.split(',') {
        let id = digits(id).filter(|id| *id < 128)? as u8;
        if ids.contains(&id) {
            return None;
        }
        ids.push(id);
    }
    Some(ids)
}

/// Returns the bytes of a value of a format that a whole word names.
fn named_width(format: &str) -> Option<usize> {
    Some(match format {
        "c" | "C" => 1,
        "s" | "S" | "e" => 2,
        "i" | "I" | "f" | "tdD" | "tts" | "ttm" | "tiM" => 4,
        "l" | "L" | "g" | "tdm" | "ttu" | "ttn" | "tDs" | "tDm" | "tDu" | "tDn" | "tiD" => 8,
        "tin" => 16,
        _ => return None,
    })
}

/// Returns the bytes of a value of a fixed width.
fn fixed_width(format: &str) -> Option<usize> {
    if let Some(width) = named_width(format) {
        return Some(width);
    }
    if let Some(width) = format.strip_prefix("w:") {
        return digits(width);
    }
    if let Some(text) = format.strip_prefix("d:") {
        return decimal(text);
    }
    let is_timestamp = ["tss:", "tsm:", "tsu:", "tsn:"]
        .iter()
        .any(|of| format.starts_with(of));
    Some(8).filter(|_| is_timestamp)
}

impl Kind {
    /// Parses a format; `None` if Arrow doesn't have it.
    pub fn of(format: &str) -> Option<Kind> {
        Some(match format {
            "n" => Kind::Null,
            "b" => Kind::Bits,
            "u" | "z" => Kind::Strings(4),
            "U" | "Z" => Kind::Strings(8),
            "vu" | "vz" => Kind::Views,
            "+s" => Kind::Struct,
            "+l" | "+m" => Kind::List(4),
            "+L" => Kind::List(8),
            "+vl" => Kind::ListViews(4),
            "+vL" => Kind::ListViews(8),
            _ if format.starts_with("+w:") => Kind::FixedList(digits(&format[3..])?),
            _ if format.starts_with("+us:") => Kind::SparseUnion,
            _ if format.starts_with("+ud:") => Kind::DenseUnion,
            _ => Kind::Fixed(fixed_width(format)?),
        })
    }

    /// Returns the buffers in Arrow's order. Those that views lead to come behind.
    pub fn slots(self) -> &'static [Slot] {
        match self {
            Kind::Null => &[],
            Kind::Bits => &[Slot::Validity, Slot::Bits],
            Kind::Fixed(_) => &[Slot::Validity, Slot::Values],
            Kind::Strings(_) => &[Slot::Validity, Slot::Ends, Slot::Bytes],
            Kind::Struct | Kind::FixedList(_) => &[Slot::Validity],
            Kind::List(_) => &[Slot::Validity, Slot::Ends],
            Kind::Views => &[Slot::Validity, Slot::Views],
            Kind::ListViews(_) => &[Slot::Validity, Slot::Starts, Slot::Sizes],
            Kind::SparseUnion => &[Slot::TypeIds],
            Kind::DenseUnion => &[Slot::TypeIds, Slot::Starts],
        }
    }
}

impl Slot {
    /// Returns whether the buffer leads to places of other buffers or of children.
    pub fn leads(self) -> bool {
        !matches!(
            self,
            Slot::Validity | Slot::Bits | Slot::Values | Slot::Bytes
        )
    }

    pub fn name(self) -> &'static str {
        match self {
            Slot::Validity => "validity",
            Slot::Bits | Slot::Values => "values",
            Slot::Ends | Slot::Starts => "offsets",
            Slot::Bytes => "data",
            Slot::Sizes => "sizes",
            Slot::TypeIds => "type ids",
            Slot::Views => "views",
        }
    }
}
