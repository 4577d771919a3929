//! Metadata of schemas: a count of pairs, and each string with its length before it.

/// Returns how many bytes the metadata takes of those that `read` returns at a place.
///
/// `None` means that a number is negative, or that the bytes end before the metadata does.
pub(super) fn size(read: impl Fn(usize) -> Option<[u8; 4]>, bound: usize) -> Option<usize> {
    let number = |at| usize::try_from(i32::from_le_bytes(read(at)?)).ok();
    let mut size = 4;
    for _ in 0..2 * number(0)? {
        size = number(size)?.checked_add(size + 4)?;
        if size > bound {
            return None;
        }
    }
    Some(size)
}

/// Returns how many bytes the metadata takes, if they hold it whole.
pub(super) fn size_within(bytes: &[u8]) -> Option<usize> {
    let read = |at: usize| bytes.get(at..at + 4)?.try_into().ok();
    size(read, bytes.len())
}
