//! The same joins in plain Rust: by a sort, as the crate goes for keys of one number, by an ordered
//! map with chains of rows, as it goes for other keys, and by a hashed map.
use std::collections::{BTreeMap, HashMap};
use std::hash::Hash;

pub type Pairs = (Vec<usize>, Vec<usize>);

// The pairs of each left row with the rows of the chain that starts at `first`.
fn walk(left: usize, next: &[usize], first: impl Fn(usize) -> usize) -> Pairs {
    let (mut lefts, mut rights) = (Vec::new(), Vec::new());
    for i in 0..left {
        let mut j = first(i);
        while j < next.len() {
            lefts.push(i);
            rights.push(j);
            j = next[j];
        }
    }
    (lefts, rights)
}

pub fn by_map<K: Ord + Copy>(left: &[K], right: &[K]) -> Pairs {
    let mut next = vec![right.len(); right.len()];
    let mut first = BTreeMap::new();
    for j in (0..right.len()).rev() {
        if let Some(later) = first.insert(right[j], j) {
            next[j] = later;
        }
    }
    walk(left.len(), &next, |i| first.get(&left[i]).copied().unwrap_or(right.len()))
}

pub fn by_hash<K: Hash + Eq + Copy>(left: &[K], right: &[K]) -> Pairs {
    let mut next = vec![right.len(); right.len()];
    let mut first = HashMap::new();
    for j in (0..right.len()).rev() {
        if let Some(later) = first.insert(right[j], j) {
            next[j] = later;
        }
    }
    walk(left.len(), &next, |i| first.get(&left[i]).copied().unwrap_or(right.len()))
}

pub fn by_sort<K: Ord + Copy>(left: &[K], right: &[K]) -> Pairs {
    let mut sorted: Vec<(K, usize)> = right.iter().copied().zip(0..).collect();
    sorted.sort_by(|a, b| a.0.cmp(&b.0));
    let (mut lefts, mut rights) = (Vec::new(), Vec::new());
    for (i, key) in left.iter().enumerate() {
        let start = sorted.partition_point(|row| row.0 < *key);
        for row in &sorted[start..] {
            if row.0 != *key {
                break;
            }
            lefts.push(i);
            rights.push(row.1);
        }
    }
    (lefts, rights)
}

/// A row of a key column, as the crate has it.
#[derive(Clone, Copy, PartialEq, Eq, PartialOrd, Ord, Hash)]
#[allow(dead_code)]
pub enum Cell<'a> {
    Null,
    Bit(bool),
    Bytes(&'a [u8]),
}

/// The cells of the rows of columns of eight bytes, row by row.
pub fn cells<'a>(columns: &[&'a [[u8; 8]]]) -> Vec<Cell<'a>> {
    let mut cells = Vec::with_capacity(columns.len() * columns[0].len());
    for i in 0..columns[0].len() {
        for column in columns {
            cells.push(Cell::Bytes(&column[i]));
        }
    }
    cells
}

/// The rows' cells with the number in front that the first cell's bytes spell, as the crate has it.
pub fn prefixed<'a, 'b>(cells: &'b [Cell<'a>], width: usize) -> Vec<(u64, &'b [Cell<'a>])> {
    let spelt = |cell: &Cell| match cell {
        Cell::Bytes(bytes) => u64::from_le_bytes((*bytes).try_into().unwrap()),
        _ => 0,
    };
    cells.chunks_exact(width).map(|row| (spelt(&row[0]), row)).collect()
}

/// The rows' cells alone.
pub fn bare<'a, 'b>(cells: &'b [Cell<'a>], width: usize) -> Vec<&'b [Cell<'a>]> {
    cells.chunks_exact(width).collect()
}
