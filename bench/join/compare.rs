//! Joins two tables by the library (`ours`) or by plain Rust, so many times, and compares the pairs.
//!
//! usage: compare SHAPE WAY TIMES       (for callgrind: once in `measured`)
//!        compare SHAPE times ROUNDS    (a line a way: the least milliseconds of so many rounds)
//!        compare SHAPE ways 0          (the ways of plain Rust)

#[path = "../kernels/memory.rs"]
mod memory;
mod plain;

use plain::{Pairs, bare, by_hash, by_map, by_sort, cells, prefixed};
use std::hash::Hash;
use std::hint::black_box;
use std::time::Instant;

unsafe extern "C" {
    fn join_u64(
        left: *const u64,
        left_len: usize,
        left_rows: usize,
        right: *const u64,
        right_len: usize,
        right_rows: usize,
        lefts: *mut usize,
        lefts_len: usize,
        rights: *mut usize,
        rights_len: usize,
        times: usize,
    ) -> usize;
}

/// Columns of numbers, one column after another.
struct Side {
    rows: usize,
    numbers: Vec<u64>,
}

impl Side {
    fn column(&self, k: usize) -> &[u64] {
        &self.numbers[k * self.rows..][..self.rows]
    }

    fn records(&self) -> Vec<&[[u8; 8]]> {
        self.numbers.chunks_exact(self.rows).map(as_records).collect()
    }
}

// The bytes of a machine whose lowest byte comes first.
fn as_records(numbers: &[u64]) -> &[[u8; 8]] {
    unsafe { std::slice::from_raw_parts(numbers.as_ptr().cast(), numbers.len()) }
}

fn mixed(i: u64) -> u64 {
    let a = i.wrapping_mul(0x9e37_79b9_7f4a_7c15);
    let b = (a ^ (a >> 30)).wrapping_mul(0xbf58_476d_1ce4_e5b9);
    let c = (b ^ (b >> 27)).wrapping_mul(0x94d0_49bb_1331_11eb);
    c ^ (c >> 31)
}

const MILLION: u64 = 1_000_000;

// So many rows: each column's number is made from the row's place, moved along by `step`.
fn side(rows: u64, step: u64, columns: &[fn(u64) -> u64]) -> Side {
    let each = |f: &fn(u64) -> u64| (0..rows).map(|i| f(i * step % MILLION)).collect::<Vec<_>>();
    Side { rows: rows as usize, numbers: columns.iter().flat_map(each).collect() }
}

fn other(i: u64) -> u64 {
    mixed(i + MILLION)
}

fn unique(i: u64) -> u64 {
    mixed(i)
}

fn few(i: u64) -> u64 {
    mixed(i % 1000)
}

fn one(_: u64) -> u64 {
    7
}

// The two sides of a shape.
fn sides(shape: &str) -> (Side, Side) {
    match shape {
        "unique" => (side(MILLION, 7919, &[unique]), side(MILLION, 1, &[unique])),
        "none" => (side(MILLION, 7919, &[other]), side(MILLION, 1, &[unique])),
        "few" => (side(100_000, 7919, &[few]), side(100_000, 1, &[few])),
        "two" => (side(MILLION, 7919, &[unique, few]), side(MILLION, 1, &[unique, few])),
        "two_none" => (side(MILLION, 7919, &[other, few]), side(MILLION, 1, &[unique, few])),
        "two_few" => (side(MILLION, 7919, &[few, unique]), side(MILLION, 1, &[few, unique])),
        "two_one" => (side(MILLION, 7919, &[one, unique]), side(MILLION, 1, &[one, unique])),
        "three" => (
            side(MILLION, 7919, &[few, unique, few]),
            side(MILLION, 1, &[few, unique, few]),
        ),
        _ => panic!("no shape {shape}"),
    }
}

fn ours(left: &Side, right: &Side, room: usize, times: usize) -> Pairs {
    let (mut lefts, mut rights) = (vec![0; room], vec![0; room]);
    let pairs = unsafe {
        join_u64(
            left.numbers.as_ptr(),
            left.numbers.len(),
            left.rows,
            right.numbers.as_ptr(),
            right.numbers.len(),
            right.rows,
            lefts.as_mut_ptr(),
            room,
            rights.as_mut_ptr(),
            room,
            times,
        )
    };
    assert_eq!(pairs, room);
    (lefts, rights)
}

fn by<K: Ord + Hash + Copy>(way: &str, left: &[K], right: &[K]) -> Pairs {
    let join = match way {
        "map" | "bare" | "tuples" => by_map,
        "hash" => by_hash,
        "sort" => by_sort,
        _ => panic!("no way {way}"),
    };
    join(black_box(left), black_box(right))
}

// The rows of two columns.
fn tuples(side: &Side) -> Vec<(u64, u64)> {
    side.column(0).iter().copied().zip(side.column(1).iter().copied()).collect()
}

// The rows of several columns as the crate has them, with a number in front or without.
fn by_cells(left: &Side, right: &Side, way: &str) -> Pairs {
    let (left_columns, right_columns) = (left.records(), right.records());
    let width = left_columns.len();
    let (left_cells, right_cells) = (cells(&left_columns), cells(&right_columns));
    if way == "bare" {
        return by(way, &bare(&left_cells, width), &bare(&right_cells, width));
    }
    by(way, &prefixed(&left_cells, width), &prefixed(&right_cells, width))
}

// One join, from the columns on.
fn rust(left: &Side, right: &Side, way: &str) -> Pairs {
    if way == "tuples" {
        by(way, &tuples(left), &tuples(right))
    } else if left.numbers.len() == left.rows {
        by(way, left.column(0), right.column(0))
    } else {
        by_cells(left, right, way)
    }
}

#[unsafe(no_mangle)]
#[inline(never)]
fn measured(left: &Side, right: &Side, way: &str, room: usize, times: usize) -> Pairs {
    if way == "ours" {
        return ours(left, right, room, times);
    }
    for _ in 1..times {
        black_box(rust(left, right, way));
    }
    rust(left, right, way)
}

// The milliseconds of one join: those of two less those of one.
fn millis(left: &Side, right: &Side, way: &str, room: usize) -> f64 {
    let took = |times: usize| {
        let start = Instant::now();
        black_box(measured(left, right, way, room, times));
        start.elapsed().as_secs_f64() * 1000.0
    };
    let one = took(1);
    took(2) - one
}

fn ways(left: &Side) -> Vec<&'static str> {
    match left.numbers.len() / left.rows {
        1 => vec!["ours", "map", "sort", "hash"],
        2 => vec!["ours", "map", "sort", "hash", "bare", "tuples"],
        _ => vec!["ours", "map", "sort", "hash", "bare"],
    }
}

fn print_times(left: &Side, right: &Side, room: usize, rounds: usize) {
    let ways = ways(left);
    let mut least = vec![f64::MAX; ways.len()];
    for _ in 0..rounds {
        for (k, way) in ways.iter().enumerate() {
            least[k] = least[k].min(millis(left, right, way, room));
        }
    }
    for (k, way) in ways.iter().enumerate() {
        println!("{way} {:.0} {:.2}", least[k], least[0] / least[k]);
    }
}

fn main() {
    let args: Vec<String> = std::env::args().collect();
    let (left, right) = sides(&args[1]);
    let wanted = rust(&left, &right, "hash");
    let room = wanted.0.len();
    let number: usize = args[3].parse().unwrap();
    match args[2].as_str() {
        "times" => print_times(&left, &right, room, number),
        "ways" => println!("{}", ways(&left)[1..].join(" ")),
        way => assert!(measured(&left, &right, way, room, number) == wanted, "pairs differ"),
    }
}
