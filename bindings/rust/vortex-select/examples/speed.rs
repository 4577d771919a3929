//! The crate's functions beside plain Rust: prints a line of nanoseconds a row, or does one kernel
//! so many times, to be counted.
//!
//! usage: speed                       a table of times
//!        speed KERNEL SIDE DENSITY TIMES   one kernel, `ours` or `plain`, TIMES times over
use std::hint::black_box;
use std::ops::Range;
use std::time::Instant;
use vortex_select::{filter, filter_bits, take, take_bits, take_into, Bits, Mask, Record};

const ROWS: usize = 65_536 + 37;
const BY_DENSITY: [&str; 5] = [
    "filter_u32",
    "filter_u64",
    "filter_bits",
    "positions",
    "runs",
];
const BY_INDICES: [&str; 5] = [
    "take_u32",
    "take_u64",
    "take_into_u32",
    "take_into_u64",
    "take_bits",
];
const DENSITIES: [f64; 3] = [0.1, 0.5, 0.9];

struct Dice(u64);

impl Dice {
    fn roll(&mut self) -> u64 {
        self.0 ^= self.0 << 13;
        self.0 ^= self.0 >> 7;
        self.0 ^= self.0 << 17;
        self.0
    }
}

struct Input<T> {
    values: Vec<T>,
    mask: Mask,
    bits: Mask,
    indices: Vec<u64>,
    dst: Vec<T>,
}

fn bits_of(dice: &mut Dice, density: f64) -> Mask {
    let bound = density * (1u64 << 53) as f64;
    let rows: Vec<bool> = (0..ROWS)
        .map(|_| ((dice.roll() >> 11) as f64) < bound)
        .collect();
    Mask::from_bools(&rows)
}

fn input<T: Copy>(density: f64, of: fn(u64) -> T) -> Input<T> {
    let mut dice = Dice(88_172_645_463_325_252);
    let values: Vec<T> = (0..ROWS).map(|_| of(dice.roll())).collect();
    Input {
        mask: bits_of(&mut dice, density),
        bits: bits_of(&mut dice, 0.5),
        indices: (0..ROWS).map(|_| dice.roll() % ROWS as u64).collect(),
        dst: values.clone(),
        values,
    }
}

/// The set bits of each word, the lowest first.
#[inline(always)]
fn for_each_set(mask: &Mask, mut each: impl FnMut(usize)) {
    for (place, word) in mask.words().iter().enumerate() {
        let mut left = *word;
        while left != 0 {
            each(64 * place + left.trailing_zeros() as usize);
            left &= left - 1;
        }
    }
}

#[inline(never)]
fn plain_filter<T: Copy>(values: &[T], mask: &Mask) -> Vec<T> {
    let mut kept = Vec::with_capacity(mask.count());
    for (values, word) in values.chunks(64).zip(mask.words()) {
        let mut left = *word;
        while left != 0 {
            kept.push(values[left.trailing_zeros() as usize]);
            left &= left - 1;
        }
    }
    kept
}

#[inline(never)]
fn plain_take<T: Copy>(values: &[T], indices: &[u64]) -> Vec<T> {
    indices
        .iter()
        .map(|index| values[*index as usize])
        .collect()
}

#[inline(never)]
fn plain_take_into<T: Copy>(values: &[T], indices: &[u64], dst: &mut [T]) {
    for (item, index) in dst.iter_mut().zip(indices) {
        *item = values[*index as usize];
    }
}

/// Bits that are put one behind another.
struct Pushed {
    words: Vec<u64>,
    word: u64,
    len: usize,
}

impl Pushed {
    fn with_room(bits: usize) -> Pushed {
        Pushed {
            words: Vec::with_capacity(bits.div_ceil(64)),
            word: 0,
            len: 0,
        }
    }

    #[inline(always)]
    fn push(&mut self, bit: u64) {
        self.word |= bit << (self.len % 64);
        self.len += 1;
        if self.len % 64 == 0 {
            self.words.push(self.word);
            self.word = 0;
        }
    }

    fn end(mut self) -> Vec<u64> {
        if self.len % 64 != 0 {
            self.words.push(self.word);
        }
        self.words
    }
}

#[inline(never)]
fn plain_filter_bits(bits: &Mask, mask: &Mask) -> Vec<u64> {
    let mut kept = Pushed::with_room(mask.count());
    let words = bits.words();
    for_each_set(mask, |row| kept.push(words[row / 64] >> (row % 64) & 1));
    kept.end()
}

#[inline(never)]
fn plain_take_bits(bits: &Mask, indices: &[u64]) -> Vec<u64> {
    let mut taken = Pushed::with_room(indices.len());
    let words = bits.words();
    for index in indices {
        let row = *index as usize;
        assert!(row < bits.len());
        taken.push(words[row / 64] >> (row % 64) & 1);
    }
    taken.end()
}

#[inline(never)]
fn plain_positions(mask: &Mask) -> Vec<u64> {
    let mut rows = Vec::with_capacity(mask.count());
    for_each_set(mask, |row| rows.push(row as u64));
    rows
}

#[inline(never)]
fn plain_runs(mask: &Mask) -> Vec<Range<u64>> {
    let mut runs: Vec<Range<u64>> = Vec::new();
    for_each_set(mask, |row| match runs.last_mut() {
        Some(run) if run.end == row as u64 => run.end += 1,
        _ => runs.push(row as u64..row as u64 + 1),
    });
    runs
}

fn ours<T: Record>(kernel: &str, input: &mut Input<T>) -> usize {
    let values = black_box(&input.values[..]);
    let (mask, bits) = (&input.mask, Bits::from(&input.bits));
    match kernel.trim_end_matches("_u32").trim_end_matches("_u64") {
        "filter" => black_box(filter(values, mask)).len(),
        "take" => black_box(take(values, &input.indices)).map_or(0, |list| list.len()),
        "take_into" => {
            black_box(take_into(values, &input.indices, &mut input.dst)).is_ok() as usize
        }
        "filter_bits" => black_box(filter_bits(bits, Bits::from(mask))).len(),
        "take_bits" => black_box(take_bits(bits, &input.indices)).map_or(0, |bits| bits.len()),
        "positions" => black_box(mask.positions()).len(),
        _ => black_box(mask.runs()).len(),
    }
}

fn plain<T: Record>(kernel: &str, input: &mut Input<T>) -> usize {
    let values = black_box(&input.values[..]);
    let (mask, bits) = (&input.mask, &input.bits);
    match kernel.trim_end_matches("_u32").trim_end_matches("_u64") {
        "filter" => black_box(plain_filter(values, mask)).len(),
        "take" => black_box(plain_take(values, &input.indices)).len(),
        "take_into" => {
            plain_take_into(values, &input.indices, black_box(&mut input.dst));
            1
        }
        "filter_bits" => black_box(plain_filter_bits(bits, mask)).len(),
        "take_bits" => black_box(plain_take_bits(bits, &input.indices)).len(),
        "positions" => black_box(plain_positions(mask)).len(),
        _ => black_box(plain_runs(mask)).len(),
    }
}

fn timed<T: Record>(kernel: &str, is_ours: bool, times: usize, mut input: Input<T>) -> u128 {
    let work = if is_ours { ours } else { plain };
    let start = Instant::now();
    let sum: usize = (0..times).map(|_| work(kernel, &mut input)).sum();
    black_box(sum);
    start.elapsed().as_nanos()
}

fn many(kernel: &str, is_ours: bool, density: f64, times: usize) -> u128 {
    if kernel.ends_with("u32") {
        timed(kernel, is_ours, times, input(density, |roll| roll as u32))
    } else {
        timed(kernel, is_ours, times, input(density, |roll| roll))
    }
}

fn nanoseconds(kernel: &str, is_ours: bool, density: f64) -> f64 {
    let least = (0..15)
        .map(|_| many(kernel, is_ours, density, 20))
        .min()
        .unwrap_or(0);
    least as f64 / (20 * ROWS) as f64
}

fn print_line(kernel: &str, density: f64) {
    let ours = nanoseconds(kernel, true, density);
    let plain = nanoseconds(kernel, false, density);
    let ratio = ours / plain;
    println!("| {kernel} | {density} | {ours:.2} | {plain:.2} | **{ratio:.2}** |");
}

fn main() {
    let args: Vec<String> = std::env::args().collect();
    if let [_, kernel, side, density, times] = &args[..] {
        let (density, times) = (density.parse().unwrap(), times.parse().unwrap());
        many(kernel, side == "ours", density, times);
        return;
    }
    println!("| nanoseconds a row | density | ours | plain | ratio |\n|---|---|---|---|---|");
    for kernel in BY_DENSITY {
        for density in DENSITIES {
            print_line(kernel, density);
        }
    }
    for kernel in BY_INDICES {
        print_line(kernel, 0.5);
    }
}
