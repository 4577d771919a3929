//! Compares each kernel's answers, instructions and time with those of plain Rust, on random input.
//!
//! usage: compare count [WORD]        (under callgrind) calls `measured` four times for each row
//!        compare table COUNTS [WORD] compares the answers, takes the times, and prints the tables;
//!                                    COUNTS has the instructions of each call of `measured`
mod lists;
mod memory;
mod plain;

use plain::{Chunks, Mask, NULL};
use std::collections::BTreeMap;
use std::hint::black_box;
use std::mem::MaybeUninit;
use std::rc::Rc;
use std::time::Instant;

type Filter<T> = unsafe extern "C" fn(
    *const T, usize, *const u8, usize, *mut T, usize, usize, usize,
) -> usize;
type InPlace<T> = unsafe extern "C" fn(
    *const T, usize, *const u8, usize, *mut T, usize, usize, usize, usize,
) -> usize;
type Compact<T> = unsafe extern "C" fn(
    *const T, usize, *const u64, usize, *mut T, usize, usize, usize,
) -> usize;
type Gather<T> =
    unsafe extern "C" fn(*const T, usize, *const usize, usize, *mut T, usize, usize) -> usize;

macro_rules! of_width {
    ($item:ty, $name:literal, $filter:ident, $in_place:ident, $compact:ident, $gather:ident) => {
        unsafe extern "C" {
            fn $filter(
                s: *const $item, n: usize, b: *const u8, m: usize, o: *mut $item, k: usize,
                which: usize, times: usize,
            ) -> usize;
            fn $in_place(
                s: *const $item, n: usize, b: *const u8, m: usize, o: *mut $item, k: usize,
                which: usize, times: usize, of: usize,
            ) -> usize;
            fn $compact(
                s: *const $item, n: usize, w: *const u64, m: usize, o: *mut $item, k: usize,
                which: usize, times: usize,
            ) -> usize;
            fn $gather(
                s: *const $item, n: usize, l: *const usize, m: usize, o: *mut $item, k: usize,
                times: usize,
            ) -> usize;
        }

        impl Item for $item {
            const NAME: &str = $name;
            const FILTER: Filter<$item> = $filter;
            const IN_PLACE: InPlace<$item> = $in_place;
            const COMPACT: Compact<$item> = $compact;
            const GATHER: Gather<$item> = $gather;

            fn of(i: usize) -> $item {
                (i * 7 / 3) as $item
            }
        }
    };
}

/// What answers are lists of.
trait Value: Copy + Default + PartialEq + 'static {}

impl<T: Copy + Default + PartialEq + 'static> Value for T {}

/// Items of one width, and the library's calls for them.
trait Item: Value {
    const NAME: &str;
    const FILTER: Filter<Self>;
    const IN_PLACE: InPlace<Self>;
    const COMPACT: Compact<Self>;
    const GATHER: Gather<Self>;

    fn of(i: usize) -> Self;
}

of_width!(u8, "u8", filter_u8, in_place_u8, compact_u8, gather_u8);
of_width!(u32, "u32", filter_u32, in_place_u32, compact_u32, gather_u32);
of_width!(u64, "u64", filter_u64, in_place_u64, compact_u64, gather_u64);

unsafe extern "C" {
    fn bits_at_picks(
        b: *const u8, m: usize, bound: usize, l: *const usize, n: usize, o: *mut u64, k: usize,
        which: usize, times: usize,
    ) -> usize;
    fn ranks_of_picks(
        l: *const usize, n: usize, bound: usize, o: *mut usize, k: usize, times: usize,
    ) -> usize;
    fn positions_of_ranks(
        b: *const u8, m: usize, len: usize, l: *const usize, n: usize, o: *mut usize, k: usize,
        times: usize,
    ) -> usize;
    fn filter_bits(
        s: *const u8, n: usize, offset: usize, b: *const u8, m: usize, o: *mut u64, k: usize,
        len: usize, which: usize, times: usize,
    ) -> usize;
    fn filter_chunks(
        s: *const u8, n: usize, b: *const u8, m: usize, len: usize, o: *mut u8, k: usize,
        width: usize, which: usize, times: usize,
    ) -> usize;
    fn list_elements(
        f: *const u64, m: usize, b: *const u8, n: usize, o: *mut u64, k: usize, times: usize,
    ) -> usize;
    fn list_filter(
        f: *const u64, m: usize, b: *const u8, n: usize, o: *mut u64, k: usize, times: usize,
    ) -> usize;
    fn list_take(
        f: *const u64, m: usize, l: *const usize, n: usize, o: *mut u64, k: usize, which: usize,
        times: usize,
    ) -> usize;
}

const ROWS: usize = 65_536 + 37;
const ROUNDS: usize = 7;
const TIMES: usize = 20;

/// What the columns of the table stand for.
const COLUMNS: [&str; 6] = ["0.01", "0.1", "0.5", "0.9", "1", "one run"];

/// Random numbers by xorshift.
struct Dice(u64);

impl Dice {
    fn roll(&mut self) -> u64 {
        self.0 ^= self.0 << 13;
        self.0 ^= self.0 >> 7;
        self.0 ^= self.0 << 17;
        self.0
    }

    fn bytes(&mut self, density: f64) -> Vec<u8> {
        let mut bytes = vec![0; ROWS.div_ceil(8)];
        for i in 0..ROWS {
            if (self.roll() >> 11) as f64 / ((1u64 << 53) as f64) < density {
                bytes[i / 8] |= 1 << (i % 8);
            }
        }
        bytes[77] &= 0x7f;
        bytes[78] |= 1;
        bytes
    }

    fn picks(&mut self, bound: usize) -> Vec<usize> {
        let pick = |roll: u64| if roll % 8 == 0 { NULL } else { roll as usize % bound };
        (0..ROWS).map(|_| pick(self.roll())).collect()
    }

    fn offsets(&mut self) -> Vec<u64> {
        let sums = (0..ROWS).scan(100, |sum, _| {
            *sum += self.roll() % 8;
            Some(*sum)
        });
        std::iter::once(100).chain(sums).collect()
    }
}

/// Which picks are there.
fn bits_of(picks: &[usize]) -> Vec<u8> {
    let mut bytes = vec![0; picks.len().div_ceil(8)];
    for (k, _) in picks.iter().enumerate().filter(|(_, pick)| **pick != NULL) {
        bytes[k / 8] |= 1 << (k % 8);
    }
    bytes
}

/// The mask of one run of five eighths of the rows.
fn one_run() -> Vec<u8> {
    let mut bytes = vec![0; ROWS.div_ceil(8)];
    (10_001..51_000).for_each(|i| bytes[i / 8] |= 1 << (i % 8));
    bytes
}

/// The input of all kernels.
struct Input {
    masks: Vec<Mask>,
    bits: Vec<u8>,
    picks: Vec<usize>,
    ranks: Vec<usize>,
    /// Where lists of up to seven elements begin and end.
    offsets: Vec<u64>,
    /// Picks that are all there, at random and in runs.
    rows: Vec<usize>,
    runs: Vec<usize>,
    /// Which of `picks` are there.
    valid: Vec<u8>,
}

impl Input {
    fn new() -> Input {
        let mut dice = Dice(88_172_645_463_325_252);
        let densities = [0.01, 0.1, 0.5, 0.9, 1.0];
        let mut masks: Vec<Mask> =
            densities.iter().map(|d| Mask::new(ROWS, dice.bytes(*d))).collect();
        masks.push(Mask::new(ROWS, one_run()));
        let bits = dice.bytes(0.5).into_iter().chain([0]).collect();
        let ranks = dice.picks(masks[2].count);
        let offsets = dice.offsets();
        let picks = dice.picks(ROWS);
        let rows: Vec<usize> = (0..ROWS).map(|_| dice.roll() as usize % ROWS).collect();
        let runs = (0..ROWS).map(|i| (rows[i / 16] + i % 16) % ROWS).collect();
        let valid = bits_of(&picks);
        Input { masks, bits, picks, ranks, offsets, rows, runs, valid }
    }
}

/// One kernel on one mask: does its work `times` times over. Where it works in place, `of` copies
/// of the input are made, and as many of them as `times` says are filtered.
struct Row<'a> {
    kernel: String,
    column: Option<usize>,
    is_equal: Box<dyn FnMut() -> bool + 'a>,
    ours: Box<dyn FnMut(usize, usize) + 'a>,
    plain: Box<dyn FnMut(usize, usize) + 'a>,
}

type Ours<'a, T> = Box<dyn Fn(&mut [T], usize, usize) -> usize + 'a>;

fn row<'a, T: Value>(
    kernel: String,
    column: Option<usize>,
    ours: Ours<'a, T>,
    plain: impl Fn() -> Vec<T> + Clone + 'a,
) -> Row<'a> {
    let again = plain.clone();
    let many = move |times, _| (0..times).for_each(|_| drop(black_box(plain())));
    row_by(kernel, column, ours, again, many)
}

fn row_by<'a, T: Value>(
    kernel: String,
    column: Option<usize>,
    ours: Ours<'a, T>,
    plain: impl Fn() -> Vec<T> + 'a,
    many: impl FnMut(usize, usize) + 'a,
) -> Row<'a> {
    let ours = Rc::new(ours);
    let again = ours.clone();
    let is_equal = move || {
        let mut out = vec![T::default(); ROWS];
        again(&mut out, 1, 1);
        let answer = plain();
        out[..answer.len()] == answer[..]
    };
    let mut out = vec![T::default(); ROWS];
    let ours = move |times, of| {
        black_box(ours(black_box(&mut out), times, of));
    };
    Row {
        kernel,
        column,
        is_equal: Box::new(is_equal),
        ours: Box::new(ours),
        plain: Box::new(many),
    }
}

/// The filters of items, a line for each kernel.
fn filters<'a, T: Item>(rows: &mut Vec<Row<'a>>, column: usize, mask: &'a Mask) {
    let src: &[T] = (0..ROWS).map(T::of).collect::<Vec<_>>().leak();
    let at = |kernel: &str| (format!("{kernel}, {}", T::NAME), Some(column));
    let by = |which| -> Ours<'a, T> {
        Box::new(move |out, times, _| unsafe {
            let (s, b, o) = (src.as_ptr(), mask.bytes.as_ptr(), out.as_mut_ptr());
            T::FILTER(s, src.len(), b, mask.bytes.len(), o, out.len(), which, times)
        })
    };
    type Plain<T> = fn(&[T], &Mask) -> Vec<T>;
    let kernels: [(&str, usize, Plain<T>); 5] = [
        ("`filter_slice`", 0, plain::by_choice),
        ("`filter_slice_by_bitmap`", 1, plain::by_bits),
        ("`byte_compress`", 2, plain::by_bytes),
        ("kept indices", 3, |src, mask| plain::by_indices(src, &mask.indices)),
        ("kept slices", 4, |src, mask| plain::by_slices(src, &mask.slices, mask.count)),
    ];
    for (kernel, which, plain) in kernels {
        let (kernel, column) = at(kernel);
        let plain = move || plain(black_box(src), black_box(mask));
        rows.push(row(kernel, column, by(which), plain));
    }
}

/// The kernels that copy to the front of a list.
fn compacts<'a, T: Item>(rows: &mut Vec<Row<'a>>, column: usize, mask: &'a Mask) {
    let src: &[T] = (0..ROWS).map(T::of).collect::<Vec<_>>().leak();
    type Plain<T> = fn(&[T], &[u64], &mut [MaybeUninit<T>]) -> usize;
    let kernels: [(&str, usize, Plain<T>); 2] = [
        ("`compact_words`", 0, plain::compact_by_bits),
        ("`compact_runs`", 1, plain::compact_by_runs),
    ];
    for (kernel, which, plain) in kernels {
        let ours: Ours<'a, T> = Box::new(move |out, times, _| unsafe {
            let (s, w, o) = (src.as_ptr(), mask.words.as_ptr(), out.as_mut_ptr());
            T::COMPACT(s, src.len(), w, mask.words.len(), o, out.len(), which, times)
        });
        let answer = move || {
            let mut kept = Vec::with_capacity(mask.count);
            let len = plain(src, &mask.words, kept.spare_capacity_mut());
            unsafe { kept.set_len(len) };
            kept
        };
        let mut dst = Vec::<T>::with_capacity(ROWS);
        let many = move |times, _| {
            for _ in 0..times {
                let dst = black_box(dst.spare_capacity_mut());
                black_box(plain(black_box(src), black_box(&mask.words), dst));
            }
        };
        let kernel = format!("{kernel}, {}", T::NAME);
        rows.push(row_by(kernel, Some(column), ours, answer, many));
    }
}

/// The kernels that filter a list in place.
fn in_places<'a, T: Item>(rows: &mut Vec<Row<'a>>, column: usize, mask: &'a Mask) {
    let src: &[T] = (0..ROWS).map(T::of).collect::<Vec<_>>().leak();
    type Plain<T> = fn(&mut [T], &Mask) -> usize;
    let kernels: [(&str, usize, Plain<T>); 3] = [
        ("in place", 0, plain::in_place_by_bits),
        ("in place, kept indices", 3, |items, mask| {
            plain::in_place_by_indices(items, &mask.indices)
        }),
        ("in place, kept slices", 4, |items, mask| plain::in_place_by_slices(items, &mask.slices)),
    ];
    for (kernel, which, plain) in kernels {
        let ours: Ours<'a, T> = Box::new(move |out, times, of| unsafe {
            let (s, b, o) = (src.as_ptr(), mask.bytes.as_ptr(), out.as_mut_ptr());
            T::IN_PLACE(s, src.len(), b, mask.bytes.len(), o, out.len(), which, times, of)
        });
        let answer = move || {
            let mut items = src.to_vec();
            let len = plain(&mut items, mask);
            items.truncate(len);
            items
        };
        let mut items = src.to_vec();
        let many = move |times, of| {
            for i in 0..of {
                black_box(&mut items).copy_from_slice(src);
                if i < times {
                    black_box(plain(black_box(&mut items), black_box(mask)));
                }
            }
        };
        let kernel = format!("{kernel}, {}", T::NAME);
        rows.push(row_by(kernel, Some(column), ours, answer, many));
    }
}

/// The filters over values that are decoded by chunks.
fn chunk_filters<'a, T: Item>(rows: &mut Vec<Row<'a>>, column: usize, mask: &'a Mask) {
    let src: &[T] = (0..ROWS.next_multiple_of(1024)).map(T::of).collect::<Vec<_>>().leak();
    let width = size_of::<T>();
    type Plain<T> = fn(&mut Chunks<T>, &Mask) -> Vec<T>;
    let kernels: [(&str, usize, Plain<T>); 3] = [
        ("chunks, bits", 0, plain::chunks_by_bits),
        ("chunks, kept indices", 3, |c, mask| plain::chunks_by_indices(c, &mask.indices)),
        ("chunks, kept slices", 4, |c, mask| plain::chunks_by_slices(c, &mask.slices, mask.count)),
    ];
    for (kernel, which, plain) in kernels {
        let ours: Ours<'a, T> = Box::new(move |out, times, _| unsafe {
            let (s, b) = (src.as_ptr() as *const u8, mask.bytes.as_ptr());
            let (o, k) = (out.as_mut_ptr() as *mut u8, width * out.len());
            let n = width * src.len();
            filter_chunks(s, n, b, mask.bytes.len(), ROWS, o, k, width, which, times)
        });
        let plain = move || plain(&mut Chunks::new(black_box(src)), black_box(mask));
        rows.push(row(format!("{kernel}, {}", T::NAME), Some(column), ours, plain));
    }
}


/// The filters of bits.
fn bit_filters<'a>(rows: &mut Vec<Row<'a>>, column: usize, src: &'a [u8], mask: &'a Mask) {
    type Plain = fn(&[u8], usize, &Mask) -> Vec<u64>;
    let kernels: [(&str, usize, Plain); 3] = [
        ("`filter_bitbuffer_by_mask`", 0, plain::filter_bits),
        ("`filter_sparse`", 1, plain::filter_few_bits),
        ("`filter_sparse`, kept indices", 3, |src, offset, mask| {
            plain::filter_listed_bits(src, offset, &mask.indices)
        }),
    ];
    for (kernel, which, plain) in kernels {
        let ours: Ours<'a, u64> = Box::new(move |out, times, _| unsafe {
            let (s, b, o, k) = (src.as_ptr(), mask.bytes.as_ptr(), out.as_mut_ptr(), out.len());
            filter_bits(s, src.len(), 3, b, mask.bytes.len(), o, k, ROWS, which, times)
        });
        let plain = move || plain(black_box(src), 3, black_box(mask));
        rows.push(row(kernel.to_string(), Some(column), ours, plain));
    }
}

fn gathers<'a, T: Item>(rows: &mut Vec<Row<'a>>, picks: &'a [usize]) {
    let src: &[T] = (0..ROWS).map(T::of).collect::<Vec<_>>().leak();
    let ours: Ours<'a, T> = Box::new(move |out, times, _| unsafe {
        let (s, l, o) = (src.as_ptr(), picks.as_ptr(), out.as_mut_ptr());
        T::GATHER(s, src.len(), l, picks.len(), o, out.len(), times)
    });
    let plain = move || plain::gather(black_box(src), black_box(picks), T::default());
    rows.push(row(format!("`gather`, {}", T::NAME), None, ours, plain));
}

/// The kernels that go by picks.
fn takes<'a>(rows: &mut Vec<Row<'a>>, input: &'a Input) {
    let (mask, picks, ranks) = (&input.masks[2], &input.picks, &input.ranks);
    gathers::<u8>(rows, picks);
    gathers::<u32>(rows, picks);
    gathers::<u64>(rows, picks);
    let bits = |which| -> Ours<'a, u64> {
        Box::new(move |out, times, _| unsafe {
            let (b, l, o, k) = (mask.bytes.as_ptr(), picks.as_ptr(), out.as_mut_ptr(), out.len());
            bits_at_picks(b, mask.bytes.len(), ROWS, l, picks.len(), o, k, which, times)
        })
    };
    let plain = move || plain::bits_at(black_box(&mask.bytes), black_box(picks));
    rows.push(row("`gather_bits`".to_string(), None, bits(0), plain));
    let plain = move || plain::are_there(black_box(picks));
    rows.push(row("`valid_bits`".to_string(), None, bits(1), plain));
    let ours: Ours<'a, usize> = Box::new(move |out, times, _| unsafe {
        ranks_of_picks(picks.as_ptr(), picks.len(), ROWS, out.as_mut_ptr(), out.len(), times)
    });
    let plain = move || plain::ranks(black_box(picks), ROWS);
    rows.push(row("`needed`, `ranks_in`".to_string(), None, ours, plain));
    let ours: Ours<'a, usize> = Box::new(move |out, times, _| unsafe {
        let (b, l, o, k) = (mask.bytes.as_ptr(), ranks.as_ptr(), out.as_mut_ptr(), out.len());
        positions_of_ranks(b, mask.bytes.len(), ROWS, l, ranks.len(), o, k, times)
    });
    let plain = move || plain::positions(black_box(mask), black_box(ranks));
    rows.push(row("`translate_ranks`".to_string(), None, ours, plain));
}

/// Half of an answer's room for offsets, and half for what they cut.
fn halves(offsets: &[u64], rest: impl Iterator<Item = u64>) -> Vec<u64> {
    let room = ROWS / 2;
    let offsets = offsets.iter().copied().chain(std::iter::repeat(0)).take(room);
    offsets.chain(rest.chain(std::iter::repeat(0)).take(room)).collect()
}

fn words_of(bytes: &[u8]) -> impl Iterator<Item = u64> {
    let word = |chunk: &[u8]| chunk.iter().rev().fold(0, |word, b| word << 8 | u64::from(*b));
    bytes.chunks(8).map(word)
}

/// The plans of a filter of lists.
fn list_filters<'a>(rows: &mut Vec<Row<'a>>, column: usize, offsets: &'a [u64], mask: &'a Mask) {
    type Plan = unsafe extern "C" fn(
        *const u64, usize, *const u8, usize, *mut u64, usize, usize,
    ) -> usize;
    let by = |plan: Plan| -> Ours<'a, u64> {
        Box::new(move |out, times, _| unsafe {
            let (f, b, o) = (offsets.as_ptr(), mask.bytes.as_ptr(), out.as_mut_ptr());
            plan(f, offsets.len(), b, mask.bytes.len(), o, out.len(), times)
        })
    };
    let answer = move || words_of(&lists::element_mask(offsets, mask).bytes).collect();
    let many = move |times, _| {
        for _ in 0..times {
            black_box(lists::element_mask(black_box(offsets), black_box(mask)));
        }
    };
    let kernel = "`element_mask_from_offsets`".to_string();
    rows.push(row_by(kernel, Some(column), by(list_elements), answer, many));
    let answer = move || {
        let filtered = lists::filter(offsets, mask);
        let range = [filtered.range.0 as u64, filtered.range.1 as u64];
        let rest = range.into_iter().chain(words_of(&filtered.elements.bytes));
        halves(&filtered.offsets, rest)
    };
    let many = move |times, _| {
        for _ in 0..times {
            black_box(lists::filter(black_box(offsets), black_box(mask)));
        }
    };
    rows.push(row_by("`filter_lists`".to_string(), Some(column), by(list_filter), answer, many));
}

/// The plans of a take of lists.
fn list_takes<'a>(rows: &mut Vec<Row<'a>>, input: &'a Input) {
    let offsets = &input.offsets;
    let kernels: [(&str, usize, &'a [usize], Option<&'a [u8]>); 3] = [
        ("`take_lists`, nulls", 0, &input.picks, Some(&input.valid)),
        ("`take_lists`", 1, &input.rows, None),
        ("`take_lists`, runs of 16", 1, &input.runs, None),
    ];
    for (kernel, which, picks, valid) in kernels {
        let ours: Ours<'a, u64> = Box::new(move |out, times, _| unsafe {
            let (f, l, o) = (offsets.as_ptr(), picks.as_ptr(), out.as_mut_ptr());
            list_take(f, offsets.len(), l, picks.len(), o, out.len(), which, times)
        });
        let answer = move || {
            let taken = lists::take(offsets, picks, valid);
            let runs = taken.starts.iter().zip(&taken.lengths);
            halves(&taken.offsets, runs.flat_map(|(start, length)| *start..start + length))
        };
        let many = move |times, _| {
            for _ in 0..times {
                black_box(lists::take(black_box(offsets), black_box(picks), black_box(valid)));
            }
        };
        rows.push(row_by(kernel.to_string(), None, ours, answer, many));
    }
}

fn all_of_width<'a, T: Item>(rows: &mut Vec<Row<'a>>, column: usize, mask: &'a Mask) {
    filters::<T>(rows, column, mask);
    compacts::<T>(rows, column, mask);
    in_places::<T>(rows, column, mask);
    chunk_filters::<T>(rows, column, mask);
}

/// All rows whose kernel's name has the word.
fn all_rows<'a>(input: &'a Input, word: &str) -> Vec<Row<'a>> {
    let mut rows = Vec::new();
    for (column, mask) in input.masks.iter().enumerate() {
        bit_filters(&mut rows, column, &input.bits, mask);
        all_of_width::<u8>(&mut rows, column, mask);
        all_of_width::<u32>(&mut rows, column, mask);
        all_of_width::<u64>(&mut rows, column, mask);
        list_filters(&mut rows, column, &input.offsets, mask);
    }
    takes(&mut rows, input);
    list_takes(&mut rows, input);
    rows.retain(|row| row.kernel.contains(word));
    rows
}

/// What is counted: callgrind counts instructions here alone, and writes them down at each end.
#[unsafe(no_mangle)]
#[inline(never)]
fn measured(work: &mut dyn FnMut(usize, usize), times: usize, of: usize) {
    work(times, of);
}

/// The least nanoseconds of some rounds.
fn least_time(work: &mut dyn FnMut(usize, usize), times: usize) -> f64 {
    let once = |work: &mut dyn FnMut(usize, usize)| {
        let begin = Instant::now();
        work(times, TIMES + 1);
        begin.elapsed().as_nanos()
    };
    (0..ROUNDS).map(|_| once(work)).min().expect("a round") as f64
}

/// The nanoseconds a row: a call does what comes before the kernel once, however often the kernel
/// runs.
fn time(work: &mut dyn FnMut(usize, usize)) -> f64 {
    (least_time(work, TIMES + 1) - least_time(work, 1)) / (TIMES * ROWS) as f64
}

/// What a kernel costs on one mask, here and in plain Rust.
#[derive(Clone, Copy)]
struct Cost {
    ours: f64,
    plain: f64,
}

impl Cost {
    fn cell(&self) -> String {
        format!("{:.2} / {:.2} = **{:.2}**", self.ours, self.plain, self.ours / self.plain)
    }
}

/// Prints one table: a line for each kernel, a column for each mask.
fn print_table(title: &str, unit: &str, costs: &[(String, Option<usize>, Cost)]) {
    let mut lines: BTreeMap<usize, (&str, Vec<String>)> = BTreeMap::new();
    for (kernel, column, cost) in costs {
        let place = costs.iter().position(|other| other.0 == *kernel).expect("itself");
        let line = lines.entry(place).or_insert((kernel, vec![String::new(); COLUMNS.len()]));
        line.1[column.unwrap_or(2)] = cost.cell();
    }
    println!("\n## {title}\n\n| {unit} | {} |", COLUMNS.join(" | "));
    println!("|---|{}", "---|".repeat(COLUMNS.len()));
    for (kernel, cells) in lines.values() {
        println!("| {kernel} | {} |", cells.join(" | "));
    }
}

/// What four calls of `measured` counted, as instructions a row. Between two runs and none lies
/// the kernel alone.
fn instructions(counts: &[f64]) -> Cost {
    let of = |one: f64, three: f64| (three - one) / (2 * ROWS) as f64;
    Cost { ours: of(counts[0], counts[1]), plain: of(counts[2], counts[3]) }
}

fn print_tables(rows: &mut [Row], counts: &[f64]) -> bool {
    let (mut counted, mut timed, mut is_equal) = (Vec::new(), Vec::new(), true);
    for (row, counts) in rows.iter_mut().zip(counts.chunks(4)) {
        if !(row.is_equal)() {
            println!("DIFFERENT ANSWERS: {}", row.kernel);
            is_equal = false;
        }
        let cost = Cost { ours: time(&mut row.ours), plain: time(&mut row.plain) };
        timed.push((row.kernel.clone(), row.column, cost));
        counted.push((row.kernel.clone(), row.column, instructions(counts)));
    }
    print_table("Instructions", "instructions a row", &counted);
    print_table("Times", "nanoseconds a row", &timed);
    is_equal
}

fn main() {
    let words: Vec<String> = std::env::args().collect();
    let input = Input::new();
    if words[1] == "count" {
        for mut row in all_rows(&input, words.get(2).map_or("", |word| word)) {
            for work in [&mut row.ours, &mut row.plain] {
                measured(work, 1, 3);
                measured(work, 3, 3);
            }
        }
        return;
    }
    let counts = std::fs::read_to_string(&words[2]).expect("the counts");
    let counts: Vec<f64> = counts.lines().map(|line| line.parse().expect("a count")).collect();
    let mut rows = all_rows(&input, words.get(3).map_or("", |word| word));
    assert_eq!(counts.len(), 4 * rows.len(), "four counts a row");
    if !print_tables(&mut rows, &counts) {
        std::process::exit(1);
    }
}
