//! Random calls of each function, compared with plain loops. `VORTEX_CALLS` says how many of them
//! are made. All of it is safe code.
#![forbid(unsafe_code)]
use std::fmt::Debug;
use std::ops::Range;
use vortex_select::{
    filter, filter_bits, filter_by, filter_in_place, filter_in_place_by, take, take_bits,
    take_bits_u32, take_bits_valid, take_into, take_u32, take_valid, take_valid_u32, Bits, Mask,
    OutOfBounds, Record,
};

/// Random numbers by xorshift.
struct Dice(u64);

impl Dice {
    fn roll(&mut self) -> u64 {
        self.0 ^= self.0 << 13;
        self.0 ^= self.0 >> 7;
        self.0 ^= self.0 << 17;
        self.0
    }

    fn below(&mut self, bound: usize) -> usize {
        (self.roll() >> 8) as usize % bound
    }

    /// A length: mostly short, at times up to 5,000, often beside a multiple of 64.
    fn len(&mut self) -> usize {
        match self.below(8) {
            0 => self.below(5_001),
            1 => 64 * self.below(20) + self.below(3),
            2 => 0,
            _ => self.below(200),
        }
    }

    /// Bools of a random density, at times in runs.
    fn bools(&mut self, len: usize) -> Vec<bool> {
        let density = [0, 1, 10, 50, 90, 99, 100][self.below(7)];
        let run = [1, 1, 5, 70][self.below(4)];
        let mut rows = Vec::with_capacity(len);
        while rows.len() < len {
            let row = self.below(100) < density;
            rows.resize(len.min(rows.len() + 1 + self.below(run)), row);
        }
        rows
    }

    fn indices(&mut self, len: usize, bound: usize) -> Vec<u64> {
        let past = self.below(4) == 0;
        let index = |dice: &mut Dice| match dice.below(200) {
            0 if past => dice.roll(),
            1 if past => bound as u64,
            _ => dice.below(bound.max(1)) as u64,
        };
        (0..len).map(|_| index(self)).collect()
    }
}

fn plain_filter<T: Copy>(values: &[T], rows: &[bool]) -> Vec<T> {
    values
        .iter()
        .zip(rows)
        .filter(|(_, row)| **row)
        .map(|(value, _)| *value)
        .collect()
}

fn plain_take<T: Copy>(
    values: &[T],
    indices: &[u64],
    there: &[bool],
    zero: T,
) -> Result<Vec<T>, OutOfBounds> {
    let item = |(place, (index, there)): (usize, (&u64, &bool))| {
        let item = usize::try_from(*index).ok().and_then(|i| values.get(i));
        if *there {
            item.copied().ok_or(OutOfBounds {
                place,
                index: *index,
                len: values.len(),
            })
        } else {
            Ok(zero)
        }
    };
    indices.iter().zip(there).enumerate().map(item).collect()
}

/// The result of the indices of 64 bits, by those of 32 bits that stand for them.
fn of_narrow<T>(plain: Result<T, OutOfBounds>, narrow: &[u32]) -> Result<T, OutOfBounds> {
    plain.map_err(|fault| OutOfBounds {
        index: u64::from(narrow[fault.place]),
        ..fault
    })
}

/// The same indices, where one past 32 bits is the greatest of them.
fn narrowed(indices: &[u64]) -> Vec<u32> {
    let narrow = |index: &u64| u32::try_from(*index).unwrap_or(u32::MAX);
    indices.iter().map(narrow).collect()
}

fn plain_runs(rows: &[bool]) -> Vec<Range<u64>> {
    let mut runs: Vec<Range<u64>> = Vec::new();
    for row in (0..rows.len() as u64).filter(|row| rows[*row as usize]) {
        match runs.last_mut() {
            Some(run) if run.end == row => run.end += 1,
            _ => runs.push(row..row + 1),
        }
    }
    runs
}

fn one_call<T: Record + PartialEq + Debug>(dice: &mut Dice, zero: T, of: fn(u64) -> T) {
    let values: Vec<T> = (0..dice.len()).map(|_| of(dice.roll())).collect();
    match dice.below(6) {
        0 => {
            let rows = dice.bools(values.len());
            let plain = plain_filter(&values, &rows);
            assert_eq!(filter(&values, &Mask::from_bools(&rows)), plain);
            let (words, at) = placed(dice, &rows);
            let bits = Bits::new(&words, at, rows.len()).unwrap();
            assert_eq!(filter_by(&values, bits), plain);
        }
        1 => {
            let rows = dice.bools(values.len());
            let mut kept = values.clone();
            filter_in_place(&mut kept, &Mask::from_bools(&rows));
            assert_eq!(kept, plain_filter(&values, &rows));
            let (words, at) = placed(dice, &rows);
            kept = values.clone();
            filter_in_place_by(&mut kept, Bits::new(&words, at, rows.len()).unwrap());
            assert_eq!(kept, plain_filter(&values, &rows));
        }
        2 => {
            let len = dice.len();
            let indices = dice.indices(len, values.len());
            let all = vec![true; len];
            let plain = plain_take(&values, &indices, &all, zero);
            assert_eq!(take(&values, &indices), plain);
            let narrow = narrowed(&indices);
            assert_eq!(take_u32(&values, &narrow), of_narrow(plain, &narrow));
        }
        3 => {
            let len = dice.len();
            let indices = dice.indices(len, values.len());
            let there = dice.bools(len);
            let mask = Mask::from_bools(&there);
            let plain = plain_take(&values, &indices, &there, zero);
            assert_eq!(take_valid(&values, &indices, &mask), plain);
            let narrow = narrowed(&indices);
            let plain = of_narrow(plain, &narrow);
            assert_eq!(take_valid_u32(&values, &narrow, &mask), plain);
        }
        4 => {
            let len = dice.len();
            let indices = dice.indices(len, values.len());
            let old: Vec<T> = (0..len).map(|_| of(dice.roll())).collect();
            let plain = plain_take(&values, &indices, &vec![true; len], zero);
            let mut dst = old.clone();
            let answer = take_into(&values, &indices, &mut dst);
            assert_eq!(answer, plain.as_ref().map(|_| ()).map_err(|fault| *fault));
            assert_eq!(dst, plain.unwrap_or(old));
        }
        _ => {
            let len = dice.len();
            let rows = dice.bools(len);
            let set: Vec<u64> = (0..rows.len() as u64)
                .filter(|i| rows[*i as usize])
                .collect();
            let mask = Mask::from_bools(&rows);
            assert_eq!(mask.positions(), set);
            assert_eq!(mask.runs(), plain_runs(&rows));
            let (k, p) = (dice.below(len + 2), dice.below(len + 2));
            assert_eq!(mask.rank(k).map(|row| row as u64), set.get(k).copied());
            let before = (p <= len).then(|| set.partition_point(|row| *row < p as u64));
            assert_eq!(mask.count_before(p), before);
        }
    }
}

/// Words in which the rows stand at a random place among other bits, and that place.
fn placed(dice: &mut Dice, rows: &[bool]) -> (Vec<u64>, usize) {
    let at = dice.below(130);
    let behind = dice.below(70);
    let mut all = dice.bools(at);
    all.extend_from_slice(rows);
    all.extend(dice.bools(behind));
    (Mask::from_bools(&all).words().to_vec(), at)
}

fn one_call_of_bits(dice: &mut Dice) {
    let len = dice.len();
    let src = dice.bools(len);
    let (words, at) = placed(dice, &src);
    let bits = Bits::new(&words, at, len).unwrap();
    let picks = dice.len();
    let indices = dice.indices(picks, len);
    match dice.below(3) {
        0 => {
            let rows = dice.bools(len);
            let (by, by_at) = placed(dice, &rows);
            let kept = filter_bits(bits, Bits::new(&by, by_at, len).unwrap());
            assert_eq!(kept, Mask::from_bools(&plain_filter(&src, &rows)));
        }
        1 => {
            let plain = plain_take(&src, &indices, &vec![true; picks], false);
            let plain = plain.map(|rows| Mask::from_bools(&rows));
            assert_eq!(take_bits(bits, &indices), plain);
            let narrow = narrowed(&indices);
            assert_eq!(take_bits_u32(bits, &narrow), of_narrow(plain, &narrow));
        }
        _ => {
            let there = dice.bools(picks);
            let plain = plain_take(&src, &indices, &there, false);
            let taken = take_bits_valid(bits, &indices, &Mask::from_bools(&there));
            assert_eq!(taken, plain.map(|rows| Mask::from_bools(&rows)));
        }
    }
}

/// A mask and its bits, made and read in each way there is.
fn one_mask(dice: &mut Dice) {
    let len = dice.len();
    let rows = dice.bools(len);
    let mask = Mask::from_bools(&rows);
    assert_eq!((mask.len(), mask.is_empty()), (len, len == 0));
    assert_eq!(mask.count(), rows.iter().filter(|row| **row).count());
    let bit = |k: usize| mask.words()[k / 64] >> (k % 64) & 1 == 1;
    assert!((0..64 * mask.words().len()).all(|k| bit(k) == (k < len && rows[k])));
    let mut words = mask.words().to_vec();
    assert_eq!(Mask::from_words(words.clone(), len).as_ref(), Some(&mask));
    words.push(0);
    assert_eq!(Mask::from_words(words.clone(), len), None);
    words.pop();
    if len % 64 > 0 {
        words[len / 64] |= 1 << 63;
        assert_eq!(Mask::from_words(words, len), None);
    }
    let (words, at) = placed(dice, &rows);
    let bits = Bits::new(&words, at, len).unwrap();
    assert_eq!((bits.len(), bits.is_empty()), (len, len == 0));
    assert!((0..len + 70).all(|k| bits.get(k) == rows.get(k).copied()));
    let of_mask = Bits::from(&mask);
    assert!((0..len + 70).all(|k| of_mask.get(k) == rows.get(k).copied()));
    let past = 64 * words.len() - at + 1;
    assert!(Bits::new(&words, at, past).is_none() && Bits::new(&words, usize::MAX, len).is_none());
}

#[test]
fn calls_agree_with_plain_loops() {
    let calls = std::env::var("VORTEX_CALLS").map_or(100_000, |n| n.parse().unwrap());
    let mut dice = Dice(88_172_645_463_325_252);
    for _ in 0..calls {
        match dice.below(18) {
            0 => one_call::<u8>(&mut dice, 0, |n| n as u8),
            1 => one_call::<i8>(&mut dice, 0, |n| n as i8),
            2 => one_call::<u16>(&mut dice, 0, |n| n as u16),
            3 => one_call::<i16>(&mut dice, 0, |n| n as i16),
            4 => one_call::<u32>(&mut dice, 0, |n| n as u32),
            5 => one_call::<i32>(&mut dice, 0, |n| n as i32),
            6 => one_call::<f32>(&mut dice, 0.0, |n| (n % 1000) as f32),
            7 => one_call::<u64>(&mut dice, 0, |n| n),
            8 => one_call::<i64>(&mut dice, 0, |n| n as i64),
            9 => one_call::<f64>(&mut dice, 0.0, |n| (n % 1000) as f64),
            10 => one_call::<usize>(&mut dice, 0, |n| n as usize),
            11 => one_call::<isize>(&mut dice, 0, |n| n as isize),
            12 => one_call::<u128>(&mut dice, 0, |n| u128::from(n) << 40),
            13 => one_call::<i128>(&mut dice, 0, |n| -i128::from(n) << 40),
            14 => one_call::<[u64; 2]>(&mut dice, [0; 2], |n| [n, n / 2]),
            15 => one_call::<[u64; 4]>(&mut dice, [0; 4], |n| [n, n / 2, n / 3, n / 5]),
            16 => one_mask(&mut dice),
            _ => one_call_of_bits(&mut dice),
        }
    }
}

#[test]
fn the_crates_version_is_the_librarys() {
    let parts = env!("CARGO_PKG_VERSION").split('.');
    let version = parts.fold(0, |sum, part| 1000 * sum + part.parse::<u32>().unwrap());
    assert_eq!(vortex_select::version(), version);
}
