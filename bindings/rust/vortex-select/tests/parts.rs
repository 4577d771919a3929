//! Random cuts of parts, compared with plain loops.
#![cfg(feature = "parts")]
#![forbid(unsafe_code)]
use vortex_select::parts::{bounds, cut_mask, cut_picks, cut_slice, CutPicks, Error, Slices, NULL};
use vortex_select::{Bits, Mask};

/// Random numbers by xorshift.
struct Dice(u64);

impl Dice {
    fn below(&mut self, bound: usize) -> usize {
        self.0 ^= self.0 << 13;
        self.0 ^= self.0 >> 7;
        self.0 ^= self.0 << 17;
        (self.0 >> 8) as usize % bound
    }

    fn lengths(&mut self) -> Vec<usize> {
        let count = self.below(6);
        (0..count).map(|_| self.below(90)).collect()
    }
}

/// The part of each row, and the row's number in it.
fn rows_of(lengths: &[usize]) -> Vec<(usize, usize)> {
    let of_part = |(part, len): (usize, &usize)| (0..*len).map(move |row| (part, row));
    lengths.iter().enumerate().flat_map(of_part).collect()
}

fn plain_slice(lengths: &[usize], start: usize, end: usize) -> Slices {
    let (mut slices, mut first) = (Vec::new(), 0);
    for len in lengths {
        let within = |row: usize| row.max(first).min(first + len) - first;
        slices.push((within(start), within(end)));
        first += len;
    }
    Slices {
        starts: slices.iter().map(|(start, _)| *start).collect(),
        ends: slices.iter().map(|(_, end)| *end).collect(),
        left: slices.iter().map(|(start, end)| end - start).collect(),
    }
}

fn plain_picks(lengths: &[usize], places: &[u64]) -> CutPicks {
    let rows = rows_of(lengths);
    let mut own = vec![Vec::new(); lengths.len()];
    let (mut parts, mut numbers) = (Vec::new(), Vec::new());
    for place in places {
        if *place == NULL {
            parts.push(NULL);
            numbers.push(NULL);
            continue;
        }
        let (part, row) = rows[*place as usize];
        parts.push(part as u64);
        numbers.push(own[part].len() as u64);
        own[part].push(row);
    }
    let mut end = 0;
    let mut ended = |list: &Vec<usize>| {
        end += list.len();
        end
    };
    CutPicks {
        ends: own.iter().map(&mut ended).collect(),
        own: own.concat(),
        parts,
        rows: numbers,
    }
}

#[test]
fn slices_and_bounds_are_those_of_plain_loops() {
    let mut dice = Dice(88_172_645_463_325_252);
    for _ in 0..3_000 {
        let lengths = dice.lengths();
        let count = lengths.iter().sum::<usize>();
        let ends = (0..=lengths.len()).map(|k| lengths[..k].iter().sum());
        assert_eq!(bounds(&lengths), Ok(ends.collect()));
        let start = dice.below(count + 1);
        let end = start + dice.below(count - start + 1);
        let cut = cut_slice(&lengths, start, end).unwrap();
        assert_eq!(cut.left.iter().sum::<usize>(), end - start);
        let plain = plain_slice(&lengths, start, end);
        assert_eq!(cut.left, plain.left);
        for (k, left) in cut.left.iter().enumerate() {
            assert_eq!(cut.ends[k] - cut.starts[k], *left);
        }
        for k in (0..lengths.len()).filter(|k| plain.left[*k] > 0) {
            assert_eq!(
                (cut.starts[k], cut.ends[k]),
                (plain.starts[k], plain.ends[k])
            );
        }
        assert_eq!(cut_slice(&lengths, start, count + 1), Err(Error::Range));
        assert_eq!(cut_slice(&lengths, end + 1, end), Err(Error::Range));
    }
}

#[test]
fn masks_are_counted_by_parts() {
    let mut dice = Dice(88_172_645_463_325_252);
    for _ in 0..3_000 {
        let lengths = dice.lengths();
        let count = lengths.iter().sum::<usize>();
        let at = dice.below(100);
        let bools: Vec<bool> = (0..at + count + 40).map(|_| dice.below(2) == 1).collect();
        let words = Mask::from_bools(&bools).words().to_vec();
        let mask = Bits::new(&words, at, count).unwrap();
        let mut left = vec![0; lengths.len()];
        for (row, (part, _)) in rows_of(&lengths).into_iter().enumerate() {
            left[part] += usize::from(bools[at + row]);
        }
        assert_eq!(cut_mask(mask, &lengths), Ok(left));
        let longer = Bits::new(&words, at, count + 1).unwrap();
        assert_eq!(cut_mask(longer, &lengths), Err(Error::Lengths));
    }
}

#[test]
fn picks_are_cut_as_by_plain_loops() {
    let mut dice = Dice(88_172_645_463_325_252);
    for _ in 0..3_000 {
        let lengths = dice.lengths();
        let count = lengths.iter().sum::<usize>();
        let picks = if count == 0 { 0 } else { dice.below(200) };
        let mut pick = || match dice.below(5) {
            0 => NULL,
            _ => dice.below(count) as u64,
        };
        let mut places: Vec<u64> = (0..picks).map(|_| pick()).collect();
        let bounds = bounds(&lengths).unwrap();
        assert_eq!(
            cut_picks(&places, &bounds),
            Ok(plain_picks(&lengths, &places))
        );
        places.push(count as u64);
        let place = picks;
        assert_eq!(
            cut_picks(&places, &bounds),
            Err(Error::OutOfBounds { place })
        );
    }
}

#[test]
fn nulls_need_no_part() {
    let cut = cut_picks(&[NULL, NULL], &[0]);
    assert_eq!(cut, Ok(plain_picks(&[], &[NULL, NULL])));
    assert_eq!(cut.unwrap().own, []);
}

#[test]
fn cuts_that_arent_valid_are_refused() {
    assert_eq!(bounds(&[usize::MAX, 1]), Err(Error::TooMany));
    for wrong in [&[][..], &[1], &[1, 2], &[0, 2, 1]] {
        assert_eq!(cut_picks(&[0], wrong), Err(Error::Bounds), "{wrong:?}");
    }
    let words = [
        Error::Lengths,
        Error::Range,
        Error::Bounds,
        Error::TooMany,
        Error::OutOfBounds { place: 3 },
    ]
    .map(|error| error.to_string());
    assert!(words
        .iter()
        .all(|text| text.contains("expected ") && text.contains(", got ")));
    assert!(words[4].starts_with("pick 3: "));
}
