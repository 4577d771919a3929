//! Random columns and steps, compared with plain loops. `VORTEX_ARROW_CALLS` says how many.
use vortex_select::arrow::{select, Column, Error, Step};

/// Random numbers by xorshift.
struct Dice(u64);

impl Dice {
    fn below(&mut self, bound: usize) -> usize {
        self.0 ^= self.0 << 13;
        self.0 ^= self.0 >> 7;
        self.0 ^= self.0 << 17;
        (self.0 >> 8) as usize % bound
    }

    /// A number of rows: mostly short, at times up to 2,000.
    fn len(&mut self) -> usize {
        match self.below(20) {
            0 => self.below(2_000),
            _ => self.below(40),
        }
    }
}

fn calls() -> usize {
    std::env::var("VORTEX_ARROW_CALLS").map_or(5_000, |count| count.parse().unwrap())
}

/// Returns a step over these rows, and the rows that it leaves.
fn random_step(dice: &mut Dice, rows: &[Option<usize>]) -> (Step<'static>, Vec<Option<usize>>) {
    match dice.below(3) {
        0 => {
            let start = dice.below(rows.len() + 1);
            let end = start + dice.below(rows.len() - start + 1);
            (
                Step::slice(start as u64, end as u64),
                rows[start..end].to_vec(),
            )
        }
        1 => {
            let mask: Vec<bool> = rows.iter().map(|_| dice.below(2) == 1).collect();
            let kept = rows.iter().zip(&mask).filter(|(_, kept)| **kept);
            (Step::filter(&mask), kept.map(|(row, _)| *row).collect())
        }
        _ => {
            let count = if rows.is_empty() { 0 } else { dice.len() };
            let mut index = || (dice.below(4) > 0).then(|| dice.below(rows.len()) as u64);
            let indices: Vec<Option<u64>> = (0..count).map(|_| index()).collect();
            let picked = indices.iter().map(|at| at.and_then(|at| rows[at as usize]));
            (Step::take_or_null(&indices), picked.collect())
        }
    }
}

fn random_steps(dice: &mut Dice, len: usize) -> (Vec<Step<'static>>, Vec<Option<usize>>) {
    let mut picks: Vec<Option<usize>> = (0..len).map(Some).collect();
    let mut steps = Vec::new();
    for _ in 0..dice.below(4) {
        let (step, left) = random_step(dice, &picks);
        steps.push(step);
        picks = left;
    }
    (steps, picks)
}

#[test]
fn numbers_and_texts_are_those_of_plain_loops() {
    let mut dice = Dice(88172645463325252);
    let words = ["", "a", "bo", "a text of more than twelve bytes", "é"];
    for _ in 0..calls() {
        let len = dice.len();
        let mut row = || (dice.below(5) > 0).then(|| dice.below(5));
        let rows: Vec<Option<usize>> = (0..len).map(|_| row()).collect();
        let numbers: Vec<_> = rows.iter().map(|row| row.map(|k| k as i64 - 2)).collect();
        let texts: Vec<_> = rows.iter().map(|row| row.map(|k| words[k])).collect();
        let (steps, picks) = random_steps(&mut dice, len);
        let picked = select(&mut Column::numbers(&numbers), &steps).unwrap();
        let wanted: Vec<_> = picks
            .iter()
            .map(|pick| pick.and_then(|k| numbers[k]))
            .collect();
        assert_eq!(picked.to_numbers(), Some(wanted));
        let picked = select(&mut Column::texts(&texts), &steps).unwrap();
        let wanted: Vec<_> = picks
            .iter()
            .map(|pick| pick.and_then(|k| texts[k]))
            .collect();
        assert_eq!(picked.to_texts(), Some(wanted));
    }
}

#[test]
fn views_are_those_of_plain_loops() {
    let items = || Column::text_views(&[Some("a"), None, Some("a text of a view")]);
    let mut dice = Dice(88172645463325252);
    let words = ["", "a", "twelve bytes", "thirteen byte", "a longer text, é"];
    for _ in 0..calls() {
        let len = dice.len();
        let mut row = || (dice.below(5) > 0).then(|| dice.below(5));
        let rows: Vec<Option<usize>> = (0..len).map(|_| row()).collect();
        let texts: Vec<_> = rows.iter().map(|row| row.map(|k| words[k])).collect();
        let ranges: Vec<_> = rows
            .iter()
            .map(|row| row.map(|k| k / 2..3 - k % 2))
            .collect();
        let (steps, picks) = random_steps(&mut dice, len);
        let picked = select(&mut Column::text_views(&texts), &steps).unwrap();
        let wanted = picks.iter().map(|pick| pick.and_then(|k| texts[k]));
        assert_eq!(picked.to_texts(), Some(wanted.collect()));
        let picked = select(&mut Column::list_views(&ranges, items()), &steps).unwrap();
        let wanted = picks
            .iter()
            .map(|pick| pick.and_then(|k| ranges[k].clone()));
        assert_eq!(picked.to_ranges(), Some(wanted.collect()));
        let below = picked.into_children().pop().unwrap();
        assert_eq!(below.to_texts(), items().to_texts());
    }
}

#[test]
fn unions_are_those_of_plain_loops() {
    let words = [Some("a"), None, Some("cd")];
    let fields = || {
        let numbers = Column::numbers(&[Some(5), Some(6)]);
        vec![("word", Column::texts(&words)), ("number", numbers)]
    };
    let mut dice = Dice(88172645463325252);
    for _ in 0..calls() {
        let len = dice.len();
        let mut row = || [(0, 0), (0, 1), (0, 2), (1, 0), (1, 1)][dice.below(5)];
        let rows: Vec<(usize, usize)> = (0..len).map(|_| row()).collect();
        let (steps, picks) = random_steps(&mut dice, len);
        let picked = match select(&mut Column::unions(&rows, fields()), &steps) {
            Ok(picked) => picked,
            Err(error) => {
                assert!(matches!(error, Error::NullPick(_)), "{error}");
                assert!(picks.contains(&None));
                continue;
            }
        };
        let chosen = picked.to_chosen().unwrap();
        let below = picked.into_children();
        let (texts, numbers) = (below[0].to_texts().unwrap(), below[1].to_numbers().unwrap());
        assert_eq!(chosen.len(), picks.len());
        for ((field, place), pick) in chosen.into_iter().zip(picks) {
            match rows[pick.expect("a row")] {
                (0, k) => assert_eq!((field, texts[place]), (0, words[k])),
                (_, k) => assert_eq!((field, numbers[place]), (1, Some(5 + k as i64))),
            }
        }
    }
}
