//! Rows of stores that are read chunk by chunk, compared with plain loops.
#![cfg(feature = "chunks")]
#![forbid(unsafe_code)]
use std::cell::Cell;
use std::sync::Mutex;
use vortex_select::arrow::{self, picks, Cause, Picks, Step};
use vortex_select::chunks::{
    select_chunks, select_chunks_by_threads, Error, Fault, Plan, Rows, Source,
};

/// Random numbers by xorshift.
struct Dice(u64);

impl Dice {
    fn below(&mut self, bound: u64) -> u64 {
        self.0 ^= self.0 << 13;
        self.0 ^= self.0 >> 7;
        self.0 ^= self.0 << 17;
        (self.0 >> 8) % bound
    }
}

/// A column whose byte b of row k is known, and the chunks that were read, in order.
struct Store {
    rows: u64,
    chunk_len: u64,
    width: usize,
    broken: Option<u64>,
    reads: Mutex<Vec<u64>>,
}

impl Store {
    fn new(rows: u64, chunk_len: u64, width: usize) -> Store {
        Store {
            rows,
            chunk_len,
            width,
            broken: None,
            reads: Mutex::new(Vec::new()),
        }
    }

    fn row(&self, k: u64) -> Vec<u8> {
        let byte = |b| k.wrapping_mul(31).wrapping_add(7 * b + (k >> 8)) as u8;
        (0..self.width as u64).map(byte).collect()
    }

    /// The chunks that were read since the last call.
    fn read_chunks(&self) -> Vec<u64> {
        std::mem::take(&mut self.reads.lock().unwrap())
    }
}

impl Source for Store {
    type Error = String;

    fn rows(&self) -> u64 {
        self.rows
    }

    fn chunk_len(&self) -> u64 {
        self.chunk_len
    }

    fn width(&self) -> usize {
        self.width
    }

    fn read(&self, k: u64, rows: &mut [u8]) -> Result<(), String> {
        let first = k * self.chunk_len;
        let end = first + self.chunk_len.min(self.rows - first);
        assert_eq!(rows.len() as u64, (end - first) * self.width as u64);
        for (row, number) in rows.chunks_mut(self.width).zip(first..) {
            row.copy_from_slice(&self.row(number));
        }
        self.reads.lock().unwrap().push(k);
        match self.broken {
            Some(broken) if broken == k => Err(format!("chunk {k} is damaged")),
            _ => Ok(()),
        }
    }
}

/// The rows that picks have, and the chunks that hold one.
fn plain(store: &Store, picks: &Picks) -> (Rows, Vec<u64>) {
    let bits = picks.valid.as_ref();
    let is_null = |j: usize| bits.map_or(false, |bits| bits[j / 8] >> (j % 8) & 1 == 0);
    let (mut bytes, mut chunks) = (Vec::new(), Vec::new());
    for (j, place) in picks.places.iter().enumerate() {
        if is_null(j) {
            bytes.resize(bytes.len() + store.width, 0);
        } else {
            bytes.extend(store.row(*place));
            chunks.push(*place / store.chunk_len);
        }
    }
    chunks.sort_unstable();
    chunks.dedup();
    let len = picks.places.len();
    let has_null = (0..len).any(is_null);
    let valid = picks.valid.clone().filter(|_| has_null);
    (Rows { len, bytes, valid }, chunks)
}

/// Random steps over so many rows, and lists for them.
fn random_steps(dice: &mut Dice, rows: u64) -> Vec<Step<'static>> {
    let mut steps = Vec::new();
    let mut left = rows;
    for _ in 0..dice.below(4) {
        let step = match dice.below(4) {
            0 => {
                let start = dice.below(left + 1);
                let end = start + dice.below(left - start + 1);
                left = end - start;
                Step::slice(start, end)
            }
            1 => {
                let sort = dice.below(4);
                let keep = |_| sort > 0 && (sort == 3 || dice.below(3) > 0);
                let mask: Vec<bool> = (0..left).map(keep).collect();
                left = mask.iter().filter(|is_set| **is_set).count() as u64;
                Step::filter(&mask)
            }
            kind => {
                let count = if left == 0 { 0 } else { dice.below(40) };
                let index =
                    |dice: &mut Dice| (kind == 2 || dice.below(5) > 0).then(|| dice.below(left));
                let mut indices: Vec<Option<u64>> = (0..count).map(|_| index(dice)).collect();
                if dice.below(3) == 0 {
                    indices.sort();
                }
                left = count;
                Step::take_or_null(&indices)
            }
        };
        steps.push(step);
    }
    steps
}

#[test]
fn rows_are_those_of_plain_loops_and_each_chunk_is_read_once() {
    let mut dice = Dice(88_172_645_463_325_252);
    for _ in 0..3_000 {
        let rows = if dice.below(9) == 0 {
            0
        } else {
            dice.below(100)
        };
        let width = [1, 2, 3, 4, 8, 16, 24][dice.below(7) as usize];
        let store = Store::new(rows, 1 + dice.below(30), width);
        let steps = random_steps(&mut dice, rows);
        let (expected, chunks) = plain(&store, &picks(rows, &steps).unwrap());
        assert_eq!(
            select_chunks(&store, &steps).as_ref(),
            Ok(&expected),
            "{steps:?}"
        );
        assert_eq!(store.read_chunks(), chunks);
        let threads = dice.below(5) as usize;
        let found = select_chunks_by_threads(&store, &steps, threads);
        assert_eq!(found.as_ref(), Ok(&expected), "{steps:?}");
        let mut read = store.read_chunks();
        read.sort_unstable();
        assert_eq!(read, chunks);
    }
}

#[test]
fn few_picks_of_many_chunks_are_sorted() {
    let store = Store::new(u64::MAX, 3, 8);
    let far = u64::MAX - 1;
    let steps = [Step::take_or_null(&[
        Some(far),
        None,
        Some(0),
        Some(far),
        Some(1 << 40),
    ])];
    let (expected, chunks) = plain(&store, &picks(u64::MAX, &steps).unwrap());
    assert_eq!(select_chunks(&store, &steps), Ok(expected));
    assert_eq!(store.read_chunks(), chunks);
    assert_eq!(chunks, [0, (1 << 40) / 3, far / 3]);
}

#[test]
fn chunks_can_be_scattered_in_any_order() {
    let store = Store::new(10, 4, 2);
    let picks = picks(
        10,
        &[Step::take_or_null(&[
            Some(9),
            None,
            Some(1),
            Some(9),
            Some(5),
        ])],
    );
    let plan = Plan::new(10, 4, picks.unwrap()).unwrap();
    let chunks: Vec<_> = plan.chunks().collect();
    assert_eq!(
        chunks.iter().map(|chunk| chunk.number).collect::<Vec<_>>(),
        [0, 1, 2]
    );
    assert_eq!(
        chunks.iter().map(|chunk| chunk.picks()).collect::<Vec<_>>(),
        [1, 1, 2]
    );
    assert_eq!((plan.picks(), chunks[2].rows.clone()), (5, 8..10));
    let mut out = vec![9; 11];
    plan.fill_nulls(2, &mut out).unwrap();
    for chunk in chunks.iter().rev() {
        let rows: Vec<u8> = chunk.rows.clone().flat_map(|row| store.row(row)).collect();
        plan.scatter(chunk, &rows, 2, &mut out).unwrap();
        assert_eq!(
            plan.scatter(chunk, &rows[1..], 2, &mut out),
            Err(Fault::Bytes)
        );
        assert_eq!(
            plan.scatter(chunk, &rows, 2, &mut out[1..10]),
            Err(Fault::Output)
        );
        assert_eq!(plan.scatter(chunk, &rows, 0, &mut out), Err(Fault::Width));
    }
    let rows = [9u64, 0, 1, 9, 5].map(|row| store.row(row)).concat();
    assert_eq!(
        (&out[..2], &out[2..4], &out[4..10]),
        (&rows[..2], &[0, 0][..], &rows[4..10])
    );
    assert_eq!(out[10], 9);
    assert_eq!(plan.fill_nulls(2, &mut out[..9]), Err(Fault::Output));
}

#[test]
fn a_chunk_of_another_plan_is_refused() {
    let picks_of = |places: &[u64]| Picks {
        places: places.to_vec(),
        valid: None,
    };
    let plan = Plan::new(10, 4, picks_of(&[0, 1])).unwrap();
    let mut out = [7; 3];
    for other in [&[9u64, 8][..], &[0, 0, 0]] {
        let other = Plan::new(10, 4, picks_of(other)).unwrap();
        let chunk = other.chunks().next().unwrap();
        let fault = plan.scatter(&chunk, &[0; 4], 1, &mut out);
        assert!(
            matches!(fault, Err(Fault::Chunk | Fault::Bytes)),
            "{fault:?}"
        );
    }
    assert_eq!(out, [7; 3]);
}

#[test]
fn picks_that_arent_valid_are_refused() {
    let plan = |len, chunk_len, places: &[u64], valid: Option<&[u8]>| {
        let picks = Picks {
            places: places.to_vec(),
            valid: valid.map(<[u8]>::to_vec),
        };
        Plan::new(len, chunk_len, picks).map(|plan| plan.chunks().count())
    };
    let far = u64::MAX;
    for (found, expected) in [
        (plan(8, 0, &[], None), Err(Fault::ChunkLen)),
        (plan(8, 3, &[7, 0], None), Ok(2)),
        (plan(8, 3, &[0, 8], None), Err(Fault::Place { pick: 1 })),
        (plan(8, 3, &[8, 0, 9], None), Err(Fault::Place { pick: 0 })),
        (
            plan(far, 1, &[5, far, 0], None),
            Err(Fault::Place { pick: 1 }),
        ),
        (plan(0, 1, &[0], None), Err(Fault::Place { pick: 0 })),
        (plan(8, 3, &[8, 0], Some(&[0b10])), Ok(1)),
        (
            plan(8, 3, &[8, 0], Some(&[0b01])),
            Err(Fault::Place { pick: 0 }),
        ),
        (plan(8, 3, &[1, 0], Some(&[])), Err(Fault::Valid)),
        (plan(8, 3, &[0; 9], Some(&[0xff])), Err(Fault::Valid)),
        (plan(8, 3, &[0; 9], Some(&[0xff, 1])), Ok(1)),
    ] {
        assert_eq!(found, expected);
    }
}

#[test]
fn invalid_steps_are_refused_before_a_read() {
    let store = Store::new(8, 3, 1);
    for (steps, (step, cause), text) in [
        (
            vec![Step::take(&[2, 9])],
            (0, Cause::OutOfBounds),
            "step 0: OutOfBounds: index 9, but 8 rows",
        ),
        (
            vec![Step::slice(0, 8), Step::slice(3, 9)],
            (1, Cause::BadRange),
            "step 1: BadRange: slice 3..9, but 8 rows",
        ),
        (
            vec![Step::filter(&[true; 9])],
            (0, Cause::BadMask),
            "step 0: BadMask: mask of length 9, but 8 rows",
        ),
    ] {
        let expected = Error::Steps(arrow::Error::Broken {
            step,
            cause,
            found: 9,
            bound: 8,
            text: text.to_string(),
        });
        assert_eq!(select_chunks(&store, &steps), Err(expected.clone()));
        assert_eq!(select_chunks_by_threads(&store, &steps, 2), Err(expected));
    }
    for (rows, chunk_len, width, fault) in [
        (8, 0, 1, Fault::ChunkLen),
        (8, 3, 0, Fault::Width),
        (8, 3, (1 << 20) + 1, Fault::Width),
        (u64::MAX, 3, 1 << 20, Fault::NoMemory),
        (u64::MAX, u64::MAX, 1, Fault::NoMemory),
    ] {
        let store = Store::new(rows, chunk_len, width);
        assert_eq!(select_chunks(&store, &[]), Err(Error::Plan(fault)));
    }
    assert_eq!(store.read_chunks(), []);
}

#[test]
fn an_error_of_the_source_is_handed_on() {
    let mut store = Store::new(20, 3, 1);
    store.broken = Some(4);
    let steps = [Step::take(&[19, 13, 0, 14])];
    let error = Error::Read {
        chunk: 4,
        error: "chunk 4 is damaged".to_string(),
    };
    assert_eq!(error.to_string(), "chunk 4: chunk 4 is damaged");
    assert_eq!(select_chunks(&store, &steps), Err(error.clone()));
    assert_eq!(store.read_chunks(), [0, 4]);
    assert_eq!(select_chunks_by_threads(&store, &steps, 3), Err(error));
    assert_eq!(
        select_chunks(&store, &[Step::slice(0, 12)]).unwrap().len,
        12
    );
}

/// A store that grows when it is read.
struct Growing(Cell<u64>);

impl Source for Growing {
    type Error = ();

    fn rows(&self) -> u64 {
        self.0.get()
    }

    fn chunk_len(&self) -> u64 {
        2
    }

    fn width(&self) -> usize {
        1
    }

    fn read(&self, _: u64, _: &mut [u8]) -> Result<(), ()> {
        self.0.set(self.0.get() + 1);
        Ok(())
    }
}

#[test]
fn a_source_that_changes_its_length_is_an_error() {
    for steps in [Step::slice(0, 4), Step::take(&[3, 0])] {
        let changed = Error::Changed {
            expected: 4,
            found: 5,
        };
        assert_eq!(
            select_chunks(&Growing(Cell::new(4)), &[steps]),
            Err(changed)
        );
    }
}

#[test]
fn a_panic_of_the_source_is_handed_on() {
    let store = Store::new(4, 2, 1);
    let fails = std::panic::catch_unwind(|| {
        select_chunks_by_threads(&Failing(store), &[Step::slice(0, 4)], 2)
    });
    assert!(fails.is_err());
}

struct Failing(Store);

impl Source for Failing {
    type Error = String;

    fn rows(&self) -> u64 {
        self.0.rows
    }

    fn chunk_len(&self) -> u64 {
        self.0.chunk_len
    }

    fn width(&self) -> usize {
        self.0.width
    }

    fn read(&self, k: u64, _: &mut [u8]) -> Result<(), String> {
        panic!("no chunk {k}")
    }
}
