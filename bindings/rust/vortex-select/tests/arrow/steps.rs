//! Steps over bytes.
use vortex_select::arrow::{picks, select, Column, Number, Step};

const SIGNED: [(Number, usize); 4] = [
    (Number::I8, 1),
    (Number::I16, 2),
    (Number::I32, 4),
    (Number::I64, 8),
];
const UNSIGNED: [(Number, usize); 4] = [
    (Number::U8, 1),
    (Number::U16, 2),
    (Number::U32, 4),
    (Number::U64, 8),
];

/// Numbers of so many bytes.
fn bytes(width: usize, numbers: &[u64]) -> Vec<u8> {
    numbers
        .iter()
        .flat_map(|number| number.to_le_bytes()[..width].to_vec())
        .collect()
}

fn squares(len: i64) -> Column {
    let rows: Vec<_> = (0..len).map(|k| Some(k * k)).collect();
    Column::numbers(&rows)
}

fn left(len: i64, step: Step) -> Vec<Option<i64>> {
    let picked = select(&mut squares(len), &[step]).unwrap();
    picked.to_numbers().unwrap()
}

#[test]
fn takes_read_each_type_of_integers() {
    for (number, width) in SIGNED.into_iter().chain(UNSIGNED) {
        let numbers = bytes(width, &[9, 5, 0, 126, 5]);
        let wanted = [25, 0, 126 * 126, 25].map(Some);
        let step = Step::take_numbers(number, &numbers, 1, 4, None);
        assert_eq!(left(127, step), wanted, "{number:?}");
        let step = Step::take_numbers(number, &numbers, 2, 2, Some(&[0b0100]));
        assert_eq!(left(127, step), [Some(0), None], "{number:?}");
    }
}

#[test]
fn unsigned_numbers_use_all_their_bits() {
    for (number, width) in UNSIGNED.into_iter().take(2) {
        let numbers = bytes(width, &[200, 255]);
        let step = Step::take_numbers(number, &numbers, 0, 2, None);
        assert_eq!(left(256, step), [40_000, 65_025].map(Some), "{number:?}");
    }
}

#[test]
fn a_take_may_have_more_numbers_than_a_byte_counts() {
    let indices: Vec<u64> = (0..1_000).map(|k| k * 7 % 300).collect();
    let wanted: Vec<_> = indices.iter().map(|k| Some((k * k) as i64)).collect();
    assert_eq!(left(300, Step::take(&indices)), wanted);
    let nullable: Vec<_> = indices
        .iter()
        .map(|k| Some(*k).filter(|k| k % 3 > 0))
        .collect();
    let wanted: Vec<_> = nullable.iter().map(|k| k.map(|k| (k * k) as i64)).collect();
    assert_eq!(left(300, Step::take_or_null(&nullable)), wanted);
}

#[test]
fn filters_begin_at_any_bit() {
    let bits = [0b1010_0000, 0b0000_0110];
    let step = Step::filter_bits(&bits, 5, 6, None);
    assert_eq!(left(6, step), [0, 4, 16, 25].map(Some));
    let step = Step::filter_bits(&bits, 5, 6, Some(&[0b1000_0000, 0b0000_0100]));
    assert_eq!(left(6, step), [4, 25].map(Some));
    let step = Step::filter_bits(&[], 0, 0, Some(&[]));
    assert_eq!(left(0, step), []);
}

#[test]
fn slices_keep_their_rows() {
    assert_eq!(left(5, Step::slice(1, 3)), [1, 4].map(Some));
    assert_eq!(left(5, Step::slice(5, 5)), []);
    assert_eq!(
        left(5, Step::filter(&[false, true, false, false, true])),
        [1, 16].map(Some)
    );
}

#[test]
fn a_result_is_nullable_if_a_take_is() {
    let made = |steps: &[Step]| {
        let rows = crate::raw::changed(squares(3), |schema| schema.flags = 0, |_| ());
        let mut rows = rows;
        assert!(!rows.is_nullable());
        select(&mut rows, steps).unwrap()
    };
    assert!(!made(&[]).is_nullable());
    assert!(!made(&[Step::take(&[0])]).is_nullable());
    assert!(!made(&[Step::filter_bits(&[7], 0, 3, Some(&[7]))]).is_nullable());
    assert!(made(&[Step::take_or_null(&[Some(0)])]).is_nullable());
    assert!(made(&[Step::take_or_null(&[])]).is_nullable());
    let number = Number::U8;
    assert!(made(&[Step::take_numbers(number, &[0], 0, 1, Some(&[1]))]).is_nullable());
    assert!(made(&[Step::take_numbers(number, &[], 0, 0, Some(&[]))]).is_nullable());
    assert!(!made(&[Step::take_numbers(number, &[], 0, 0, None)]).is_nullable());
    let picked = made(&[Step::take_or_null(&[None])]);
    assert_eq!(picked.to_numbers(), Some(vec![None]));
}

#[test]
fn picks_are_places_with_bits() {
    let left = picks(5, &[Step::filter(&[true, false, true, true, false])]).unwrap();
    assert_eq!((left.places, left.valid), (vec![0, 2, 3], None));
    let nullable: Vec<_> = (0..11).map(|k| Some(k).filter(|k| k % 4 > 0)).collect();
    let left = picks(20, &[Step::slice(5, 16), Step::take_or_null(&nullable)]).unwrap();
    assert_eq!(left.places, [0, 6, 7, 8, 0, 10, 11, 12, 0, 14, 15]);
    assert_eq!(left.valid, Some(vec![0b1110_1110, 0b0000_0110]));
    let left = picks(3, &[Step::take_or_null(&[])]).unwrap();
    assert_eq!((left.places, left.valid), (vec![], Some(vec![])));
    assert_eq!(picks(0, &[]).unwrap().places, []);
    let left = picks(3, &[Step::filter_bits(&[7], 0, 3, Some(&[5]))]).unwrap();
    assert_eq!((left.places, left.valid), (vec![0, 2], None));
}
