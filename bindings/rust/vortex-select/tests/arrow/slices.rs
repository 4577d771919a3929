//! Slices without a copy: their rows beside those of a selection, and who keeps the memory.
use crate::raw::{foreign, with_array};
use std::sync::atomic::{AtomicUsize, Ordering};
use std::sync::Arc;
use vortex_select::arrow::{select, Buffer, Cause, Column, Error, Field, Node, Step};

fn field(format: &str) -> Field {
    Field {
        format: format.into(),
        ..Field::default()
    }
}

fn numbers() -> Column {
    Column::numbers(&[Some(1), None, Some(3), Some(4), None, Some(6)])
}

fn texts() -> Column {
    Column::texts(&[Some("a"), None, Some("ccc"), Some(""), Some("ee"), None])
}

fn buffer<T: Buffer + 'static>(bytes: T) -> Option<Box<dyn Buffer>> {
    Some(Box::new(bytes))
}

fn wide(numbers: &[i32]) -> Vec<u8> {
    numbers.iter().flat_map(|n| n.to_le_bytes()).collect()
}

/// Columns of six rows, one of each family of formats.
fn columns() -> Vec<(&'static str, Column)> {
    let ids = || buffer(vec![0u8, 1, 1, 0, 1, 0]);
    let places = buffer(wide(&[0, 0, 4, 1, 5, 2]));
    let children = || vec![numbers(), texts()];
    let parts = |format, buffers, children, dictionary| {
        Column::from_parts(field(format), 6, 0, 0, buffers, children, dictionary).unwrap()
    };
    let codes = buffer(vec![5u8, 4, 3, 2, 1, 0]);
    let nulls = Column::from_parts(field("n"), 6, 6, 0, Vec::new(), Vec::new(), None);
    vec![
        ("n", nulls.unwrap()),
        ("l", numbers()),
        ("u", texts()),
        (
            "+s",
            Column::structs(6, vec![("a", numbers()), ("b", texts())]),
        ),
        (
            "+l",
            Column::lists(
                &[Some(2), None, Some(0), Some(1), Some(3), Some(0)],
                texts(),
            ),
        ),
        ("+w:1", parts("+w:1", vec![None], vec![texts()], None)),
        (
            "+vl",
            Column::list_views(
                &[
                    Some(0..6),
                    None,
                    Some(1..2),
                    Some(0..0),
                    Some(5..6),
                    Some(2..4),
                ],
                numbers(),
            ),
        ),
        ("+us", parts("+us:0,1", vec![ids()], children(), None)),
        (
            "+ud",
            parts("+ud:0,1", vec![ids(), places], children(), None),
        ),
        (
            "C",
            parts("C", vec![None, codes], Vec::new(), Some(texts())),
        ),
    ]
}

fn same(one: Node, other: Node) {
    assert_eq!((one.format(), one.len()), (other.format(), other.len()));
    assert_eq!(one.buffers().unwrap(), other.buffers().unwrap());
    assert_eq!(one.children().len(), other.children().len());
    for (one, other) in one.children().into_iter().zip(other.children()) {
        same(one, other);
    }
    match (one.dictionary(), other.dictionary()) {
        (Some(one), Some(other)) => same(one, other),
        (one, other) => assert_eq!(one.is_none(), other.is_none()),
    }
}

#[test]
fn rows_of_a_slice() {
    let rows = [Some(1), None, Some(3), Some(4), None, Some(6)];
    for start in 0..=6 {
        for end in start..=6 {
            let sliced = numbers().slice(start as u64, end as u64).unwrap();
            assert_eq!(sliced.to_numbers().unwrap(), rows[start..end]);
            assert_eq!((sliced.len(), sliced.node().offset()), (end - start, start));
        }
    }
}

#[test]
fn a_slice_has_the_rows_of_a_selection() {
    for (_, mut column) in columns() {
        for (start, end) in [(0, 6), (1, 5), (2, 2), (3, 6)] {
            let mut sliced = column.slice(start, end).unwrap();
            sliced.check().unwrap();
            let wanted = select(&mut column, &[Step::slice(start, end)]).unwrap();
            same(select(&mut sliced, &[]).unwrap().node(), wanted.node());
            let mut inner = sliced.slice(0, (end - start) / 2).unwrap();
            drop(sliced);
            let wanted = select(&mut column, &[Step::slice(start, (start + end) / 2)]).unwrap();
            same(select(&mut inner, &[]).unwrap().node(), wanted.node());
        }
    }
}

#[test]
fn slices_count_nulls_where_that_is_known() {
    let no_nulls = || Column::numbers(&[Some(1), Some(2)]);
    let all = columns().remove(0).1;
    for (mut column, wanted) in [(no_nulls(), 0), (numbers(), -1), (all, 1)] {
        assert_eq!(column.slice(1, 2).unwrap().node().null_count(), wanted);
    }
}

/// A buffer that counts how often it is dropped.
struct Counted(Vec<u8>, Arc<AtomicUsize>);

// SAFETY: the bytes of the list stay in their place, and nothing writes to them.
unsafe impl Buffer for Counted {
    fn data(&self) -> *const u8 {
        self.0.as_ptr()
    }

    fn size(&self) -> usize {
        self.0.len()
    }
}

impl Drop for Counted {
    fn drop(&mut self) {
        self.1.fetch_add(1, Ordering::SeqCst);
    }
}

#[test]
fn the_last_of_a_column_and_its_slices_releases_the_memory() {
    for order in [
        [0, 1, 2],
        [0, 2, 1],
        [1, 0, 2],
        [1, 2, 0],
        [2, 0, 1],
        [2, 1, 0],
    ] {
        let count = Arc::new(AtomicUsize::new(0));
        let bytes = buffer(Counted(vec![7, 8, 9, 10], count.clone()));
        let whole = Column::from_parts(field("C"), 4, 0, 0, vec![None, bytes], Vec::new(), None);
        let mut whole = whole.unwrap();
        let mut sliced = whole.slice(1, 4).unwrap();
        let inner = sliced.slice(1, 2).unwrap();
        let mut columns = [Some(whole), Some(sliced), Some(inner)];
        for which in order {
            assert_eq!(count.load(Ordering::SeqCst), 0);
            columns[which] = None;
        }
        assert_eq!(count.load(Ordering::SeqCst), 1);
    }
}

#[test]
fn a_range_past_the_rows_is_a_bad_range() {
    for (start, end, wanted) in [
        (1, 7, "step 0: BadRange: slice 1..7, but 6 rows"),
        (4, 3, "step 0: BadRange: slice 4..3 starts after its end"),
    ] {
        let error = numbers().slice(start, end).unwrap_err();
        assert_eq!(error.to_string(), wanted);
        assert!(matches!(
            error,
            Error::Broken {
                cause: Cause::BadRange,
                ..
            }
        ));
        let other = select(&mut numbers(), &[Step::slice(start, end)]).unwrap_err();
        assert_eq!(error, other);
    }
}

#[test]
fn a_released_column_has_no_slice() {
    let (mut schema, mut array) = numbers().into_raw();
    // SAFETY: both structs are a column's, and are moved out of their places.
    let kept = unsafe { Column::from_raw(&mut schema, &mut array) };
    // SAFETY: both are marked as released.
    let mut none = unsafe { Column::from_raw(&mut schema, &mut array) };
    assert!(matches!(none.slice(0, 0), Err(Error::Shape(_))));
    assert_eq!(kept.len(), 6);
    let mut negative = with_array(foreign(numbers()), |array| array.length = -1);
    assert!(matches!(negative.slice(0, 0), Err(Error::Shape(_))));
}

/// The second offset leads past the bytes, of which there are as many as the last one says.
#[test]
fn strings_of_a_slice_stay_within_their_bytes() {
    let parts = vec![None, buffer(wide(&[0, 1000, 3])), buffer(b"abc".to_vec())];
    let column = Column::from_parts(field("u"), 2, 0, 0, parts, Vec::new(), None);
    let mut column = column.unwrap();
    match column.slice(0, 1) {
        Err(Error::NoMeaning(text)) => assert_eq!(
            text,
            "offsets: expected a last one within the data, got a higher one"
        ),
        other => panic!("{other:?}"),
    }
    assert_eq!(column.slice(1, 2).unwrap().len(), 1);
    assert!(column.check().is_err());
}
