//! Children that are moved out have the rows of their parent.
use crate::raw::{foreign, with_array};
use vortex_select::arrow::{select, Buffer, Column, Field, Step};

fn numbers(range: std::ops::Range<i64>) -> Column {
    let rows: Vec<_> = range.map(Some).collect();
    Column::numbers(&rows)
}

fn field(format: &str) -> Field {
    Field {
        format: format.into(),
        ..Field::default()
    }
}

/// The column narrowed in its place.
fn narrowed(column: Column, offset: i64, len: i64) -> Column {
    with_array(column, |array| {
        array.offset = offset;
        array.length = len;
        array.null_count = -1;
    })
}

fn only(column: Column) -> Column {
    let mut children = column.into_children();
    assert_eq!(children.len(), 1);
    children.pop().unwrap()
}

#[test]
fn structs_and_lists_keep_their_children() {
    let tags = Column::lists(
        &[Some(2), None, Some(0)],
        Column::texts(&[Some("a"), Some("b")]),
    );
    let ids = Column::numbers(&[Some(5), Some(6), None]);
    let mut people = Column::structs(3, vec![("id", ids), ("tags", tags)]);
    let picked = select(&mut people, &[Step::take(&[2, 0, 0])]).unwrap();
    drop(people);
    assert_eq!(picked.len(), 3);
    let mut children = picked.into_children();
    let tags = children.pop().unwrap();
    assert_eq!(children[0].to_numbers(), Some(vec![None, Some(5), Some(5)]));
    let items = only(tags);
    assert_eq!(items.to_texts().unwrap(), ["a", "b", "a", "b"].map(Some));
}

#[test]
fn a_child_of_a_struct_has_the_rows_of_the_struct() {
    let mut whole = Column::structs(5, vec![("a", numbers(10..15))]);
    let picked = select(&mut narrowed(whole.share().unwrap(), 2, 2), &[]).unwrap();
    assert_eq!(only(picked).to_numbers(), Some(vec![Some(12), Some(13)]));
    let child = only(narrowed(whole, 2, 2));
    assert_eq!(
        (
            child.len(),
            child.node().offset(),
            child.node().null_count()
        ),
        (2, 2, 0)
    );
    assert_eq!(child.to_numbers(), Some(vec![Some(12), Some(13)]));
}

#[test]
fn a_child_with_an_offset_of_its_own_keeps_it() {
    let child = narrowed(numbers(0..9), 3, 5);
    let whole = Column::structs(5, vec![("a", child)]);
    let child = only(narrowed(whole, 1, 3));
    assert_eq!(
        (
            child.len(),
            child.node().offset(),
            child.node().null_count()
        ),
        (3, 4, -1)
    );
    assert_eq!(child.to_numbers(), Some(vec![Some(4), Some(5), Some(6)]));
}

#[test]
fn a_child_that_isnt_cut_keeps_its_count_of_nulls() {
    let child = Column::numbers(&[None, Some(1), None]);
    let child = only(Column::structs(3, vec![("a", child)]));
    assert_eq!(child.node().null_count(), 2);
    let child = only(narrowed(Column::structs(3, vec![("a", child)]), 0, 2));
    assert_eq!((child.node().null_count(), child.len()), (-1, 2));
}

#[test]
fn a_cut_column_of_nulls_has_as_many_nulls_as_rows() {
    let nulls = Column::from_parts(field("n"), 5, 5, 0, Vec::new(), Vec::new(), None).unwrap();
    let child = only(narrowed(Column::structs(5, vec![("a", nulls)]), 1, 2));
    assert_eq!((child.len(), child.node().null_count()), (2, 2));
}

#[test]
fn items_of_lists_of_a_fixed_size_are_those_of_the_rows() {
    let lists = |len| {
        Column::from_parts(
            field("+w:3"),
            len,
            0,
            0,
            vec![None],
            vec![numbers(0..12)],
            None,
        )
    };
    let child = only(narrowed(lists(4).unwrap(), 1, 2));
    let items: Vec<_> = (3..9).map(Some).collect();
    assert_eq!(child.to_numbers(), Some(items));
    assert_eq!(only(lists(0).unwrap()).len(), 0);
}

#[test]
fn children_of_sparse_unions_are_cut_and_those_of_dense_ones_are_whole() {
    let ids = || -> Option<Box<dyn Buffer>> { Some(Box::new(vec![0u8; 4])) };
    let places: Option<Box<dyn Buffer>> = Some(Box::new(vec![0u8; 16]));
    let sparse = Column::from_parts(
        field("+us:0"),
        4,
        0,
        0,
        vec![ids()],
        vec![numbers(0..4)],
        None,
    );
    let child = only(narrowed(sparse.unwrap(), 2, 1));
    assert_eq!(child.to_numbers(), Some(vec![Some(2)]));
    let buffers = vec![ids(), places];
    let dense = Column::from_parts(field("+ud:0"), 4, 0, 0, buffers, vec![numbers(0..2)], None);
    assert_eq!(only(narrowed(dense.unwrap(), 2, 1)).len(), 2);
}

#[test]
fn items_of_lists_are_whole() {
    let lists = Column::lists(&[Some(1), Some(2), Some(1)], numbers(0..4));
    assert_eq!(only(narrowed(lists, 1, 1)).len(), 4);
    let lists = Column::list_views(&[Some(1..2), Some(0..4)], numbers(0..4));
    assert_eq!(only(narrowed(lists, 1, 1)).len(), 4);
}

#[test]
fn a_column_that_was_cut_is_shared_with_the_rows_that_it_has() {
    let whole = foreign(Column::structs(5, vec![("a", numbers(10..15))]));
    let mut child = only(narrowed(whole, 1, 3));
    let shared = child.share().unwrap();
    for column in [&shared, &child] {
        assert_eq!(
            column.to_numbers(),
            Some(vec![Some(11), Some(12), Some(13)])
        );
    }
    let again = only(narrowed(Column::structs(3, vec![("b", shared)]), 1, 1))
        .share()
        .unwrap();
    drop(child);
    assert_eq!(again.to_numbers(), Some(vec![Some(12)]));
}

#[test]
fn strings_that_are_cut_at_an_offset_past_their_bytes_are_released() {
    for (offset, is_valid) in [(2i32, true), (3, true), (4, false), (9, false), (-1, false)] {
        let ends: Vec<u8> = [0, 1, offset, 3]
            .iter()
            .flat_map(|k: &i32| k.to_le_bytes())
            .collect();
        let parts: Vec<Option<Box<dyn Buffer>>> =
            vec![None, Some(Box::new(ends)), Some(Box::new(b"abc".to_vec()))];
        let words = Column::from_parts(field("u"), 3, 0, 0, parts, Vec::new(), None).unwrap();
        let whole = Column::structs(3, vec![("a", words)]);
        let child = only(narrowed(whole, 0, 2));
        assert_eq!(child.is_released(), !is_valid, "{offset}");
        assert_eq!(child.to_texts().is_some(), is_valid);
        let second = if offset == 2 { "b" } else { "bc" };
        assert!(!is_valid || child.to_texts() == Some(vec![Some("a"), Some(second)]));
    }
}

#[test]
fn columns_without_children_have_none() {
    assert!(numbers(0..3).into_children().is_empty());
    assert!(Column::structs(0, Vec::new()).into_children().is_empty());
}

#[test]
fn a_child_that_is_too_short_keeps_what_it_has() {
    let whole = Column::structs(3, vec![("a", numbers(0..3))]);
    let child = only(narrowed(whole, 2, 4));
    assert_eq!(child.to_numbers(), Some(vec![Some(2)]));
    let whole = Column::structs(3, vec![("a", numbers(0..3))]);
    assert_eq!(only(narrowed(whole, 7, 4)).len(), 0);
}
