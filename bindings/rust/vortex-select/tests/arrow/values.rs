//! Columns of bools, binary values, lists and structs: made, selected and read; and steps by columns.
use vortex_select::arrow::{select, Column, Error, Field, Step};

fn picked(column: Column, indices: &[Option<u64>]) -> Column {
    let mut column = column;
    select(&mut column, &[Step::take_or_null(indices)]).unwrap()
}

#[test]
fn bools_are_bits_with_the_lowest_first() {
    let rows: Vec<_> = (0..9)
        .map(|k| [Some(true), None, Some(false)][k % 3])
        .collect();
    let column = Column::bools(&rows);
    assert_eq!(
        (column.node().format(), column.node().null_count()),
        ("b", 3)
    );
    let valid: &[u8] = &[0b0110_1101, 0b1];
    let bits: &[u8] = &[0b0100_1001, 0b0];
    assert_eq!(column.node().buffers().unwrap(), [Some(valid), Some(bits)]);
    assert_eq!(column.to_bools(), Some(rows));
    let taken = picked(column, &[Some(8), Some(0), None, Some(2)]);
    assert_eq!(
        taken.to_bools(),
        Some(vec![Some(false), Some(true), None, Some(false)])
    );
    assert_eq!(Column::bools(&[]).to_bools(), Some(vec![]));
}

#[test]
fn binary_values_need_not_be_utf8() {
    let rows = [
        Some(&b"\xff\0"[..]),
        None,
        Some(&b""[..]),
        Some(&b"abc"[..]),
    ];
    let column = Column::binary(&rows);
    assert_eq!((column.node().format(), column.len()), ("z", 4));
    assert_eq!(column.to_binary(), Some(rows.to_vec()));
    assert_eq!(column.to_texts(), None);
    let taken = picked(column, &[Some(3), None, Some(0)]);
    assert_eq!(
        taken.to_binary(),
        Some(vec![Some(&b"abc"[..]), None, Some(&b"\xff\0"[..])])
    );
    assert_eq!(Column::binary(&[]).to_binary(), Some(vec![]));
}

#[test]
fn binary_views_are_read() {
    let mut views = b"\x02\0\0\0\xff\0".to_vec();
    views.resize(16, 0);
    let field = Field {
        format: "vz".into(),
        ..Field::default()
    };
    let buffers = vec![
        None,
        Some(Box::new(views) as _),
        Some(Box::new(vec![]) as _),
    ];
    let column = Column::from_parts(field, 1, 0, 0, buffers, Vec::new(), None).unwrap();
    assert_eq!(column.to_binary(), Some(vec![Some(&b"\xff\0"[..])]));
    assert_eq!(column.to_texts(), None);
}

#[test]
fn lists_are_read_as_ranges_of_their_items() {
    let items = Column::bools(&[Some(true), None, Some(false)]);
    let lists = Column::lists(&[Some(2), None, Some(1)], items);
    assert_eq!(lists.to_ranges(), Some(vec![Some(0..2), None, Some(2..3)]));
    assert_eq!(lists.to_valid(), Some(vec![true, false, true]));
    let taken = picked(lists, &[Some(2), None, Some(0)]);
    assert_eq!(taken.to_ranges(), Some(vec![Some(0..1), None, Some(1..3)]));
    let items = taken.into_children().remove(0);
    assert_eq!(items.to_bools(), Some(vec![Some(false), Some(true), None]));
}

#[test]
fn structs_have_nulls_of_their_own() {
    let fields = || {
        vec![
            ("id", Column::numbers(&[Some(5), Some(6), None])),
            ("is_in", Column::bools(&[Some(true), Some(false), None])),
        ]
    };
    let mut people = Column::structs_or_null(&[true, false, true], fields());
    assert_eq!(
        (people.node().null_count(), people.node().format()),
        (1, "+s")
    );
    assert_eq!(people.to_valid(), Some(vec![true, false, true]));
    let ids = people.field("id").unwrap().unwrap();
    assert_eq!(ids.to_numbers(), Some(vec![Some(5), Some(6), None]));
    assert!(people.field("age").unwrap().is_none());
    let mut taken = picked(people, &[Some(2), Some(1), None, Some(0)]);
    assert_eq!(taken.to_valid(), Some(vec![true, false, false, true]));
    let is_in = taken.field("is_in").unwrap().unwrap().to_bools().unwrap();
    assert_eq!((is_in[0], is_in[3]), (None, Some(true)));
    assert_eq!(Column::structs(3, fields()).to_valid(), Some(vec![true; 3]));
    assert!(Column::numbers(&[Some(1)]).field("id").unwrap().is_none());
}

#[test]
fn a_field_has_the_rows_of_its_struct() {
    let parts = vec![None];
    let field = Field {
        format: "+s".into(),
        ..Field::default()
    };
    let id = Column::numbers(&[Some(1), Some(2), Some(3), Some(4), Some(5)]);
    let id = id.described("id", 2).unwrap();
    let mut people = Column::from_parts(field, 2, 0, 2, parts, vec![id], None).unwrap();
    let id = people.field("id").unwrap().unwrap();
    assert_eq!(id.to_numbers(), Some(vec![Some(3), Some(4)]));
}

#[test]
fn nulls_of_other_types_are_read() {
    let union = Column::unions(&[(0, 0)], vec![("a", Column::numbers(&[None]))]);
    assert_eq!(union.to_valid(), Some(vec![true]));
    let field = Field {
        format: "n".into(),
        ..Field::default()
    };
    let nulls = Column::from_parts(field, 2, 2, 0, Vec::new(), Vec::new(), None).unwrap();
    assert_eq!(nulls.to_valid(), Some(vec![false; 2]));
}

#[test]
fn rows_of_another_type_are_none() {
    let numbers = Column::numbers(&[Some(1)]);
    assert_eq!((numbers.to_bools(), numbers.to_binary()), (None, None));
    let bools = Column::bools(&[Some(true)]);
    assert_eq!(
        (bools.to_numbers(), bools.to_binary(), bools.to_ranges()),
        (None, None, None)
    );
    assert_eq!(Column::texts(&[Some("a")]).to_binary(), None);
}

#[test]
fn a_filter_by_a_column_begins_at_its_offset() {
    let field = Field {
        format: "b".into(),
        ..Field::default()
    };
    let buffers = vec![
        Some(Box::new(vec![0xf7u8]) as _),
        Some(Box::new(vec![0b0110_1100u8]) as _),
    ];
    let mask = Column::from_parts(field, 5, -1, 2, buffers, Vec::new(), None).unwrap();
    // Bits 2 to 6 are 1, 1, 0, 1, 1, of which bit 3 is null.
    let mut rows = Column::numbers(&[Some(0), Some(1), Some(2), Some(3), Some(4)]);
    let kept = select(&mut rows, &[Step::filter_by(&mask).unwrap()]).unwrap();
    assert_eq!(kept.to_numbers(), Some(vec![Some(0), Some(3), Some(4)]));
}

#[test]
fn a_take_by_a_column_reads_each_type_of_integers() {
    for (format, width) in [
        ("c", 1),
        ("C", 1),
        ("s", 2),
        ("S", 2),
        ("i", 4),
        ("I", 4),
        ("l", 8),
        ("L", 8),
    ] {
        let field = Field {
            format: format.into(),
            ..Field::default()
        };
        let bytes: Vec<u8> = [9u64, 2, 0]
            .iter()
            .flat_map(|n| n.to_le_bytes()[..width].to_vec())
            .collect();
        let buffers = vec![None, Some(Box::new(bytes) as _)];
        let indices = Column::from_parts(field, 2, 0, 1, buffers, Vec::new(), None).unwrap();
        let mut rows = Column::numbers(&[Some(5), Some(6), Some(7)]);
        let taken = select(&mut rows, &[Step::take_by(&indices).unwrap()]).unwrap();
        assert_eq!(taken.to_numbers(), Some(vec![Some(7), Some(5)]), "{format}");
    }
}

#[test]
fn steps_by_columns_of_other_types_are_rejected() {
    let texts = Column::texts(&[Some("a")]);
    let bools = Column::bools(&[Some(true)]);
    let numbers = Column::numbers(&[Some(1)]);
    for (step, words) in [
        (
            Step::filter_by(&texts),
            "expected a column of bools, got format \"u\"",
        ),
        (
            Step::filter_by(&numbers),
            "expected a column of bools, got format \"l\"",
        ),
        (
            Step::take_by(&bools),
            "expected a column of integers, got format \"b\"",
        ),
        (
            Step::take_by(&texts),
            "expected a column of integers, got format \"u\"",
        ),
    ] {
        assert_eq!(step.unwrap_err(), Error::Format(words.into()));
    }
}
