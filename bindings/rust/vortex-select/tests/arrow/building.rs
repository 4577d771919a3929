//! Columns made of rows: what another language sees of them.
use crate::raw::{array_of, foreign, schema_of, text};
use vortex_select::arrow::{select, Column, Field, Step};

const LONG: &str = "a string of more than twelve bytes";

#[test]
fn a_made_column_is_nullable_and_has_no_name() {
    let (schema, array) = Column::numbers(&[Some(7), None]).into_raw();
    let (schema, array) = (schema_of(&schema), array_of(&array));
    assert_eq!(
        (text(schema.format), text(schema.name)),
        ("l".into(), "".into())
    );
    assert_eq!((schema.flags, schema.n_children), (2, 0));
    assert!(schema.metadata.is_null() && schema.dictionary.is_null());
    assert_eq!((array.length, array.null_count, array.offset), (2, 1, 0));
    assert_eq!((array.n_buffers, array.n_children), (2, 0));
    assert!(array.dictionary.is_null());
}

#[test]
fn nulls_are_zeros_with_a_clear_bit() {
    let column = Column::numbers(&[Some(-1), None, Some(3)]);
    let buffers = column.node().buffers().unwrap();
    let numbers = [-1i64, 0, 3].map(i64::to_le_bytes).concat();
    assert_eq!(buffers, [Some(&[0b101][..]), Some(&numbers)]);
    let column = Column::numbers(&[Some(1)]);
    assert_eq!(column.node().buffers().unwrap()[0], None);
    assert_eq!(column.node().null_count(), 0);
}

#[test]
fn structs_have_the_names_of_their_fields() {
    let fields = || {
        vec![
            ("id", Column::numbers(&[Some(1), None])),
            ("no", Column::texts(&[None; 2])),
        ]
    };
    let mut people = Column::structs(2, fields());
    let picked = select(&mut people, &[Step::take(&[1])]).unwrap();
    for column in [&people, &picked] {
        let children = column.node().children();
        let names: Vec<_> = children.iter().map(|child| child.name()).collect();
        assert_eq!(
            (names, column.node().name()),
            (vec!["id".into(), "no".into()], "".into())
        );
        let formats: Vec<_> = children.iter().map(|child| child.format()).collect();
        assert_eq!((formats, column.node().format()), (vec!["l", "u"], "+s"));
    }
    assert_eq!(people.node().null_count(), 0);
    assert_eq!(people.node().buffers().unwrap(), [None]);
}

#[test]
fn a_field_of_another_producer_keeps_what_its_schema_says() {
    let field = Field {
        format: "c".into(),
        name: "before".into(),
        flags: 3,
        metadata: Some(pairs(&[("k", "v"), ("", "more")])),
    };
    let codes: Box<dyn vortex_select::arrow::Buffer> = Box::new(vec![1u8, 0]);
    let words = Column::texts(&[Some("a"), Some("b")]);
    let buffers = vec![None, Some(codes)];
    let codes = Column::from_parts(field.clone(), 2, 0, 0, buffers, Vec::new(), Some(words));
    let renamed = Column::structs(2, vec![("after", foreign(codes.unwrap()))]);
    let child = renamed.node().children()[0];
    assert_eq!(
        (child.name(), child.format(), child.flags()),
        ("after".into(), "c", 3)
    );
    assert_eq!(child.metadata(), field.metadata.as_deref());
    assert_eq!(child.dictionary().unwrap().format(), "u");
    let nested = Column::structs(2, vec![("outer", foreign(renamed))]);
    let inner = nested.node().children()[0].children()[0];
    assert_eq!(inner.name(), "after");
}

/// Metadata as Arrow encodes it.
pub fn pairs(pairs: &[(&str, &str)]) -> Vec<u8> {
    let mut bytes = (pairs.len() as i32).to_le_bytes().to_vec();
    for text in pairs.iter().flat_map(|(key, value)| [key, value]) {
        bytes.extend((text.len() as i32).to_le_bytes());
        bytes.extend(text.bytes());
    }
    bytes
}

#[test]
fn short_views_are_padded_with_zeros() {
    let column = Column::text_views(&[Some("ab"), None, Some(LONG), Some("twelve bytes")]);
    let buffers = column.node().buffers().unwrap();
    let views = buffers[1].unwrap();
    assert_eq!(views[..16], *b"\x02\0\0\0ab\0\0\0\0\0\0\0\0\0\0");
    assert_eq!(views[16..32], [0; 16]);
    assert_eq!(views[32..48], *b"\x22\0\0\0a st\0\0\0\0\0\0\0\0");
    assert_eq!(views[48..], *b"\x0c\0\0\0twelve bytes");
    assert_eq!(buffers[2].unwrap(), LONG.as_bytes());
    assert_eq!(buffers[3].unwrap(), (LONG.len() as i64).to_le_bytes());
    assert_eq!((buffers.len(), column.node().null_count()), (4, 1));
}

#[test]
fn unions_have_no_nulls_and_list_their_ids() {
    let fields = vec![
        ("n", Column::numbers(&[Some(1)])),
        ("w", Column::texts(&[Some("a")])),
    ];
    let column = Column::unions(&[(1, 0), (0, 0), (1, 0)], fields);
    assert_eq!(
        (column.node().format(), column.node().null_count()),
        ("+ud:0,1", 0)
    );
    let zeros = [0; 12];
    assert_eq!(
        column.node().buffers().unwrap(),
        [Some(&[1, 0, 1][..]), Some(&zeros[..])]
    );
    let names: Vec<_> = column
        .node()
        .children()
        .iter()
        .map(|child| child.name())
        .collect();
    assert_eq!(names, ["n", "w"]);
    assert_eq!(column.to_chosen(), Some(vec![(1, 0), (0, 0), (1, 0)]));
}

#[test]
fn a_union_may_have_128_fields() {
    let fields = |count| {
        (0..count)
            .map(|_| ("f", Column::numbers(&[Some(5)])))
            .collect()
    };
    let column = Column::unions(&[(127, 0)], fields(128));
    assert_eq!(column.to_chosen(), Some(vec![(127, 0)]));
    let made = std::panic::catch_unwind(|| Column::unions(&[], fields(129)));
    assert!(made.is_err());
}

#[test]
fn list_views_have_starts_and_sizes() {
    let column = Column::list_views(&[Some(1..3), None, Some(0..3)], Column::numbers(&[None; 3]));
    let numbers = |list: [i32; 3]| list.map(i32::to_le_bytes).concat();
    let buffers = column.node().buffers().unwrap();
    assert_eq!(buffers[1].unwrap(), numbers([1, 0, 0]));
    assert_eq!(buffers[2].unwrap(), numbers([2, 0, 3]));
    assert_eq!(column.to_ranges(), Some(vec![Some(1..3), None, Some(0..3)]));
}

#[test]
fn rows_of_another_format_are_none() {
    let numbers = Column::numbers(&[Some(1)]);
    assert_eq!(
        (numbers.to_texts(), numbers.to_ranges(), numbers.to_chosen()),
        (None, None, None)
    );
    let texts = Column::texts(&[Some("a")]);
    assert_eq!(
        (texts.to_numbers(), texts.to_ranges(), texts.to_chosen()),
        (None, None, None)
    );
    let lists = Column::lists(&[Some(1)], texts);
    assert_eq!((lists.to_numbers(), lists.to_texts()), (None, None));
    assert_eq!(lists.to_ranges(), Some(vec![Some(0..1)]));
}

#[test]
fn lengths_are_those_of_the_rows() {
    for len in [0, 1, 2] {
        let column = Column::numbers(&vec![None; len]);
        assert_eq!((column.len(), column.is_empty()), (len, len == 0));
        assert_eq!(
            (column.node().len(), column.node().is_empty()),
            (len, len == 0)
        );
    }
}

#[test]
fn lists_may_leave_items_over() {
    let items = Column::numbers(&[Some(1), Some(2), Some(3)]);
    let lists = Column::lists(&[Some(1), None, Some(1)], items);
    assert_eq!(lists.len(), 3);
    let offsets = [0, 1, 1, 2].map(i32::to_le_bytes).concat();
    assert_eq!(lists.node().buffers().unwrap()[1].unwrap(), offsets);
}

#[test]
#[should_panic(expected = "expected 4 items, got 3")]
fn lists_have_no_more_items_than_there_are() {
    Column::lists(&[Some(2), Some(2)], Column::numbers(&[None; 3]));
}

#[test]
#[should_panic(expected = "rows of b")]
fn fields_have_as_many_rows_as_their_struct() {
    let fields = vec![
        ("a", Column::numbers(&[None; 2])),
        ("b", Column::numbers(&[None; 3])),
    ];
    Column::structs(2, fields);
}

#[test]
#[should_panic(expected = "a name without a byte 0")]
fn names_have_no_byte_0() {
    Column::structs(1, vec![("a\0b", Column::numbers(&[None]))]);
}

#[test]
#[should_panic(expected = "expected a range within 2 items, got 1..3")]
fn ranges_end_within_the_items() {
    Column::list_views(&[Some(1..3)], Column::numbers(&[None; 2]));
}

#[test]
#[should_panic(expected = "expected a range within 2 items, got 2..1")]
#[allow(clippy::reversed_empty_ranges)]
fn ranges_begin_before_their_end() {
    Column::list_views(&[Some(2..1)], Column::numbers(&[None; 2]));
}

#[test]
#[should_panic(expected = "expected a row of 2 of field 0, got 2")]
fn rows_of_unions_are_within_their_field() {
    Column::unions(&[(0, 2)], vec![("a", Column::numbers(&[None; 2]))]);
}
