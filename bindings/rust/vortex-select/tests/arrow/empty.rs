//! Columns without rows, and columns under another name.
use crate::raw::array_of;
use vortex_select::arrow::{Column, Error, Field, Stream};

fn field(format: &str) -> Field {
    Field {
        format: format.into(),
        name: "x".into(),
        flags: 2,
        metadata: None,
    }
}

fn empty(of: &Column) -> Column {
    Stream::of(of, Vec::new()).unwrap().empty().unwrap()
}

/// How many buffers a column of each format has, and how many children.
const FORMATS: [(&str, i64, usize); 15] = [
    ("n", 0, 0),
    ("b", 2, 0),
    ("l", 2, 0),
    ("w:3", 2, 0),
    ("u", 3, 0),
    ("Z", 3, 0),
    ("vu", 3, 0),
    ("+s", 1, 2),
    ("+l", 2, 1),
    ("+L", 2, 1),
    ("+w:2", 1, 1),
    ("+vl", 3, 1),
    ("+vL", 3, 1),
    ("+us:0,1", 1, 2),
    ("+ud:0,1", 2, 2),
];

#[test]
fn an_empty_column_has_the_buffers_and_children_of_its_type() {
    for (format, n_buffers, n_children) in FORMATS {
        let buffers = (0..n_buffers).map(|_| None).collect();
        let children = (0..n_children).map(|_| Column::numbers(&[])).collect();
        let made = Column::from_parts(field(format), 0, 0, 0, buffers, children, None);
        let mut found = empty(&made.unwrap());
        found.check().unwrap();
        let node = found.node();
        assert_eq!(
            (node.format(), node.name(), node.flags()),
            (format, "x".into(), 2)
        );
        assert_eq!(
            (found.len(), node.children().len()),
            (0, n_children),
            "{format}"
        );
        assert!(node.children().iter().all(|child| child.format() == "l"));
        let (_, array) = found.into_raw();
        assert_eq!(array_of(&array).n_buffers, n_buffers, "{format}");
    }
}

#[test]
fn an_empty_column_of_rows_has_their_dictionary() {
    let codes: Vec<Option<Box<dyn vortex_select::arrow::Buffer>>> =
        vec![None, Some(Box::new(vec![1u8, 0]))];
    let words = Column::texts(&[Some("a"), Some("b")]);
    let made = Column::from_parts(field("C"), 2, 0, 0, codes, Vec::new(), Some(words)).unwrap();
    let found = empty(&made);
    let dictionary = found.node().dictionary().unwrap();
    assert_eq!((found.len(), dictionary.len()), (0, 0));
    assert_eq!((found.node().format(), dictionary.format()), ("C", "u"));
}

#[test]
fn a_column_is_described_anew() {
    let column = Column::numbers(&[Some(1), None]);
    let column = column.described("price", 0).unwrap();
    assert_eq!(
        (column.node().name(), column.node().flags()),
        ("price".into(), 0)
    );
    assert!(!column.is_nullable());
    assert_eq!(column.to_numbers(), Some(vec![Some(1), None]));
    let column = column.described("", 6).unwrap();
    assert_eq!(
        (column.node().name(), column.node().flags()),
        ("".into(), 6)
    );
    let wanted = Error::Shape("name: expected no byte 0, got one".into());
    assert_eq!(column.described("a\0b", 0).unwrap_err(), wanted);
}

/// Returns structs in structs, so many levels with the column of numbers at the end.
fn nested(levels: usize) -> Column {
    (1..levels).fold(Column::numbers(&[]), |column, _| {
        Column::structs(0, vec![("x", column)])
    })
}

#[test]
fn an_empty_column_has_at_most_64_levels() {
    assert_eq!(empty(&nested(64)).len(), 0);
    let found = Stream::of(&nested(65), Vec::new()).and_then(|mut stream| stream.empty());
    assert!(matches!(found, Err(Error::Depth(_))));
}
