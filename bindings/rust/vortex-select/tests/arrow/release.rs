//! What is made is released once, and in a loop where it is nested.
use crate::raw::{array_of, foreign, schema_of, with_array};
use std::sync::atomic::{AtomicUsize, Ordering};
use std::sync::Arc;
use vortex_select::arrow::{select, ArrowArray, ArrowSchema, Buffer, Column, Error, Field, Step};

/// A buffer that counts how often it is dropped.
struct Counted(Vec<u8>, Arc<AtomicUsize>);

// SAFETY: the bytes of the list stay in their place, and nothing writes to them.
unsafe impl Buffer for Counted {
    fn data(&self) -> *const u8 {
        self.0.as_ptr()
    }

    fn size(&self) -> usize {
        self.0.len()
    }
}

impl Drop for Counted {
    fn drop(&mut self) {
        self.1.fetch_add(1, Ordering::SeqCst);
    }
}

fn field(format: &str) -> Field {
    Field {
        format: format.into(),
        ..Field::default()
    }
}

fn bytes(count: &Arc<AtomicUsize>) -> Column {
    let buffer = Box::new(Counted(vec![0, 1, 0], count.clone()));
    Column::from_parts(
        field("C"),
        3,
        0,
        0,
        vec![None, Some(buffer)],
        Vec::new(),
        None,
    )
    .unwrap()
}

/// A struct of a field, of codes of a dictionary, and of a list: four buffers are counted.
fn nested(count: &Arc<AtomicUsize>) -> Column {
    let codes = Box::new(Counted(vec![0, 1, 2], count.clone()));
    let parts = vec![None, Some(codes as Box<dyn Buffer>)];
    let codes = Column::from_parts(field("c"), 3, 0, 0, parts, Vec::new(), Some(bytes(count)));
    let lists = Column::lists(&[Some(1), None, Some(2)], bytes(count));
    let fields = vec![("a", bytes(count)), ("b", codes.unwrap()), ("c", lists)];
    Column::structs(3, fields)
}

fn counted(count: &Arc<AtomicUsize>) -> usize {
    count.load(Ordering::SeqCst)
}

#[test]
fn each_buffer_is_dropped_once() {
    let count = Arc::new(AtomicUsize::new(0));
    let column = nested(&count);
    assert_eq!(counted(&count), 0);
    drop(column);
    assert_eq!((counted(&count), Arc::strong_count(&count)), (4, 1));
}

#[test]
fn a_column_that_is_refused_drops_its_buffers() {
    let count = Arc::new(AtomicUsize::new(0));
    let parts = || -> Vec<Option<Box<dyn Buffer>>> {
        vec![None, Some(Box::new(Counted(vec![0], count.clone())))]
    };
    let made = Column::from_parts(field("C"), 2, 0, 0, parts(), Vec::new(), None);
    assert!(made.is_err() && counted(&count) == 1);
    let made = Column::from_parts(field("C"), 1, 0, 0, parts(), vec![bytes(&count)], None);
    assert!(made.is_err() && counted(&count) == 3);
}

#[test]
fn children_that_are_moved_out_live_on() {
    let count = Arc::new(AtomicUsize::new(0));
    let mut children = nested(&count).into_children();
    assert_eq!(counted(&count), 0);
    let lists = children.pop().unwrap();
    drop(children);
    assert_eq!(counted(&count), 3);
    let items = lists.into_children();
    assert_eq!((items[0].len(), counted(&count)), (3, 3));
    drop(items);
    assert_eq!(counted(&count), 4);
}

#[test]
fn shared_memory_is_dropped_with_its_last_column() {
    let count = Arc::new(AtomicUsize::new(0));
    let mut column = nested(&count);
    let shared = column.share().unwrap();
    let picked = select(&mut column, &[Step::take(&[1])]).unwrap();
    drop(column);
    assert_eq!(counted(&count), 0);
    drop(shared);
    // The dictionary's values are shared with the selection.
    assert_eq!(counted(&count), 0);
    drop(picked);
    assert_eq!(counted(&count), 4);
}

#[test]
fn a_column_that_is_sliced_in_its_place_is_shared_so() {
    let column = Column::numbers(&[Some(1), None, Some(3), Some(4)]);
    let mut column = with_array(column, |array| {
        array.offset = 1;
        array.length = 2;
    });
    let shared = column.share().unwrap();
    assert_eq!(shared.to_numbers(), Some(vec![None, Some(3)]));
    assert_eq!(column.to_numbers(), Some(vec![None, Some(3)]));
}

#[test]
fn a_renamed_column_of_another_producer_is_released() {
    let count = Arc::new(AtomicUsize::new(0));
    let column = Column::structs(3, vec![("x", foreign(nested(&count)))]);
    let outer = Column::structs(3, vec![("y", foreign(column))]);
    let inner = outer
        .into_children()
        .pop()
        .unwrap()
        .into_children()
        .pop()
        .unwrap();
    assert_eq!((inner.node().children().len(), counted(&count)), (3, 0));
    drop(inner);
    assert_eq!(counted(&count), 4);
}

#[test]
fn what_is_handed_over_is_marked_as_released() {
    let (mut schema, mut array) = Column::numbers(&[Some(7), None]).into_raw();
    // SAFETY: both are those of a column.
    let mut column = unsafe { Column::from_raw(&mut schema, &mut array) };
    assert!(schema.is_released() && array.is_released());
    assert!(column.is_nullable() && !column.is_released());
    let picked = select(&mut column, &[]).unwrap();
    assert_eq!(picked.to_numbers(), Some(vec![Some(7), None]));
    assert_eq!(std::mem::size_of::<ArrowArray>(), 80);
    assert_eq!(std::mem::size_of::<ArrowSchema>(), 72);
    assert!(ArrowArray::empty().is_released() && ArrowSchema::empty().is_released());
}

#[test]
fn structs_that_are_released_by_their_pointer_are_marked() {
    let count = Arc::new(AtomicUsize::new(0));
    let renamed = Column::structs(3, vec![("x", foreign(nested(&count)))]);
    for column in [nested(&count), renamed] {
        let (mut schema, mut array) = column.into_raw();
        let releases = (
            schema_of(&schema).release.unwrap(),
            array_of(&array).release.unwrap(),
        );
        // SAFETY: both structs aren't released, and each is released once.
        unsafe {
            releases.0((&mut schema as *mut ArrowSchema).cast());
            releases.1((&mut array as *mut ArrowArray).cast());
        }
        assert!(schema.is_released() && array.is_released());
    }
    assert_eq!((counted(&count), Arc::strong_count(&count)), (8, 1));
}

#[test]
fn a_renamed_schema_marks_itself_as_released() {
    let people = Column::structs(1, vec![("x", foreign(Column::numbers(&[Some(1)])))]);
    let (schema, array) = people.into_raw();
    // SAFETY: the schema has one child, which isn't released.
    let child = unsafe { &mut **schema_of(&schema).children };
    let release = child.release.unwrap();
    // SAFETY: as above.
    unsafe { release(child) };
    assert!(child.release.is_none());
    drop((schema, array));
}

#[test]
fn released_columns_are_refused() {
    let released = || {
        let mut parts = (ArrowSchema::empty(), ArrowArray::empty());
        // SAFETY: both are released.
        unsafe { Column::from_raw(&mut parts.0, &mut parts.1) }
    };
    let mut column = released();
    let is_refused = |error: Option<Error>| match error {
        Some(Error::Shape(text)) => assert!(text.contains("released"), "{text}"),
        other => panic!("{other:?}"),
    };
    is_refused(select(&mut column, &[]).err());
    is_refused(column.share().err());
    is_refused(column.check().err());
    is_refused(column.copy_schema().err());
    is_refused(column.node().buffers().err());
    assert!(column.is_released() && column.is_empty() && !column.is_nullable());
    assert_eq!(
        (column.node().format(), column.node().name()),
        ("", "".into())
    );
    assert_eq!((column.node().flags(), column.node().metadata()), (0, None));
    assert_eq!((column.node().len(), column.node().offset()), (0, 0));
    assert_eq!(column.node().null_count(), 0);
    let wanted = Error::Shape("expected a schema, got a released one".into());
    assert_eq!(column.copy_schema().unwrap_err(), wanted);
    assert!(column.node().dictionary().is_none() && column.node().children().is_empty());
    assert_eq!((column.to_numbers(), column.to_texts()), (None, None));
    assert!(column.into_children().is_empty());
    let (mut schema, mut array) = Column::numbers(&[Some(1)]).into_raw();
    // SAFETY: the array is a column's, and the schema is released.
    let mut half = unsafe { Column::from_raw(&mut ArrowSchema::empty(), &mut array) };
    let found = |name: &str| Error::Shape(format!("expected a column, got a released {name}"));
    assert_eq!(half.check().unwrap_err(), found("schema"));
    // SAFETY: the schema is a column's, and the array is released.
    let mut half = unsafe { Column::from_raw(&mut schema, &mut ArrowArray::empty()) };
    assert_eq!(half.check().unwrap_err(), found("array"));
    assert!(half.is_released());
    is_refused(select(&mut half, &[]).err());
    is_refused(half.share().err());
    is_refused(half.check().err());
}

#[test]
fn deep_columns_are_dropped_on_a_small_stack() {
    const DEPTH: usize = 100_000;
    let made =
        |wrap: fn(Column) -> Column| (0..DEPTH).fold(Column::numbers(&[Some(1)]), |c, _| wrap(c));
    let drops = move || {
        drop(made(|column| Column::lists(&[Some(1)], column)));
        drop(made(|column| Column::structs(1, vec![("a", column)])));
        let mut column = made(|column| Column::structs(1, vec![("a", column)]));
        assert!(matches!(select(&mut column, &[]), Err(Error::Depth(_))));
        assert!(matches!(column.share(), Err(Error::Depth(_))));
        assert!(matches!(column.check(), Err(Error::Depth(_))));
        assert!(matches!(column.copy_schema(), Err(Error::Depth(_))));
        let dictionary = |values| {
            let codes: Option<Box<dyn Buffer>> = Some(Box::new(vec![0]));
            let parts = vec![None, codes];
            Column::from_parts(field("c"), 1, 0, 0, parts, Vec::new(), Some(values)).unwrap()
        };
        drop(made(dictionary));
    };
    let thread = std::thread::Builder::new()
        .stack_size(256 << 10)
        .spawn(drops)
        .unwrap();
    thread.join().unwrap();
}

#[test]
fn a_column_is_released_if_its_schema_or_its_array_is() {
    let mut column = Column::numbers(&[Some(1)]);
    assert!(!column.is_released());
    let (mut schema, mut array) = column.into_raw();
    // SAFETY: the structs are a column's; each `drop` releases what was moved out.
    column = unsafe { Column::from_raw(&mut schema, &mut ArrowArray::empty()) };
    assert!(column.is_released());
    // SAFETY: as above; the schema was moved out before, so it counts as released.
    column = unsafe { Column::from_raw(&mut schema, &mut array) };
    assert!(column.is_released());
    assert!(schema.is_released() && array.is_released());
}
