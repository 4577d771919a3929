//! Columns on several threads.
use std::sync::{Arc, Barrier, Mutex};
use std::thread;
use vortex_select::arrow::{select, Column, Node, Step, Stream};

const LONG: &str = "a string of more than twelve bytes";

fn is_sent_and_shared<T: Send + Sync>() {}
fn is_sent<T: Send>() {}

#[test]
fn columns_are_sent_and_shared() {
    is_sent_and_shared::<Column>();
    is_sent_and_shared::<Node<'static>>();
    is_sent_and_shared::<vortex_select::arrow::ArrowSchema>();
    is_sent_and_shared::<vortex_select::arrow::ArrowArray>();
    is_sent::<Stream>();
}

/// A column whose selections share views, a dictionary and items.
fn people() -> Column {
    let names = Column::text_views(&[Some("ann"), None, Some(LONG), Some("cy")]);
    let codes = vortex_select::arrow::Field {
        format: "C".into(),
        ..Default::default()
    };
    let parts: Vec<Option<Box<dyn vortex_select::arrow::Buffer>>> =
        vec![None, Some(Box::new(vec![0, 1, 1, 0]))];
    let words = Column::texts(&[Some("x"), Some("y")]);
    let codes = Column::from_parts(codes, 4, 0, 0, parts, Vec::new(), Some(words)).unwrap();
    let ranges = [Some(0..1), None, Some(0..2), Some(1..2)];
    let lists = Column::list_views(&ranges, Column::texts(&[Some("p"), Some(LONG)]));
    Column::structs(4, vec![("name", names), ("code", codes), ("list", lists)])
}

fn test_rows(picked: Column) {
    assert_eq!(picked.len(), 3);
    let children = picked.into_children();
    assert_eq!(
        children[0].to_texts(),
        Some(vec![Some(LONG), Some("ann"), None])
    );
    assert_eq!(
        children[1].node().buffers().unwrap()[1],
        Some(&[1, 0, 1][..])
    );
    let words = children[1].node().dictionary().unwrap();
    assert_eq!(words.buffers().unwrap()[2], Some(&b"xy"[..]));
    assert_eq!(
        children[2].to_ranges(),
        Some(vec![Some(0..2), Some(0..1), None])
    );
}

#[test]
fn two_threads_share_and_select_from_one_column() {
    let column = Arc::new(Mutex::new(people()));
    let start = Arc::new(Barrier::new(2));
    let work = |column: Arc<Mutex<Column>>, start: Arc<Barrier>| {
        start.wait();
        for _ in 0..200 {
            let mut shared = column.lock().unwrap().share().unwrap();
            test_rows(select(&mut shared, &[Step::take(&[2, 0, 1])]).unwrap());
            let picked = select(&mut column.lock().unwrap(), &[Step::take(&[2, 0, 1])]).unwrap();
            drop(shared);
            test_rows(picked);
        }
    };
    let threads: Vec<_> = (0..2)
        .map(|_| {
            let (column, start) = (column.clone(), start.clone());
            thread::spawn(move || work(column, start))
        })
        .collect();
    for thread in threads {
        thread.join().unwrap();
    }
}

#[test]
fn columns_are_released_on_other_threads() {
    let mut column = people();
    let steps = [Step::take(&[2, 0, 1])];
    let picked: Vec<_> = (0..20)
        .map(|_| select(&mut column, &steps).unwrap())
        .collect();
    let shared: Vec<_> = (0..20).map(|_| column.share().unwrap()).collect();
    drop(column);
    let both = picked.into_iter().zip(shared);
    let threads: Vec<_> = both
        .map(|(picked, mut shared)| {
            thread::spawn(move || {
                test_rows(picked);
                test_rows(select(&mut shared, &[Step::take(&[2, 0, 1])]).unwrap());
            })
        })
        .collect();
    for thread in threads {
        thread.join().unwrap();
    }
}

#[test]
fn one_column_is_read_by_several_threads() {
    let column = Column::texts(&[Some("a"), None, Some(LONG)]);
    let rows = || column.to_texts().unwrap();
    let read = thread::scope(|scope| {
        let threads: Vec<_> = (0..4).map(|_| scope.spawn(rows)).collect();
        threads
            .into_iter()
            .map(|thread| thread.join().unwrap())
            .collect::<Vec<_>>()
    });
    assert!(read
        .iter()
        .all(|rows| *rows == [Some("a"), None, Some(LONG)]));
}
