//! Streams, made here and elsewhere.
use crate::raw::schema_of;
use std::collections::VecDeque;
use std::ffi::CString;
use std::os::raw::{c_char, c_int};
use std::ptr::null;
use vortex_select::arrow::{
    select_stream, ArrowArray, ArrowArrayStream, ArrowSchema, Cause, Column, Error, Step, Stream,
};
use vortex_select_sys::arrow as sys;

fn numbers(rows: &[i64]) -> Column {
    let rows: Vec<_> = rows.iter().copied().map(Some).collect();
    Column::numbers(&rows)
}

fn stream(chunks: &[&[i64]]) -> Stream {
    let chunks = chunks.iter().map(|rows| numbers(rows)).collect();
    Stream::of(&numbers(&[]), chunks).unwrap()
}

/// All batches up to the end.
fn batches(stream: &mut Stream) -> Vec<Vec<Option<i64>>> {
    let mut all = Vec::new();
    while let Some(batch) = stream.next().unwrap() {
        all.push(batch.to_numbers().unwrap());
    }
    all
}

fn rows(rows: &[i64]) -> Vec<Option<i64>> {
    rows.iter().copied().map(Some).collect()
}

#[test]
fn a_stream_gives_its_chunks_and_then_its_end() {
    let mut made = stream(&[&[1, 2], &[], &[3]]);
    let schema = made.schema().unwrap();
    assert_eq!(crate::raw::text(schema_of(&schema).format), "l");
    assert_eq!(batches(&mut made), [rows(&[1, 2]), rows(&[]), rows(&[3])]);
    assert!(made.next().unwrap().is_none());
    assert!(made.schema().is_ok());
}

#[test]
fn a_stream_is_handed_over() {
    let mut raw = stream(&[&[1], &[2]]).into_raw();
    // SAFETY: the stream was made here.
    let mut taken = unsafe { Stream::from_raw(&mut raw) };
    assert!(raw.is_released() && !taken.is_released());
    assert_eq!(batches(&mut taken), [rows(&[1]), rows(&[2])]);
    // SAFETY: the stream is released.
    let mut released = unsafe { Stream::from_raw(&mut raw) };
    let is_refused = |error: Option<Error>| match error {
        Some(Error::Shape(text)) => assert_eq!(text, "expected a stream, got a released one"),
        other => panic!("{other:?}"),
    };
    assert!(released.is_released());
    is_refused(released.next().err());
    is_refused(released.schema().err());
    is_refused(select_stream(&mut released, &[]).err());
    assert_eq!(std::mem::size_of::<ArrowArrayStream>(), 40);
}

#[test]
fn chunks_have_the_type_of_the_stream() {
    let made = Stream::of(&numbers(&[]), vec![numbers(&[1]), Column::texts(&[None])]);
    let wanted = "chunk 1: expected the type of the stream, \"l\", got \"u\"";
    assert_eq!(made.unwrap_err(), Error::Shape(wanted.into()));
    let nested = |inner| Column::structs(0, vec![("a", inner)]);
    let texts = nested(Column::texts(&[]));
    assert!(Stream::of(&nested(numbers(&[])), vec![texts]).is_err());
    let two = Column::structs(0, vec![("a", numbers(&[])), ("b", numbers(&[]))]);
    assert!(Stream::of(&nested(numbers(&[])), vec![two]).is_err());
    assert!(Stream::of(&nested(numbers(&[])), vec![nested(numbers(&[]))]).is_ok());
}

#[test]
fn types_with_too_many_columns_are_refused() {
    let wide = |count| {
        let fields = (0..count).map(|_| ("a", numbers(&[]))).collect();
        Column::structs(0, fields)
    };
    assert!(Stream::of(&wide(65_000), vec![wide(65_000)]).is_ok());
    let made = Stream::of(&wide(65_536), vec![wide(65_536)]);
    assert!(matches!(made, Err(Error::Depth(_) | Error::Shape(_))));
}

#[test]
fn the_chunks_of_a_dictionary_have_dictionaries() {
    let field = || vortex_select::arrow::Field {
        format: "c".into(),
        ..Default::default()
    };
    let codes = |values: Option<Column>| {
        let parts: Vec<Option<Box<dyn vortex_select::arrow::Buffer>>> = vec![None, None];
        Column::from_parts(field(), 0, 0, 0, parts, Vec::new(), values).unwrap()
    };
    let words = || Some(Column::texts(&[Some("a")]));
    assert!(Stream::of(&codes(words()), vec![codes(words())]).is_ok());
    assert!(Stream::of(&codes(words()), vec![codes(None)]).is_err());
    assert!(Stream::of(&codes(None), vec![codes(words())]).is_err());
    assert!(Stream::of(&codes(words()), vec![codes(Some(numbers(&[1])))]).is_err());
}

#[test]
fn rows_are_selected_of_all_batches() {
    let source = || stream(&[&[10, 11, 12], &[], &[13, 14]]);
    let picked = |steps: &[Step]| batches(&mut select_stream(&mut source(), steps).unwrap());
    assert_eq!(picked(&[]), [rows(&[10, 11, 12]), rows(&[13, 14])]);
    assert_eq!(picked(&[Step::slice(2, 4)]), [rows(&[12]), rows(&[13])]);
    let steps = [Step::take(&[4, 0, 1, 3])];
    assert_eq!(picked(&steps), [rows(&[14]), rows(&[10, 11]), rows(&[13])]);
    let steps = [Step::take_or_null(&[Some(0), None, Some(4)])];
    assert_eq!(picked(&steps), [vec![Some(10), None], rows(&[14])]);
    assert_eq!(picked(&[Step::slice(0, 0)]), [rows(&[])]);
    let error = select_stream(&mut source(), &[Step::slice(0, 6)]).unwrap_err();
    let wanted = Error::Broken {
        step: 0,
        cause: Cause::BadRange,
        found: 6,
        bound: 5,
        text: "step 0: BadRange: slice 0..6, but 5 rows".into(),
    };
    assert_eq!(error, wanted);
    let error = select_stream(&mut source(), &[Step::filter_bits(&[], 0, 5, None)]).unwrap_err();
    let text = "step 0: expected 1 bytes of values, got 0".into();
    assert_eq!(error, Error::Lacking { step: 0, text });
}

#[test]
fn a_selected_stream_is_nullable_if_a_take_is() {
    let flags = |steps: &[Step]| {
        let rows = crate::raw::changed(numbers(&[1]), |schema| schema.flags = 0, |_| ());
        let mut source = Stream::of(&rows, vec![numbers(&[1])]).unwrap();
        let mut picked = select_stream(&mut source, steps).unwrap();
        schema_of(&picked.schema().unwrap()).flags
    };
    assert_eq!(flags(&[Step::take(&[0])]), 0);
    assert_eq!(flags(&[Step::take_or_null(&[Some(0)])]), 2);
}

/// A producer that fails.
#[derive(Default)]
struct Failing {
    schema: c_int,
    chunks: VecDeque<Column>,
    next: c_int,
    words: Option<CString>,
}

// SAFETY of these four: the stream is made by `failing`, and each is called as the interface says.
unsafe fn of<'a>(stream: *mut sys::ArrowArrayStream) -> &'a mut Failing {
    &mut *(*stream).private_data.cast::<Failing>()
}

extern "C" fn released_schema(_: *mut sys::ArrowSchema) {
    std::process::abort()
}

extern "C" fn released_array(_: *mut sys::ArrowArray) {
    std::process::abort()
}

unsafe extern "C" fn get_schema(
    stream: *mut sys::ArrowArrayStream,
    out: *mut sys::ArrowSchema,
) -> c_int {
    if of(stream).schema == 0 {
        out.cast::<ArrowSchema>().write(numbers(&[]).into_raw().0);
    } else {
        // What isn't a schema, and must not be released.
        (*out).release = Some(released_schema);
    }
    of(stream).schema
}

unsafe extern "C" fn get_next(
    stream: *mut sys::ArrowArrayStream,
    out: *mut sys::ArrowArray,
) -> c_int {
    match of(stream).chunks.pop_front() {
        Some(chunk) => out.cast::<ArrowArray>().write(chunk.into_raw().1),
        None if of(stream).next == 0 => out.cast::<ArrowArray>().write(ArrowArray::empty()),
        None => {
            (*out).release = Some(released_array);
            return of(stream).next;
        }
    }
    0
}

unsafe extern "C" fn get_last_error(stream: *mut sys::ArrowArrayStream) -> *const c_char {
    of(stream)
        .words
        .as_ref()
        .map_or(null(), |words| words.as_ptr())
}

unsafe extern "C" fn release(stream: *mut sys::ArrowArrayStream) {
    drop(Box::from_raw((*stream).private_data.cast::<Failing>()));
    (*stream).release = None;
}

fn failing(producer: Failing) -> Stream {
    let mut raw = ArrowArrayStream::empty();
    // SAFETY: the wrapper has the layout of the struct, which then has all its functions.
    unsafe {
        let fields = &mut *(&mut raw as *mut ArrowArrayStream).cast::<sys::ArrowArrayStream>();
        fields.get_schema = Some(get_schema);
        fields.get_next = Some(get_next);
        fields.get_last_error = Some(get_last_error);
        fields.release = Some(release);
        fields.private_data = Box::into_raw(Box::new(producer)).cast();
        Stream::from_raw(&mut raw)
    }
}

#[test]
fn faults_of_a_source_are_told() {
    let words = || Some(CString::new("the disk is gone").unwrap());
    let told = || Error::Source("the disk is gone".into());
    let untold = |n| {
        Error::Source(format!(
            "the source stream failed with error {n}, and gave no message"
        ))
    };
    for (number, words, wanted) in [
        (5, words(), told()),
        (5, None, untold(5)),
        (-1, None, untold(-1)),
        (12, words(), Error::NoMemory),
        (75, words(), Error::Overflow("the disk is gone".into())),
    ] {
        let mut source = failing(Failing {
            chunks: vec![numbers(&[1])].into(),
            next: number,
            words: words.clone(),
            ..Failing::default()
        });
        assert_eq!(
            source.next().unwrap().unwrap().to_numbers(),
            Some(rows(&[1]))
        );
        assert_eq!(source.next().unwrap_err(), wanted);
        let mut source = failing(Failing {
            schema: number,
            words,
            ..Failing::default()
        });
        assert_eq!(source.schema().unwrap_err(), wanted);
        assert_eq!(source.next().unwrap_err(), wanted);
    }
}

#[test]
fn a_source_that_fails_midway_gives_no_answer() {
    let words = Some(CString::new("the disk is gone").unwrap());
    let mut source = failing(Failing {
        chunks: vec![numbers(&[1]), numbers(&[2])].into(),
        next: 5,
        words: words.clone(),
        ..Failing::default()
    });
    match select_stream(&mut source, &[]).unwrap_err() {
        Error::Source(text) => assert!(text.ends_with("the disk is gone"), "{text}"),
        other => panic!("{other:?}"),
    }
    let mut source = failing(Failing {
        schema: 5,
        ..Failing::default()
    });
    assert!(matches!(
        select_stream(&mut source, &[]),
        Err(Error::Source(_))
    ));
    let chunks = vec![numbers(&[1]), numbers(&[2])].into();
    let mut source = failing(Failing {
        chunks,
        ..Failing::default()
    });
    let mut picked = select_stream(&mut source, &[Step::take(&[1])]).unwrap();
    assert_eq!(batches(&mut picked), [rows(&[2])]);
}

#[test]
fn functions_that_are_missing_are_faults() {
    type Fields = sys::ArrowArrayStream;
    let without = |change: fn(&mut Fields)| {
        let mut raw = stream(&[&[1]]).into_raw();
        // SAFETY: the wrapper has the layout of the struct.
        unsafe {
            change(&mut *(&mut raw as *mut ArrowArrayStream).cast());
            Stream::from_raw(&mut raw)
        }
    };
    assert!(without(|fields| fields.get_next = None).next().is_err());
    assert!(without(|fields| fields.get_schema = None).schema().is_err());
    assert!(without(|fields| fields.get_last_error = None)
        .schema()
        .is_err());
    assert!(select_stream(&mut without(|fields| fields.get_next = None), &[]).is_err());
    assert!(select_stream(&mut without(|fields| fields.get_schema = None), &[]).is_err());
}

#[test]
fn functions_of_a_stream_made_here_say_what_the_interface_asks_for() {
    let mut raw = stream(&[&[1]]).into_raw();
    // SAFETY: the wrapper has the layout of the struct, which isn't released before its end.
    unsafe {
        let fields = (&mut raw as *mut ArrowArrayStream).cast::<sys::ArrowArrayStream>();
        assert!(((*fields).get_last_error.unwrap())(fields).is_null());
        let mut array = sys::ArrowArray::released();
        array.length = 99;
        assert_eq!(((*fields).get_next.unwrap())(fields, &mut array), 0);
        assert_eq!((array.length, array.release.is_some()), (1, true));
        (array.release.unwrap())(&mut array);
        assert_eq!(((*fields).get_next.unwrap())(fields, &mut array), 0);
        assert!(array.release.is_none());
        ((*fields).release.unwrap())(fields);
        assert!((*fields).release.is_none());
    }
}

#[test]
fn a_schema_that_cant_be_copied_is_a_fault_with_words() {
    let deep = (0..70).fold(numbers(&[1]), |column, _| {
        Column::structs(1, vec![("a", column)])
    });
    assert!(matches!(
        Stream::of(&deep, Vec::new()),
        Err(Error::Depth(_))
    ));
}
