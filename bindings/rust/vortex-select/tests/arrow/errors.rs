//! Errors: which one it is, and what it says.
use vortex_select::arrow::{picks, select, Cause, Column, Error, Field, Number, Step};

/// An invalid step over two rows, its cause, the two numbers, and the words.
fn invalid_steps() -> Vec<(Step<'static>, Cause, i128, u64, &'static str)> {
    let numbers = |number, bytes| Step::take_numbers(number, bytes, 0, 1, None);
    vec![
        (
            Step::slice(1, 3),
            Cause::BadRange,
            3,
            2,
            "BadRange: slice 1..3, but 2 rows",
        ),
        (
            Step::slice(2, 1),
            Cause::BadRange,
            2,
            1,
            "BadRange: slice 2..1 starts after its end",
        ),
        (
            Step::filter(&[true]),
            Cause::BadMask,
            1,
            2,
            "BadMask: mask of length 1, but 2 rows",
        ),
        (
            Step::filter(&[true; 3]),
            Cause::BadMask,
            3,
            2,
            "BadMask: mask of length 3, but 2 rows",
        ),
        (
            Step::take(&[2]),
            Cause::OutOfBounds,
            2,
            2,
            "OutOfBounds: index 2, but 2 rows",
        ),
        (
            Step::take(&[0, u64::MAX]),
            Cause::OutOfBounds,
            i128::from(u64::MAX),
            2,
            "OutOfBounds: index 18446744073709551615, but 2 rows",
        ),
        (
            Step::take_or_null(&[None, Some(7)]),
            Cause::OutOfBounds,
            7,
            2,
            "OutOfBounds: index 7, but 2 rows",
        ),
        (
            numbers(Number::I8, &[0xff]),
            Cause::OutOfBounds,
            -1,
            2,
            "OutOfBounds: index -1, but 2 rows",
        ),
        (
            numbers(Number::F64, &[0; 8]),
            Cause::InvalidIndices,
            10,
            0,
            "InvalidIndices: expected integers as indices, got f64",
        ),
        (
            numbers(Number::F16, &[0; 2]),
            Cause::InvalidIndices,
            8,
            0,
            "InvalidIndices: expected integers as indices, got f16",
        ),
    ]
}

#[test]
fn an_invalid_step_is_reported_with_its_numbers() {
    let mut rows = Column::numbers(&[Some(1), Some(2)]);
    for (step, cause, found, bound, words) in invalid_steps() {
        let steps = [Step::slice(0, 2), step];
        let error = select(&mut rows, &steps).unwrap_err();
        let text = format!("step 1: {words}");
        assert_eq!(error.to_string(), text);
        let wanted = Error::Broken {
            step: 1,
            cause,
            found,
            bound,
            text,
        };
        assert_eq!(error, wanted);
        assert_eq!(picks(2, &steps).unwrap_err(), error);
    }
}

/// A malformed step over nine rows, and its error in words.
fn malformed_steps() -> Vec<(Step<'static>, &'static str)> {
    let filter = Step::filter_bits;
    let take = Step::take_numbers;
    let (u8, u16, u64) = (Number::U8, Number::U16, Number::U64);
    vec![
        (
            filter(&[0xff], 0, 9, None),
            "expected 2 bytes of values, got 1",
        ),
        (
            filter(&[0xff; 2], 8, 9, None),
            "expected 3 bytes of values, got 2",
        ),
        (
            filter(&[0xff; 2], 0, 9, Some(&[0xff])),
            "expected 2 bytes of validity, got 1",
        ),
        (
            filter(&[0xff; 2], 0, 9, Some(&[])),
            "expected 2 bytes of validity, got 0",
        ),
        (
            take(u16, &[0; 3], 0, 2, None),
            "expected 4 bytes of values, got 3",
        ),
        (
            take(u16, &[0; 4], 1, 2, None),
            "expected 6 bytes of values, got 4",
        ),
        (
            take(u8, &[0; 9], 0, 9, Some(&[0xff])),
            "expected 2 bytes of validity, got 1",
        ),
        (
            take(u8, &[0; 2], 0, 2, Some(&[])),
            "expected 1 bytes of validity, got 0",
        ),
        (
            take(u8, &[0; 2], 1, 0, Some(&[])),
            "expected 1 bytes of validity, got 0",
        ),
        (
            take(u64, &[0; 8], usize::MAX, 2, None),
            "expected an offset and a length below 2^63 together, got more",
        ),
    ]
}

#[test]
fn a_malformed_step_is_reported_with_its_numbers() {
    let mut numbers = Column::numbers(&[Some(1); 9]);
    for (step, words) in malformed_steps() {
        let steps = [Step::slice(0, 9), step];
        let error = select(&mut numbers, &steps).unwrap_err();
        let text = format!("step 1: {words}");
        assert_eq!(error.to_string(), text);
        assert_eq!(error, Error::Lacking { step: 1, text });
        assert_eq!(picks(9, &steps).unwrap_err(), error);
    }
}

#[test]
fn strings_that_are_too_many_for_their_offsets_are_refused() {
    let long = "x".repeat(1 << 20);
    let mut texts = Column::texts(&[Some(&long)]);
    let error = select(&mut texts, &[Step::take(&[0; 1 << 11])]).unwrap_err();
    assert!(matches!(error, Error::Overflow(_)), "{error}");
    assert!(error.to_string().contains("2^31"), "{error}");
}

/// A column with a field under a format that the shim doesn't know.
fn with_format(format: &'static [u8]) -> Column {
    let people = Column::structs(1, vec![("age", Column::numbers(&[Some(1)]))]);
    crate::raw::changed(
        people,
        // SAFETY: the schema has one child.
        |schema| unsafe { (**schema.children).format = format.as_ptr().cast() },
        |_| (),
    )
}

#[test]
fn an_unknown_format_is_named_with_its_column() {
    for error in [
        select(&mut with_format(b"+r\0"), &[]).unwrap_err(),
        with_format(b"+r\0").check().unwrap_err(),
    ] {
        match &error {
            Error::Format(text) => {
                assert!(text.starts_with("age"), "{text}");
                assert!(text.contains("+r"), "{text}");
                assert!(!text.contains('\0'), "{text:?}");
            }
            other => panic!("{other:?}"),
        }
        assert!(matches!(&error, Error::Format(text) if *text == error.to_string()));
    }
}

#[test]
fn contents_that_arent_valid_are_found_by_check() {
    let parts: Vec<Option<Box<dyn vortex_select::arrow::Buffer>>> = vec![
        None,
        Some(Box::new([0i32, 2, 1, 3].map(i32::to_le_bytes).concat())),
        Some(Box::new(b"abc".to_vec())),
    ];
    let field = Field {
        format: "u".into(),
        name: "word".into(),
        ..Field::default()
    };
    let mut texts = Column::from_parts(field, 3, 0, 0, parts, Vec::new(), None).unwrap();
    match texts.check().unwrap_err() {
        Error::NoMeaning(text) => assert!(text.starts_with("word offsets"), "{text}"),
        other => panic!("{other:?}"),
    }
    assert_eq!(texts.to_texts(), None);
    assert_eq!(Column::texts(&[Some("a"), None]).check(), Ok(()));
}

#[test]
fn a_struct_that_isnt_what_its_format_says_is_refused() {
    let mut lacking = crate::raw::with_array(Column::numbers(&[Some(1)]), |a| a.n_buffers = 1);
    assert!(matches!(lacking.check(), Err(Error::Shape(_))));
    let error = select(&mut lacking, &[]).unwrap_err();
    assert!(matches!(&error, Error::Shape(text) if *text == error.to_string() && !text.is_empty()));
}

#[test]
fn a_null_pick_of_a_union_is_refused() {
    let mut union = Column::unions(&[(0, 0)], vec![("a", Column::numbers(&[Some(1)]))]);
    let error = select(&mut union, &[Step::take_or_null(&[None])]).unwrap_err();
    assert!(
        matches!(&error, Error::NullPick(text) if *text == error.to_string()),
        "{error}"
    );
}

#[test]
fn picks_that_dont_fit_are_out_of_memory() {
    assert_eq!(picks(1 << 59, &[]).unwrap_err(), Error::NoMemory);
    assert_eq!(Error::NoMemory.to_string(), "out of memory");
    assert_eq!(
        Error::Beyond.to_string(),
        "expected selected rows within the rows, got one past"
    );
}
