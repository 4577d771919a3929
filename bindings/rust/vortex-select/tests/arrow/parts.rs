//! Columns of buffers: each test of a length refuses one byte less.
use crate::building::pairs;
use crate::raw::foreign;
use std::sync::atomic::{AtomicU8, Ordering};
use std::sync::Arc;
use vortex_select::arrow::{select, Buffer, Column, Error, Field, Step};

type Parts = Vec<Option<Vec<u8>>>;

fn field(format: &str) -> Field {
    Field {
        format: format.into(),
        ..Field::default()
    }
}

fn boxed(parts: &Parts) -> Vec<Option<Box<dyn Buffer>>> {
    let boxed = |part: &Vec<u8>| Box::new(part.clone()) as Box<dyn Buffer>;
    parts.iter().map(|part| part.as_ref().map(boxed)).collect()
}

/// Makes a column of three rows behind two others.
fn made(format: &str, parts: &Parts, children: Vec<Column>) -> Result<Column, Error> {
    Column::from_parts(field(format), 3, -1, 2, boxed(parts), children, None)
}

fn narrow(numbers: &[i32]) -> Vec<u8> {
    numbers
        .iter()
        .flat_map(|number| number.to_le_bytes())
        .collect()
}

fn wide(numbers: &[i64]) -> Vec<u8> {
    numbers
        .iter()
        .flat_map(|number| number.to_le_bytes())
        .collect()
}

fn bits() -> Option<Vec<u8>> {
    Some(vec![0b10100])
}

fn items(len: usize) -> Vec<Column> {
    vec![Column::numbers(&vec![Some(1); len])]
}

fn shape(result: Result<Column, Error>) -> String {
    match result {
        Err(Error::Shape(text)) => text,
        other => panic!("{other:?}"),
    }
}

/// The names of the buffers of a format.
fn names_of(format: &str) -> &'static [&'static str] {
    match format {
        "u" | "z" | "U" | "Z" => &["validity", "offsets", "data"],
        "vu" | "vz" => &[
            "validity",
            "views",
            "data",
            "data",
            "lengths of data buffers",
        ],
        "+vl" | "+vL" => &["validity", "offsets", "sizes"],
        "+us:3" | "+ud:3" => &["type ids", "offsets"],
        "+l" | "+L" | "+m" => &["validity", "offsets"],
        _ => &["validity", "values"],
    }
}

/// A format, its buffers for five rows, and its children.
type Example = (&'static str, Parts, fn() -> Vec<Column>);

/// Formats of a fixed width, with the bytes of a value.
#[rustfmt::skip]
const WIDTHS: [(&str, usize); 36] = [
    ("c", 1), ("C", 1), ("s", 2), ("S", 2), ("e", 2), ("i", 4), ("I", 4), ("f", 4), ("l", 8),
    ("L", 8), ("g", 8), ("tdD", 4), ("tdm", 8), ("tts", 4), ("ttm", 4), ("ttu", 8), ("ttn", 8),
    ("tss:", 8), ("tsm:UTC", 8), ("tsu:", 8), ("tsn:", 8), ("tDs", 8), ("tDm", 8), ("tDu", 8),
    ("tDn", 8), ("tiM", 4), ("tiD", 8), ("tin", 16), ("w:0", 0), ("w:3", 3), ("d:9,2", 16),
    ("d:9,-2", 16), ("d:9,2,32", 4), ("d:9,2,64", 8), ("d:9,2,128", 16), ("d:9,2,256", 32),
];

fn string_formats() -> Vec<Example> {
    let none: fn() -> Vec<Column> = Vec::new;
    let data = || Some(b"abc".to_vec());
    let ends = || Some(narrow(&[0, 1, 1, 2, 2, 3]));
    let wide_ends = || Some(wide(&[0, 0, 0, 0, 0, 3]));
    let views = || Some(vec![0; 80]);
    let two = || {
        vec![
            bits(),
            views(),
            Some(vec![1; 7]),
            Some(vec![2; 3]),
            Some(wide(&[7, 3])),
        ]
    };
    vec![
        ("u", vec![bits(), ends(), data()], none),
        ("z", vec![None, ends(), data()], none),
        ("U", vec![bits(), wide_ends(), data()], none),
        ("Z", vec![bits(), wide_ends(), data()], none),
        ("vu", two(), none),
        ("vz", two(), none),
        ("vu", vec![None, views(), None], none),
    ]
}

fn nested_formats() -> Vec<Example> {
    let ends = || Some(narrow(&[0, 1, 1, 2, 2, 3]));
    let places = || Some(narrow(&[0; 5]));
    let wide_places = || Some(wide(&[0; 5]));
    let ids = || Some(vec![0; 5]);
    vec![
        ("+s", vec![bits()], || items(5)),
        ("+l", vec![bits(), ends()], || items(3)),
        ("+m", vec![bits(), ends()], || items(3)),
        ("+L", vec![bits(), Some(wide(&[0, 0, 0, 0, 0, 3]))], || {
            items(3)
        }),
        ("+w:2", vec![bits()], || items(10)),
        ("+vl", vec![bits(), places(), places()], || items(0)),
        ("+vL", vec![bits(), wide_places(), wide_places()], || {
            items(0)
        }),
        ("+us:3", vec![ids()], || items(5)),
        ("+ud:3", vec![ids(), places()], || items(1)),
    ]
}

fn formats() -> Vec<Example> {
    let none: fn() -> Vec<Column> = Vec::new;
    let fixed = |(name, width): &(&'static str, usize)| -> Example {
        (*name, vec![bits(), Some(vec![0; 5 * width])], none)
    };
    let others = vec![
        ("n", Vec::new(), none),
        ("b", vec![bits(), Some(vec![1])], none),
    ];
    let all = WIDTHS.iter().map(fixed).chain(others);
    all.chain(string_formats())
        .chain(nested_formats())
        .collect()
}

#[test]
fn buffers_are_as_long_as_the_format_asks_for_and_none_is_shorter() {
    for (format, parts, children) in formats() {
        let column = made(format, &parts, children()).unwrap_or_else(|e| panic!("{format}: {e}"));
        assert_eq!((column.len(), column.node().offset()), (3, 2), "{format}");
        let wanted: Vec<_> = parts.iter().map(|part| part.as_deref()).collect();
        assert_eq!(column.node().buffers().unwrap(), wanted, "{format}");
        for k in 0..parts.len() {
            let mut shorter = parts.clone();
            if let Some(part) = shorter[k].as_mut().filter(|part| !part.is_empty()) {
                part.pop();
                let text = shape(made(format, &shorter, children()));
                let len = parts[k].as_ref().unwrap().len();
                let (name, short) = (names_of(format)[k], len - 1);
                let wanted = format!("{name}: expected {len} bytes, got {short}");
                assert_eq!(text, wanted, "{format}");
            }
        }
    }
}

#[test]
fn buffers_that_are_longer_are_read_as_far_as_is_needed() {
    for (format, parts, children) in formats()
        .into_iter()
        .filter(|(of, ..)| !of.starts_with('v'))
    {
        let mut longer = parts.clone();
        for part in longer.iter_mut().flatten() {
            part.extend([0xff; 9]);
        }
        let column = made(format, &longer, children()).unwrap();
        let wanted: Vec<_> = parts.iter().map(|part| part.as_deref()).collect();
        assert_eq!(column.node().buffers().unwrap(), wanted, "{format}");
    }
}

#[test]
fn there_are_as_many_buffers_as_the_format_has() {
    for (format, parts, children) in formats() {
        let mut more = parts.clone();
        more.push(None);
        if !format.starts_with('v') {
            assert!(shape(made(format, &more, children())).starts_with("buffers: expected"));
        }
        if let Some(fewer) = parts.len().checked_sub(1) {
            let found = made(format, &parts[..fewer].to_vec(), children());
            assert!(matches!(found, Err(Error::Shape(_))), "{format}");
        }
    }
    let two = vec![None, Some(vec![0; 80])];
    assert_eq!(
        shape(made("vu", &two, Vec::new())),
        "buffers: expected 3 or more, got 2"
    );
}

#[test]
fn a_buffer_that_is_needed_is_there() {
    for (format, parts, children) in formats() {
        for k in 0..parts.len() {
            let mut lacking = parts.clone();
            let is_needed = lacking[k].take().map_or(false, |part| !part.is_empty());
            let is_validity = k == 0 && !format.starts_with("+u");
            let found = made(format, &lacking, children());
            assert_eq!(found.is_err(), is_needed && !is_validity, "{format} {k}");
        }
    }
}

#[test]
fn there_are_as_many_children_as_the_format_has() {
    for (format, parts, children) in formats() {
        let more: Vec<Column> = children().into_iter().chain(items(10)).collect();
        if format == "+s" {
            assert!(made(format, &parts, more).is_ok());
            assert!(made(format, &parts, Vec::new()).is_ok());
            continue;
        }
        let count = children().len();
        let wanted = format!("children: expected {count}, got {}", count + 1);
        assert_eq!(shape(made(format, &parts, more)), wanted, "{format}");
        if count == 1 {
            assert!(made(format, &parts, Vec::new()).is_err(), "{format}");
        }
    }
}

#[test]
fn children_have_the_rows_that_the_column_leads_to() {
    for (format, parts, children) in formats() {
        let needed = match children().first().map(Column::len) {
            Some(len) if len > 0 && !format.starts_with("+ud") => len,
            _ => continue,
        };
        let found = shape(made(format, &parts, items(needed - 1)));
        let wanted = format!("expected at least {needed} rows, got {}", needed - 1);
        assert!(
            found.starts_with("child 0") && found.ends_with(&wanted),
            "{format}: {found}"
        );
        assert!(made(format, &parts, items(needed + 1)).is_ok());
    }
}

/// Formats that Arrow doesn't have.
#[rustfmt::skip]
const WRONG: [&str; 41] = [
    "", "x", "ll", "+", "+r", "+x", "w:", "w:-1", "w:+1", "w:2147483648", "w:1 ", "d:", "d:9",
    "d:9,", "d:,2", "d:9,2,", "d:9,2,100", "d:9,2,64,1", "d:9,--2", "ts", "tss", "tsx:", "td",
    "tdd", "ti", "+w:", "+w:x", "+us", "+us:128", "+us:1,1", "+us:1,", "+us:,1", "+us:1,,2",
    "+ud:x", "+ud:-1", "+ud:+1", "+ud: 1", "vx", "u ", "n ", "b1",
];

#[test]
fn formats_that_arrow_lacks_are_refused() {
    for format in WRONG {
        let found = Column::from_parts(field(format), 0, 0, 0, Vec::new(), Vec::new(), None);
        let wanted = format!("expected a format of Arrow, got {format:?}");
        assert_eq!(found.unwrap_err(), Error::Format(wanted));
    }
    let found = Column::from_parts(field("l\0"), 0, 0, 0, Vec::new(), Vec::new(), None);
    assert!(matches!(found, Err(Error::Format(_))));
    assert!(Column::from_parts(field("+us:"), 0, 0, 0, vec![None], Vec::new(), None).is_ok());
    assert!(Column::from_parts(
        field("+us:127,0"),
        0,
        0,
        0,
        vec![None],
        items(0).into_iter().chain(items(0)).collect(),
        None
    )
    .is_ok());
}

#[test]
fn offsets_that_are_negative_are_refused() {
    for (format, ends) in [
        ("u", narrow(&[0, 0, 0, 0, 0, -1])),
        ("U", wide(&[0, 0, 0, 0, 0, -1])),
    ] {
        let found = made(
            format,
            &vec![None, Some(ends), Some(vec![0; 9])],
            Vec::new(),
        );
        let wanted = "offsets: expected a last offset of 0 or more, got -1";
        assert_eq!(found.unwrap_err(), Error::NoMeaning(wanted.into()));
    }
    for (format, ends) in [
        ("+l", narrow(&[0, 0, 0, 0, 0, -1])),
        ("+L", wide(&[0, 0, 0, 0, 0, -1])),
    ] {
        let found = made(format, &vec![None, Some(ends)], items(9));
        assert!(matches!(found, Err(Error::NoMeaning(_))));
    }
    let huge = wide(&[0, 0, 0, 0, 0, i64::MAX]);
    let found = made(
        "U",
        &vec![None, Some(huge.clone()), Some(vec![0; 9])],
        Vec::new(),
    );
    assert!(shape(found).ends_with("bytes, got 9"));
    assert!(made("+L", &vec![None, Some(huge)], items(9)).is_err());
}

#[test]
fn lengths_of_data_buffers_are_numbers_within_them() {
    let views = |lengths: Option<Vec<u8>>| {
        let parts = vec![None, Some(vec![0; 80]), Some(vec![0; 7]), lengths];
        made("vu", &parts, Vec::new())
    };
    assert!(views(Some(wide(&[7]))).is_ok());
    assert_eq!(
        shape(views(Some(wide(&[8])))),
        "data: expected 8 bytes, got 7"
    );
    let negative = "lengths of data buffers: expected 0 or more, got -1";
    assert_eq!(shape(views(Some(wide(&[-1])))), negative);
    let short = "lengths of data buffers: expected 8 bytes, got 7";
    assert_eq!(shape(views(Some(vec![0; 7]))), short);
    assert_eq!(
        shape(views(None)),
        "lengths of data buffers: expected 8 bytes, got null"
    );
}

#[test]
fn rows_are_fewer_than_memory_could_hold() {
    let nulls =
        |len, offset| Column::from_parts(field("n"), len, -1, offset, Vec::new(), Vec::new(), None);
    assert!(nulls((1 << 60) - 1, 0).is_ok() && nulls(1, (1 << 60) - 2).is_ok());
    for (len, offset) in [
        (1 << 60, 0),
        (0, 1 << 60),
        (1, (1 << 60) - 1),
        (usize::MAX, usize::MAX),
    ] {
        assert!(shape(nulls(len, offset)).starts_with("length: expected rows from 0 up to 2^60"));
    }
    let long = |format: &str, parts: &Parts| {
        let rows = (1 << 60) - 1;
        Column::from_parts(field(format), rows, -1, 0, boxed(parts), Vec::new(), None)
    };
    let values = vec![None, Some(vec![0; 8])];
    assert_eq!(
        shape(long("l", &values)),
        "values: expected 9223372036854775800 bytes, got 8"
    );
    for format in ["w:9", "tin", "w:999999999"] {
        let found = shape(long(format, &values));
        assert_eq!(found, "values: expected fewer than 2^63 bytes, got more");
    }
    assert!(shape(long("u", &vec![None, Some(vec![0; 8]), None])).ends_with("bytes, got 8"));
}

#[test]
fn offsets_of_no_rows_may_have_no_bytes() {
    for parts in [vec![None, None, None], vec![None, Some(Vec::new()), None]] {
        for format in ["u", "U"] {
            let parts = boxed(&parts);
            let column = Column::from_parts(field(format), 0, 0, 0, parts, Vec::new(), None);
            assert_eq!(column.unwrap().len(), 0);
        }
    }
    let lists = Column::from_parts(field("+l"), 0, 0, 0, vec![None, None], items(0), None);
    assert_eq!(lists.unwrap().len(), 0);
}

#[test]
fn nulls_are_counted_where_there_is_a_validity() {
    let counted = |null_count, valid: Option<Vec<u8>>| {
        let parts = boxed(&vec![valid, Some(vec![0; 24])]);
        Column::from_parts(field("l"), 3, null_count, 0, parts, Vec::new(), None)
    };
    for (null_count, valid) in [(-1, None), (0, None), (0, bits()), (3, bits())] {
        assert_eq!(
            counted(null_count, valid).unwrap().node().null_count(),
            null_count
        );
    }
    let lacking = "validity: expected a buffer for 1 nulls, got none";
    assert_eq!(shape(counted(1, None)), lacking);
    assert_eq!(
        shape(counted(4, bits())),
        "null count: expected -1 or up to 3, got 4"
    );
    assert_eq!(
        shape(counted(-2, bits())),
        "null count: expected -1 or up to 3, got -2"
    );
    let union = boxed(&vec![Some(vec![0; 3])]);
    let union = Column::from_parts(field("+us:0"), 3, 1, 0, union, items(3), None);
    assert_eq!(shape(union), lacking);
}

#[test]
fn fields_are_tested() {
    let named = |name: &str, metadata: Option<Vec<u8>>| {
        let field = Field {
            format: "n".into(),
            name: name.into(),
            flags: 6,
            metadata,
        };
        Column::from_parts(field, 0, 0, 0, Vec::new(), Vec::new(), None)
    };
    assert_eq!(
        shape(named("a\0b", None)),
        "name: expected no byte 0, got one at 1"
    );
    let whole = pairs(&[("key", "value"), ("", "")]);
    let mut longer = whole.clone();
    longer.push(1);
    for metadata in [&whole, &longer] {
        let column = named("é", Some(metadata.clone())).unwrap();
        let node = column.node();
        assert_eq!(
            (node.name(), node.flags(), node.metadata()),
            ("é".into(), 6, Some(&whole[..]))
        );
    }
    for whole in [whole, pairs(&[("key", "value")])] {
        for len in 0..whole.len() {
            let text = shape(named("a", Some(whole[..len].to_vec())));
            assert_eq!(
                text,
                "metadata: expected a count and as many pairs, got fewer bytes"
            );
        }
    }
    for hostile in [
        narrow(&[-1]),
        narrow(&[1, -1, 0]),
        narrow(&[i32::MAX]),
        narrow(&[1, i32::MAX, 0]),
    ] {
        assert!(named("a", Some(hostile)).is_err());
    }
}

#[test]
fn dictionaries_are_of_integer_codes() {
    let words = || Column::texts(&[Some("a"), Some("b")]);
    for (format, parts, children) in formats() {
        let parts = boxed(&parts);
        let made = Column::from_parts(field(format), 3, -1, 2, parts, children(), Some(words()));
        assert_eq!(made.is_ok(), "cCsSiIlL".contains(format), "{format}");
    }
    let codes = boxed(&vec![None, Some(vec![1, 0, 1])]);
    let column = Column::from_parts(field("C"), 3, 0, 0, codes, Vec::new(), Some(words()));
    let mut column = column.unwrap();
    let picked = select(&mut column, &[Step::take(&[2, 1])]).unwrap();
    drop(column);
    assert_eq!(picked.node().buffers().unwrap()[1], Some(&[1, 0][..]));
    let values = picked.node().dictionary().unwrap();
    assert_eq!((values.format(), values.len()), ("u", 2));
}

#[test]
fn released_children_are_refused() {
    let released = || {
        let (mut schema, mut array) = Column::numbers(&[Some(1)]).into_raw();
        // SAFETY: both are those of a column.
        let first = unsafe { Column::from_raw(&mut schema, &mut array) };
        drop(first);
        // SAFETY: both are released now.
        unsafe { Column::from_raw(&mut schema, &mut array) }
    };
    let made = Column::from_parts(field("+s"), 0, 0, 0, vec![None], vec![released()], None);
    assert_eq!(
        shape(made),
        "child 0: expected a column, got a released one"
    );
    let codes = boxed(&vec![None, Some(Vec::new())]);
    let made = Column::from_parts(field("c"), 0, 0, 0, codes, Vec::new(), Some(released()));
    assert_eq!(
        shape(made),
        "dictionary: expected a column, got a released one"
    );
}

/// Memory that isn't where numbers of its size begin.
struct Unaligned(Vec<u8>);

// SAFETY: the bytes stay in their place, and nothing writes to them.
unsafe impl Buffer for Unaligned {
    fn data(&self) -> *const u8 {
        self.0[1..].as_ptr()
    }

    fn size(&self) -> usize {
        self.0.len() - 1
    }
}

#[test]
fn memory_neednt_be_aligned() {
    let unaligned = |bytes: Vec<u8>| -> Option<Box<dyn Buffer>> {
        Some(Box::new(Unaligned([vec![0], bytes].concat())))
    };
    let numbers = vec![None, unaligned(wide(&[5, -6, 7]))];
    let numbers = Column::from_parts(field("l"), 2, 0, 1, numbers, Vec::new(), None).unwrap();
    assert_eq!(numbers.to_numbers(), Some(vec![Some(-6), Some(7)]));
    let texts = vec![
        None,
        unaligned(narrow(&[0, 1, 3])),
        unaligned(b"abc".to_vec()),
    ];
    let mut texts = Column::from_parts(field("u"), 2, 0, 0, texts, Vec::new(), None).unwrap();
    assert_eq!(texts.to_texts(), Some(vec![Some("a"), Some("bc")]));
    let picked = select(&mut texts, &[Step::take(&[1, 0])]).unwrap();
    assert_eq!(picked.to_texts(), Some(vec![Some("bc"), Some("a")]));
}

/// A buffer at no place.
struct Nowhere;

// SAFETY: there are no bytes to be read.
unsafe impl Buffer for Nowhere {
    fn data(&self) -> *const u8 {
        std::ptr::null()
    }

    fn size(&self) -> usize {
        99
    }
}

#[test]
fn a_buffer_at_a_null_pointer_is_none() {
    let nowhere = || -> Option<Box<dyn Buffer>> { Some(Box::new(Nowhere)) };
    let numbers = |len| {
        Column::from_parts(
            field("l"),
            len,
            0,
            0,
            vec![None, nowhere()],
            Vec::new(),
            None,
        )
    };
    assert_eq!(shape(numbers(1)), "values: expected 8 bytes, got null");
    assert_eq!(numbers(0).unwrap().node().buffers().unwrap(), [None, None]);
}

#[test]
fn a_column_of_parts_is_shared_and_checked() {
    for (format, parts, children) in formats() {
        let mut column = made(format, &parts, children()).unwrap();
        let shared = foreign(column.share().unwrap());
        let picked = select(&mut column, &[Step::take(&[0])]);
        drop(column);
        let wanted: Vec<_> = parts.iter().map(|part| part.as_deref()).collect();
        assert_eq!(shared.node().buffers().unwrap(), wanted, "{format}");
        assert_eq!(shared.node().format(), format);
        if format != "+us:3" && format != "+ud:3" {
            assert_eq!(picked.unwrap().len(), 1, "{format}");
        }
    }
}

/// Memory that others write to.
struct Changing(Arc<Vec<AtomicU8>>);

// SAFETY: the bytes stay in their place, and the buffer says that they may change.
unsafe impl Buffer for Changing {
    fn data(&self) -> *const u8 {
        self.0.as_ptr().cast()
    }

    fn size(&self) -> usize {
        self.0.len()
    }

    fn may_change(&self) -> bool {
        true
    }
}

/// No bytes, which may change.
struct Null;

// SAFETY: no bytes are readable at any place.
unsafe impl Buffer for Null {
    fn data(&self) -> *const u8 {
        std::ptr::null()
    }

    fn size(&self) -> usize {
        0
    }

    fn may_change(&self) -> bool {
        true
    }
}

#[test]
fn a_null_buffer_that_may_change_stays_null() {
    let made = |len| {
        let buffers: Vec<Option<Box<dyn Buffer>>> = vec![None, Some(Box::new(Null)), None];
        Column::from_parts(field("u"), len, 0, 0, buffers, Vec::new(), None)
    };
    assert_eq!(shape(made(1)), "offsets: expected 8 bytes, got null");
    let empty = made(0).unwrap();
    assert!(empty.node().buffers().unwrap().iter().all(Option::is_none));
}

#[test]
fn buffers_that_lead_to_others_may_change_later() {
    for (format, parts, children) in formats() {
        let shared: Vec<Option<Arc<Vec<AtomicU8>>>> = parts
            .iter()
            .map(|part| {
                let bytes = part.as_ref()?.iter().map(|byte| AtomicU8::new(*byte));
                Some(Arc::new(bytes.chain([AtomicU8::new(9)]).collect()))
            })
            .collect();
        let buffer = |of: &Option<Arc<Vec<AtomicU8>>>| -> Option<Box<dyn Buffer>> {
            Some(Box::new(Changing(of.clone()?)))
        };
        let buffers = shared.iter().map(buffer).collect();
        let column = Column::from_parts(field(format), 3, -1, 2, buffers, children(), None);
        let column = column.unwrap();
        for byte in shared.iter().flatten().flat_map(|bytes| bytes.iter()) {
            byte.store(0xff, Ordering::SeqCst);
        }
        let found = column.node().buffers().unwrap();
        for (k, (part, found)) in parts.iter().zip(found).enumerate() {
            let leads = !["validity", "values", "data"].contains(&names_of(format)[k]);
            let changed = part.as_ref().map(|part| vec![0xff; part.len()]);
            let wanted = if leads { part } else { &changed };
            assert_eq!(found, wanted.as_deref(), "{format} {k}");
        }
    }
}

#[test]
fn the_length_of_one_data_buffer_may_change_later() {
    let shared = |bytes: Vec<u8>| Arc::new(bytes.into_iter().map(AtomicU8::new).collect());
    let boxed = |of: &Arc<Vec<AtomicU8>>| -> Option<Box<dyn Buffer>> {
        Some(Box::new(Changing(of.clone())))
    };
    let (views, data, lengths) = (shared(vec![0; 16]), shared(vec![1; 7]), shared(wide(&[7])));
    let buffers = vec![None, boxed(&views), boxed(&data), boxed(&lengths)];
    let column = Column::from_parts(field("vu"), 1, 0, 0, buffers, Vec::new(), None).unwrap();
    for byte in lengths.iter() {
        byte.store(0xff, Ordering::SeqCst);
    }
    let found = column.node().buffers().unwrap();
    assert_eq!(found[3], Some(&wide(&[7])[..]));
    assert_eq!(found[2].map(<[u8]>::len), Some(7));
}
