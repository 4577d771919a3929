//! Columns as they are read: structs that aren't what they should be lead nowhere.
use crate::raw::{changed, with_array};
use std::ptr::null_mut;
use vortex_select::arrow::{Column, Error};

fn words() -> Column {
    Column::texts(&[Some("a"), Some("bcd"), None])
}

/// The column with other offsets.
fn with_offsets(offsets: &'static [i32; 4]) -> Column {
    with_array(words(), |array| {
        // SAFETY: the array has three buffers.
        unsafe { *array.buffers.add(1) = offsets.as_ptr().cast() }
    })
}

#[test]
fn buffers_end_where_the_last_offset_says() {
    let column = words();
    let node = column.node();
    let buffers = node.buffers().unwrap();
    assert_eq!(buffers[2].unwrap(), b"abcd");
    assert_eq!((node.len(), node.offset(), node.null_count()), (3, 0, 1));
    let column = with_array(words(), |array| array.length = 1);
    assert_eq!(column.node().buffers().unwrap()[2].unwrap(), b"a");
    assert_eq!(column.to_texts(), Some(vec![Some("a")]));
    let column = with_array(words(), |array| {
        array.offset = 1;
        array.length = 1;
    });
    assert_eq!(column.to_texts(), Some(vec![Some("bcd")]));
}

#[test]
fn a_negative_last_offset_is_an_error() {
    let column = with_offsets(&[0, 1, 2, -1]);
    assert_eq!(column.to_texts(), None);
    let wanted = "offsets: expected a last offset of 0 or more, got -1";
    assert_eq!(
        column.node().buffers(),
        Err(Error::NoMeaning(wanted.into()))
    );
    assert_eq!(with_offsets(&[0, 1, 2, i32::MIN]).to_texts(), None);
}

#[test]
fn offsets_that_descend_or_pass_the_last_one_give_no_rows() {
    for offsets in [
        &[0, 2, 1, 4],
        &[0, -1, 4, 4],
        &[-1, 1, 4, 4],
        &[0, 9, 9, 4],
        &[2, 1, 1, 4],
    ] {
        assert_eq!(with_offsets(offsets).to_texts(), None, "{offsets:?}");
    }
    assert!(with_offsets(&[0, 2, 3, 4]).to_texts().is_some());
}

#[test]
fn texts_that_arent_utf_8_give_no_rows() {
    let column = Column::texts(&[Some("é")]);
    assert_eq!(column.to_texts(), Some(vec![Some("é")]));
    let column = with_array(Column::texts(&[Some("é"), Some("a")]), |array| {
        static OFFSETS: [i32; 3] = [0, 1, 3];
        // SAFETY: the array has three buffers.
        unsafe { *array.buffers.add(1) = OFFSETS.as_ptr().cast() }
    });
    assert_eq!(column.to_texts(), None);
}

#[test]
fn null_pointers_are_no_buffers() {
    for (k, is_there) in [(0, true), (1, false), (2, true)] {
        let column = with_array(words(), |array| {
            // SAFETY: the array has three buffers.
            unsafe { *array.buffers.add(k) = null_mut() }
        });
        assert_eq!(column.node().buffers().is_ok(), is_there, "{k}");
    }
    let column = with_array(words(), |array| array.buffers = null_mut());
    let wanted = Error::Shape("buffers: expected a list, got null".into());
    assert_eq!(column.node().buffers(), Err(wanted));
    let column = with_array(Column::numbers(&[Some(5)]), |array| {
        // SAFETY: the array has two buffers.
        unsafe { *array.buffers.add(1) = null_mut() }
    });
    assert_eq!(column.node().buffers().unwrap(), [None, None]);
    assert_eq!(column.to_numbers(), None);
}

#[test]
fn numbers_that_are_negative_are_errors() {
    for (length, offset) in [(-1, 0), (1, -1), (i64::MAX, 1), (i64::MIN, 0), (1 << 60, 0)] {
        let column = with_array(words(), |array| {
            array.length = length;
            array.offset = offset;
        });
        assert!(
            matches!(column.node().buffers(), Err(Error::Shape(_))),
            "{length} {offset}"
        );
        assert_eq!(column.to_texts(), None);
        assert_eq!(column.len(), usize::try_from(length).unwrap_or(0));
        assert_eq!(column.node().offset(), usize::try_from(offset).unwrap_or(0));
    }
    for count in [-1, 2, 4, i64::MIN] {
        let column = with_array(words(), |array| array.n_buffers = count);
        assert!(
            matches!(column.node().buffers(), Err(Error::Shape(_))),
            "{count}"
        );
    }
}

#[test]
fn children_that_disagree_are_none() {
    let people = || Column::structs(1, vec![("a", Column::numbers(&[Some(1)]))]);
    assert_eq!(people().node().children().len(), 1);
    for count in [0, -1, 2] {
        let column = with_array(people(), |array| array.n_children = count);
        assert!(column.node().children().is_empty());
        assert!(column.into_children().is_empty());
    }
    let column = changed(
        people(),
        |schema| schema.n_children = -1,
        |array| array.n_children = -1,
    );
    assert!(column.node().children().is_empty());
    let column = with_array(people(), |array| array.children = null_mut());
    assert!(column.node().children().is_empty());
    let column = changed(people(), |schema| schema.children = null_mut(), |_| ());
    assert!(column.into_children().is_empty());
}

#[test]
fn children_at_null_pointers_are_released() {
    static NONE: [usize; 1] = [0];
    let people = || Column::structs(1, vec![("a", Column::numbers(&[Some(1)]))]);
    let list = NONE.as_ptr();
    for column in [
        changed(people(), |schema| schema.children = list as *mut _, |_| ()),
        with_array(people(), |array| array.children = list as *mut _),
    ] {
        assert!(column.node().children()[0].is_released());
        let children = column.into_children();
        assert!(children.len() == 1 && children[0].is_released());
    }
}

#[test]
fn released_children_have_nothing() {
    let people = Column::structs(1, vec![("a", Column::numbers(&[Some(1)]))]);
    let people = with_array(people, |array| {
        // SAFETY: the array has a child, which isn't released.
        let child = unsafe { &mut **array.children };
        let release = child.release.unwrap();
        // SAFETY: as above.
        unsafe { release(child) }
        assert!(child.release.is_none());
    });
    let child = people.node().children()[0];
    assert!(child.is_released() && !people.node().is_released());
    assert_eq!(
        (child.len(), child.null_count(), child.children().len()),
        (0, 0, 0)
    );
    assert!(matches!(child.buffers(), Err(Error::Shape(_))));
    let child = people.into_children().pop().unwrap();
    assert!(child.is_released());
}

#[test]
fn formats_and_names_may_be_null() {
    let column = changed(words(), |schema| schema.format = null_mut(), |_| ());
    assert_eq!((column.node().format(), column.to_texts()), ("", None));
    assert!(matches!(column.node().buffers(), Err(Error::Format(_))));
    let column = changed(words(), |schema| schema.name = null_mut(), |_| ());
    assert_eq!(column.node().name(), "");
    let column = changed(
        words(),
        |schema| schema.name = b"\xffa\0".as_ptr().cast(),
        |_| (),
    );
    assert_eq!(column.node().name(), "\u{fffd}a");
    let column = changed(
        words(),
        |schema| schema.format = b"\xff\0".as_ptr().cast(),
        |_| (),
    );
    assert_eq!(column.node().format(), "");
}

#[test]
fn metadata_with_negative_numbers_is_none() {
    for (metadata, is_there) in [
        (&[0i32, 0, 0][..], true),
        (&[-1, 0, 0], false),
        (&[1, 0, 0], true),
        (&[1, -1, 0], false),
        (&[1, 0, -1], false),
    ] {
        let column = changed(
            words(),
            |schema| schema.metadata = metadata.as_ptr().cast(),
            |_| (),
        );
        assert_eq!(column.node().metadata().is_some(), is_there, "{metadata:?}");
    }
    assert_eq!(words().node().metadata(), None);
}

#[test]
fn a_list_of_buffers_that_is_null_is_refused() {
    let structs = || Column::structs(1, vec![("age", Column::numbers(&[Some(1)]))]);
    for column in [structs(), Column::numbers(&[Some(1)])] {
        let column = with_array(column, |array| array.buffers = std::ptr::null_mut());
        assert_eq!(
            column.node().buffers().unwrap_err().to_string(),
            "buffers: expected a list, got null"
        );
    }
}

#[test]
fn validity_has_a_bit_for_each_row() {
    let rows: Vec<_> = (0..17)
        .map(|k| if k % 3 == 0 { None } else { Some(k) })
        .collect();
    let column = Column::numbers(&rows);
    assert_eq!(column.to_numbers(), Some(rows.clone()));
    assert_eq!(column.node().buffers().unwrap()[0].unwrap().len(), 3);
    let column = with_array(column, |array| {
        array.offset = 7;
        array.length = 9;
    });
    assert_eq!(column.to_numbers(), Some(rows[7..16].to_vec()));
    assert_eq!(column.node().buffers().unwrap()[0].unwrap().len(), 2);
}

/// A column of views with these bytes in its last view, over seven bytes of data.
fn with_view(words: [i32; 4]) -> Column {
    let column = Column::text_views(&[Some("a"), Some("a string of 17 by")]);
    with_array(column, |array| {
        // SAFETY: the views are 32 bytes of a list that the column owns.
        unsafe {
            let views = (*array.buffers.add(1)).cast_mut_u8();
            views.add(16).cast::<[i32; 4]>().write_unaligned(words);
        }
    })
}

trait CastMut {
    fn cast_mut_u8(self) -> *mut u8;
}

impl CastMut for *const std::ffi::c_void {
    fn cast_mut_u8(self) -> *mut u8 {
        self as *mut u8
    }
}

#[test]
fn views_lead_within_their_buffers() {
    for (words, is_within) in [
        ([17, 0, 0, 0], true),
        ([16, 0, 0, 1], true),
        ([13, 0, 0, 4], true),
        ([17, 0, 0, 1], false),
        ([18, 0, 0, 0], false),
        ([17, 0, 1, 0], false),
        ([17, 0, -1, 0], false),
        ([17, 0, 0, -1], false),
        ([i32::MAX, 0, 0, i32::MAX], false),
        ([-1, 0, 0, 0], false),
        ([12, 0, 0, 0], true),
        ([0, -1, -1, -1], true),
    ] {
        assert_eq!(
            with_view(words).to_texts().is_some(),
            is_within,
            "{words:?}"
        );
    }
}

#[test]
fn a_null_row_is_read_nowhere() {
    let column = Column::text_views(&[Some("a string of 17 by"), None]);
    let column = with_array(column, |array| {
        // SAFETY: the views are 32 bytes of a list that the column owns.
        unsafe {
            let views = (*array.buffers.add(1)).cast_mut_u8();
            views
                .add(16)
                .cast::<[i32; 4]>()
                .write_unaligned([99, -1, -1, -1]);
        }
    });
    assert_eq!(
        column.to_texts(),
        Some(vec![Some("a string of 17 by"), None])
    );
}

#[test]
fn ranges_and_places_that_are_negative_give_no_rows() {
    static NEGATIVE: [i32; 2] = [0, -1];
    for k in [1, 2] {
        let lists = Column::list_views(&[Some(0..1), Some(0..0)], Column::numbers(&[None]));
        let lists = with_array(lists, |array| {
            // SAFETY: the array has three buffers.
            unsafe { *array.buffers.add(k) = NEGATIVE.as_ptr().cast() }
        });
        assert_eq!(lists.to_ranges(), None);
    }
    let union = || Column::unions(&[(0, 0), (0, 0)], vec![("a", Column::numbers(&[None]))]);
    let places = with_array(union(), |array| {
        // SAFETY: the array has two buffers.
        unsafe { *array.buffers.add(1) = NEGATIVE.as_ptr().cast() }
    });
    assert_eq!(places.to_chosen(), None);
    let ids = with_array(union(), |array| {
        // SAFETY: the array has two buffers.
        unsafe { *array.buffers = NEGATIVE.as_ptr().cast::<u8>().add(3).cast() }
    });
    assert_eq!(ids.to_chosen(), None);
}
