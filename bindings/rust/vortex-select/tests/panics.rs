//! Masks and lists of another length than what they belong to.
#![forbid(unsafe_code)]
use std::panic::{catch_unwind, AssertUnwindSafe};
use vortex_select::{
    filter, filter_bits, filter_by, filter_in_place, filter_in_place_by, take_bits_valid,
    take_into, take_valid, take_valid_u32, Bits, Mask,
};

/// Expects that a call panics with words that contain these.
fn panics(words: &str, call: impl FnOnce()) {
    let panic = catch_unwind(AssertUnwindSafe(call)).expect_err(words);
    let said = panic.downcast_ref::<String>().expect("a string");
    assert!(said.contains(words), "{said}");
}

#[test]
fn a_filter_takes_a_mask_of_its_values() {
    let words = "the mask must be as long as the values";
    for len in [0, 2, 4, 70] {
        let mask = Mask::from_bools(&vec![true; len]);
        let bits = Bits::from(&mask);
        let mut values = vec![1u32, 2, 3];
        panics(words, || drop(filter(&[1u32, 2, 3], &mask)));
        panics(words, || drop(filter_by(&[1u32, 2, 3], bits)));
        panics(words, || filter_in_place(&mut values, &mask));
        panics(words, || filter_in_place_by(&mut values, bits));
        assert_eq!(values, [1, 2, 3]);
    }
}

#[test]
fn a_filter_of_bits_takes_a_mask_of_these_bits() {
    let src = Mask::from_bools(&[true; 3]);
    for len in [0, 2, 4, 70] {
        let mask = Mask::from_bools(&vec![true; len]);
        panics("the mask must be as long as the bits", || {
            drop(filter_bits(Bits::from(&src), Bits::from(&mask)))
        });
    }
}

#[test]
fn a_take_with_nulls_has_a_mask_of_its_indices() {
    let words = "the mask must be as long as the indices";
    let src = Mask::from_bools(&[true; 3]);
    for len in [0, 1, 3, 70] {
        let there = Mask::from_bools(&vec![true; len]);
        panics(words, || drop(take_valid(&[7u16, 8], &[0, 1], &there)));
        panics(words, || drop(take_valid_u32(&[7u16, 8], &[0, 1], &there)));
        panics(words, || {
            drop(take_bits_valid(Bits::from(&src), &[0, 1], &there))
        });
    }
}

#[test]
fn a_take_into_a_list_has_room_for_each_index() {
    for len in [0, 1, 3] {
        let mut dst = vec![5u8; len];
        panics("dst must be as long as the indices", || {
            take_into(&[7u8, 8], &[0, 1], &mut dst).unwrap()
        });
        assert_eq!(dst, vec![5; len]);
    }
}
