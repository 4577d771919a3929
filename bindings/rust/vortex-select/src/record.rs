use crate::Bits;
use std::mem::{align_of, size_of, MaybeUninit};
use vortex_select_sys::kernels::{self, Answer};

mod sealed {
    pub trait Sealed {}
}

/// A value of 1, 2, 4, 8, 16 or 32 bytes: a number, or an array of numbers.
///
/// The trait can't be implemented for other types, and has no methods to call:
///
/// ```compile_fail,E0576
/// #![forbid(unsafe_code)]
/// use vortex_select::Record;
///
/// let place = 8 as *mut u64;
/// <u64 as Record>::filter(&[0xdead], &[1], place, 1);
/// ```
///
/// ```compile_fail,E0599
/// #![forbid(unsafe_code)]
/// use vortex_select::Record;
///
/// fn write<T: Record>(values: &[T], place: *mut T) {
///     T::filter(values, &[1], place, 1);
/// }
/// ```
///
/// ```compile_fail,E0277
/// #[derive(Clone, Copy)]
/// struct Mine(bool);
///
/// impl vortex_select::Record for Mine {}
/// ```
pub trait Record: Copy + sealed::Sealed {}

/// The library has functions for the size of each type, and the type is aligned at least as their
/// records are. Any bytes are a value of the type.
macro_rules! records {
    ($($item:ty)+) => {$(
        const _: () = assert!(matches!(size_of::<$item>(), 1 | 2 | 4 | 8 | 16 | 32));
        const _: () = assert!(align_of::<$item>() == size_of::<$item>() || size_of::<$item>() > 8);
        const _: () = assert!(align_of::<$item>() >= 8 || size_of::<$item>() < 8);
        impl sealed::Sealed for $item {}
        impl Record for $item {}
    )+};
}

records!(u8 i8 u16 i16 u32 i32 f32 u64 i64 f64 usize isize u128 i128 [u64; 2] [u64; 4]);

/// Calls the function for the size of the type.
macro_rules! by_size {
    ($item:ty: $_1:ident $_2:ident $_4:ident $_8:ident $_16:ident $_32:ident $args:tt) => {
        match size_of::<$item>() {
            1 => kernels::$_1 $args,
            2 => kernels::$_2 $args,
            4 => kernels::$_4 $args,
            8 => kernels::$_8 $args,
            16 => kernels::$_16 $args,
            32 => kernels::$_32 $args,
            size => unreachable!("a record of {size} bytes"),
        }
    };
}

/// Returns the memory of values as memory that needn't be initialized.
///
/// # Safety
/// Only values are written into it.
pub(crate) unsafe fn unwritten<T: Record>(values: &mut [T]) -> &mut [MaybeUninit<T>] {
    let (place, len) = (values.as_mut_ptr().cast(), values.len());
    // SAFETY: the same memory, borrowed for the same time.
    unsafe { std::slice::from_raw_parts_mut(place, len) }
}

pub(crate) fn filter<T: Record>(src: &[T], mask: Bits, dst: &mut [MaybeUninit<T>]) -> Answer {
    let (s, n) = (src.as_ptr(), src.len());
    let (w, m, at) = mask.parts();
    let (d, room) = (dst.as_mut_ptr(), dst.len());
    // SAFETY: each pointer is a slice's, with its length, and `dst` is borrowed alone, so that it
    // overlaps no other list.
    unsafe {
        by_size!(T: vortex_filter_1 vortex_filter_2 vortex_filter_4 vortex_filter_8
            vortex_filter_16 vortex_filter_32 (s.cast(), n, w, m, at, d.cast(), room))
    }
}

pub(crate) fn filter_in_place<T: Record>(values: &mut [T], mask: Bits) -> Answer {
    let (v, n) = (values.as_mut_ptr(), values.len());
    let (w, m, at) = mask.parts();
    // SAFETY: as in `filter`. The call only moves values, so each item stays a value.
    unsafe {
        by_size!(T: vortex_filter_in_place_1 vortex_filter_in_place_2 vortex_filter_in_place_4
            vortex_filter_in_place_8 vortex_filter_in_place_16 vortex_filter_in_place_32
            (v.cast(), n, w, m, at))
    }
}

pub(crate) fn take<T: Record>(
    src: &[T],
    indices: &[u64],
    valid: &[u64],
    dst: &mut [MaybeUninit<T>],
) -> Answer {
    let (s, n, i, k) = (src.as_ptr(), src.len(), indices.as_ptr(), indices.len());
    let (v, m, d, room) = (valid.as_ptr(), valid.len(), dst.as_mut_ptr(), dst.len());
    // SAFETY: as in `filter`.
    unsafe {
        by_size!(T: vortex_take_1 vortex_take_2 vortex_take_4 vortex_take_8 vortex_take_16
            vortex_take_32 (s.cast(), n, i, k, v, m, d.cast(), room))
    }
}

pub(crate) fn take_front<T: Record>(
    src: &[T],
    indices: &[u64],
    valid: &[u64],
    dst: &mut [MaybeUninit<T>],
) -> Answer {
    let (s, n, i, k) = (src.as_ptr(), src.len(), indices.as_ptr(), indices.len());
    let (v, m, d, room) = (valid.as_ptr(), valid.len(), dst.as_mut_ptr(), dst.len());
    // SAFETY: as in `filter`.
    unsafe {
        by_size!(T: vortex_take_front_1 vortex_take_front_2 vortex_take_front_4
            vortex_take_front_8 vortex_take_front_16 vortex_take_front_32
            (s.cast(), n, i, k, v, m, d.cast(), room))
    }
}
