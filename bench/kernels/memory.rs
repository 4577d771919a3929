//! The memory that the library asks for, from that of Rust.
use std::alloc::{Layout, alloc, dealloc, realloc};

/// A block of memory, or none.
#[repr(C)]
pub struct Block {
    is_there: usize,
    place: *mut u8,
}

// The library says a block's size when it grows, and not when it is let go: the bytes before
// each block hold it.
const HEAD: usize = 16;

unsafe fn block_of(whole: *mut u8, size: usize) -> Block {
    if whole.is_null() {
        return Block { is_there: 0, place: whole };
    }
    unsafe {
        *(whole as *mut usize) = size;
        Block { is_there: 1, place: whole.add(HEAD) }
    }
}

fn layout(size: usize) -> Layout {
    Layout::from_size_align(size + HEAD, HEAD).expect("a size that can be had")
}

#[unsafe(no_mangle)]
pub unsafe extern "C" fn rattle_alloc(size: usize, _align: usize) -> Block {
    unsafe { block_of(alloc(layout(size)), size) }
}

#[unsafe(no_mangle)]
pub unsafe extern "C" fn rattle_dealloc(place: *mut u8) {
    unsafe {
        let whole = place.sub(HEAD);
        dealloc(whole, layout(*(whole as *mut usize)));
    }
}

#[unsafe(no_mangle)]
pub unsafe extern "C" fn rattle_realloc(
    place: *mut u8,
    _old: usize,
    size: usize,
    _align: usize,
) -> Block {
    unsafe {
        let whole = place.sub(HEAD);
        block_of(realloc(whole, layout(*(whole as *mut usize)), size + HEAD), size)
    }
}
