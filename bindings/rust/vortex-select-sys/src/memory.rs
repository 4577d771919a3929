//! The memory that the libraries allocate, by Rust's allocator.
use std::alloc::{alloc, dealloc, realloc, Layout};
use std::ptr::null_mut;

/// A block of memory, or none.
#[repr(C)]
pub struct Block {
    is_there: usize,
    place: *mut u8,
}

// The library passes the size of a block when it grows, and not when it is freed: the bytes before
// each block hold it.
const HEAD: usize = 16;

const NONE: Block = Block {
    is_there: 0,
    place: null_mut(),
};

/// Blocks of so many bytes, 4 MiB, or more are large.
const LARGE: usize = 4 << 20;

// The flag of Linux's `madvise` that asks for huge pages.
#[cfg(target_os = "linux")]
const MADV_HUGEPAGE: i32 = 14;

#[cfg(target_os = "linux")]
extern "C" {
    fn madvise(place: *mut u8, size: usize, advice: i32) -> i32;
}

/// Asks Linux for huge pages under a large block, as `shim/pages.h` does. An error is ignored, since
/// the block serves without them.
#[cfg(target_os = "linux")]
fn advise_pages(place: *mut u8, size: usize) {
    const PAGE: usize = 4096;
    let head = (PAGE - place as usize % PAGE) % PAGE;
    if !place.is_null() && size >= LARGE {
        // SAFETY: the range is within the block. The advice changes no byte of it.
        unsafe {
            madvise(
                place.wrapping_add(head),
                (size - head) / PAGE * PAGE,
                MADV_HUGEPAGE,
            )
        };
    }
}

#[cfg(not(target_os = "linux"))]
fn advise_pages(_place: *mut u8, _size: usize) {}

fn layout(size: usize) -> Option<Layout> {
    Layout::from_size_align(size.checked_add(HEAD)?, HEAD).ok()
}

/// Returns the block behind the head of memory that has a head and `size` bytes, or none.
///
/// # Safety
/// The pointer is null, or leads to so much memory, aligned for a head.
unsafe fn block_of(whole: *mut u8, size: usize) -> Block {
    if whole.is_null() {
        return NONE;
    }
    // SAFETY: the memory has a head, which is long enough and aligned for a number.
    unsafe { whole.cast::<usize>().write(size) };
    Block {
        is_there: 1,
        // SAFETY: the memory has a head, and the block begins behind it.
        place: unsafe { whole.add(HEAD) },
    }
}

/// Returns the head of a block, and the layout that it was allocated by.
///
/// # Safety
/// The pointer leads to a block that `block_of` made and that isn't freed.
unsafe fn whole_of(place: *mut u8) -> (*mut u8, Option<Layout>) {
    // SAFETY: a block has a head before it, which holds its size.
    let whole = unsafe { place.sub(HEAD) };
    // SAFETY: as above.
    let size = unsafe { whole.cast::<usize>().read() };
    (whole, layout(size))
}

// SAFETY of the names: no other item of a link has them. If a caller links another allocator, the
// linker reports it. The libraries call the functions by these types.
#[no_mangle]
unsafe extern "C" fn rattle_alloc(size: usize, _align: usize) -> Block {
    let layout = match layout(size) {
        Some(layout) => layout,
        None => return NONE,
    };
    // SAFETY: the layout has a head's bytes, so it isn't empty.
    let whole = unsafe { alloc(layout) };
    advise_pages(whole, layout.size());
    // SAFETY: the memory is null, or has the layout's bytes.
    unsafe { block_of(whole, size) }
}

#[no_mangle]
unsafe extern "C" fn rattle_dealloc(place: *mut u8) {
    // SAFETY: the library frees a block that it was given, once.
    let (whole, taken) = unsafe { whole_of(place) };
    if let Some(layout) = taken {
        // SAFETY: the memory was allocated by this layout.
        unsafe { dealloc(whole, layout) };
    }
}

#[no_mangle]
unsafe extern "C" fn rattle_realloc(
    place: *mut u8,
    _old: usize,
    size: usize,
    _align: usize,
) -> Block {
    // SAFETY: the library grows a block that it was given and has not freed.
    let (whole, taken) = unsafe { whole_of(place) };
    let (old, new) = match (taken, layout(size)) {
        (Some(old), Some(new)) => (old, new),
        _ => return NONE,
    };
    // SAFETY: the memory was allocated by the old layout; the new one has the same alignment and
    // isn't empty.
    let grown = unsafe { realloc(whole, old, new.size()) };
    // A block keeps the advice when it grows on. To advise it each time costs more than it saves.
    if old.size() < LARGE {
        advise_pages(grown, new.size());
    }
    // SAFETY: the memory is null, or has the new layout's bytes.
    unsafe { block_of(grown, size) }
}
