//! The structs of Arrow's C interfaces, released when they are dropped.
use vortex_select_sys::arrow as sys;

/// `struct ArrowSchema` of Arrow's C Data Interface, which is released when it is dropped.
///
/// A pointer to another crate's `ArrowSchema` can be cast to a pointer to this one.
#[repr(transparent)]
#[derive(Debug)]
pub struct ArrowSchema(pub(super) sys::ArrowSchema);

/// `struct ArrowArray` of Arrow's C Data Interface, which is released when it is dropped.
///
/// A pointer to another crate's `ArrowArray` can be cast to a pointer to this one.
#[repr(transparent)]
#[derive(Debug)]
pub struct ArrowArray(pub(super) sys::ArrowArray);

/// `struct ArrowArrayStream` of Arrow's C Stream Interface, which is released when it is dropped.
///
/// A pointer to another crate's `ArrowArrayStream` can be cast to a pointer to this one.
#[repr(transparent)]
#[derive(Debug)]
pub struct ArrowArrayStream(pub(super) sys::ArrowArrayStream);

// SAFETY: the interface lets a consumer move a struct to another thread and release it there.
unsafe impl Send for ArrowSchema {}
// SAFETY: as above.
unsafe impl Send for ArrowArray {}
// SAFETY: as above. One thread at a time calls its functions, since they take it by `&mut`.
unsafe impl Send for ArrowArrayStream {}

// SAFETY: a shared reference only reads the struct and what it leads to. Nothing writes to these
// while the reference lives: sharing and releasing take the struct by `&mut` or by value.
unsafe impl Sync for ArrowSchema {}
// SAFETY: as above.
unsafe impl Sync for ArrowArray {}

macro_rules! released_by_drop {
    ($($kind:ident)+) => {$(
        impl $kind {
            /// Returns a released struct, which holds nothing.
            pub fn empty() -> Self {
                $kind(sys::$kind::released())
            }

            /// Returns whether the struct is released.
            pub fn is_released(&self) -> bool {
                self.0.release.is_none()
            }

            /// Moves the struct out of its place, and marks it as released there.
            ///
            /// # Safety
            /// The pointer leads to a struct as the interface has it, which is released or owned
            /// by the caller.
            pub(super) unsafe fn moved_out(place: *mut Self) -> Self {
                // SAFETY: the pointer leads to a struct.
                unsafe { std::ptr::replace(place, $kind::empty()) }
            }
        }

        impl Drop for $kind {
            fn drop(&mut self) {
                if let Some(release) = self.0.release {
                    // SAFETY: the producer handed the struct over, to be released once.
                    unsafe { release(&mut self.0) }
                }
            }
        }
    )+};
}

released_by_drop!(ArrowSchema ArrowArray ArrowArrayStream);
