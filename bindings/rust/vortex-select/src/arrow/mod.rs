//! Selection over columns in Arrow's memory, by Arrow's C Data Interface.
//!
//! ```
//! use vortex_select::arrow::{select, Column, Error, Step};
//!
//! let mut names = Column::texts(&[Some("ann"), None, Some("bo"), Some("cy")]);
//! let steps = [Step::filter(&[true, true, false, true]), Step::take_or_null(&[Some(2), None])];
//! let picked = select(&mut names, &steps)?;
//! assert_eq!(picked.to_texts(), Some(vec![Some("cy"), None]));
//! # Ok::<(), Error>(())
//! ```
//!
//! Threads: all types of this module are `Send`, and all but [`Stream`] and [`ArrowArrayStream`] are
//! `Sync`. So a column may be moved to another thread and read by several. A call that replaces the
//! structs of a column takes it by `&mut`.
mod building;
mod column;
mod empty;
mod error;
mod formats;
mod held;
mod interface;
mod joining;
mod layout;
mod metadata;
mod node;
mod parts;
mod picks;
mod reading;
mod steps;
mod stream;
mod views;

pub use column::{select, select_arrow, Column};
pub use error::{Cause, Error};
pub use interface::{ArrowArray, ArrowArrayStream, ArrowSchema};
pub use joining::{concatenate, interleave, Span};
pub use node::Node;
pub use parts::{Buffer, Field};
pub use picks::{picks, Picks};
pub use steps::{Number, Step};
pub use stream::{select_stream, Stream};

/// All types may be sent to another thread, and all but streams may be shared.
const _: () = {
    const fn is_send<T: Send>() {}
    const fn is_shared<T: Send + Sync>() {}
    is_shared::<Column>();
    is_shared::<Node<'static>>();
    is_shared::<Step<'static>>();
    is_shared::<Picks>();
    is_shared::<Error>();
    is_shared::<ArrowSchema>();
    is_shared::<ArrowArray>();
    is_send::<ArrowArrayStream>();
    is_send::<Stream>();
};
