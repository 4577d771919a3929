//! Rows out of a store that is read chunk by chunk, such as a file of compressed chunks.
//!
//! Each chunk with a selected row is read exactly once, and no other chunk is read.
//!
//! ```
//! use vortex_select::arrow::Step;
//! use vortex_select::chunks::{select_chunks, Error, Source};
//!
//! /// Ten rows of a byte, in chunks of four: row k is 100 + k.
//! struct Numbers;
//!
//! impl Source for Numbers {
//!     type Error = std::io::Error;
//!
//!     fn rows(&self) -> u64 {
//!         10
//!     }
//!
//!     fn chunk_len(&self) -> u64 {
//!         4
//!     }
//!
//!     fn width(&self) -> usize {
//!         1
//!     }
//!
//!     fn read(&self, k: u64, rows: &mut [u8]) -> std::io::Result<()> {
//!         for (row, number) in rows.iter_mut().zip(4 * k as u8..) {
//!             *row = 100 + number;
//!         }
//!         Ok(())
//!     }
//! }
//!
//! let picked = select_chunks(&Numbers, &[Step::slice(1, 10), Step::take(&[8, 0, 8])])?;
//! assert_eq!(picked.bytes, [109, 101, 109]); // chunks 0 and 2 were read
//! # Ok::<(), Error<std::io::Error>>(())
//! ```
mod error;
mod plan;
mod reading;

pub use error::{Error, Fault};
pub use plan::{Chunk, Plan};
pub use reading::{select_chunks, select_chunks_by_threads, Rows, Source};
