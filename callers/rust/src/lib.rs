//! The placement of a recorder pool by Random Slicing: safe calls of the static library libgorvyts.a.
//!
//! A pool is given by its [`Image`]. A change gives the image of the changed pool and the moves that lead
//! to it; nothing is held between two calls. [`calls`] has the same calls over buffers that the caller
//! lends, as `gorvyts.h` has them.
//!
//! ```
//! use gorvyts::{Image, IntervalRow, Refusal, Tally};
//!
//! let one = Image::fresh(100, 16)?.add(1, 1000)?.image;
//! let change = one.add(2, 1000)?;
//! assert_eq!(change.moved, 50);
//! assert_eq!(change.image.owner(99), Ok(2));
//! assert_eq!(change.image.share(2), Ok(50));
//! assert_eq!(change.image.report(2)?.difference, 0);
//! assert_eq!(change.image.intervals()[1], IntervalRow { start: 50, length: 50, owner: 2 });
//!
//! let mut tally = Tally::default();
//! let copies = change.image.copies(7, 2, &mut tally)?;
//! assert_eq!(copies.owners.len(), 2);
//! assert_eq!(change.image.owner(100), Err(Refusal::PointPastRange));
//!
//! let opened = change.image.open();
//! assert_eq!(opened.owner(99), Ok(2));
//! assert_eq!(opened.copies(7, 2, &mut tally)?, copies);
//! # Ok::<(), Refusal>(())
//! ```

#![deny(unsafe_code)]
#![deny(missing_docs)]

#[cfg(not(target_arch = "x86_64"))]
compile_error!("libgorvyts.a is for x86-64");

pub mod calls;
mod image;
mod raw;
mod refusal;

pub use image::{
    transcript, Change, Copies, DeviceRow, Image, IntervalRow, Move, Numbers, Opened, Report, Tally,
};
pub use refusal::Refusal;
