//! The calls of `gorvyts.h` over lent buffers of any length.
//!
//! Each returns 0 or a refusal number. Results stand in the first places of `answer` or `row`. On a refusal
//! the places of `answer` are zeros; of a row, the first is the number that is returned, the last is 256
//! where that is 12, and the others are zeros. Where there are too few places a call returns 17 and stores
//! nothing at all. Beside those places a refused call leaves every value, and places past a result stay.
//!
//! A change takes 0.4 MB of stack, a lookup, a report or a list of rows 0.2 MB: the main thread has them, and so has a thread
//! that `std::thread` makes (2 MB). A lookup of an opened pool takes 4 KB. `gorvyts.h` has the figures.

pub use crate::raw::{add, check, copies, copies_in, copies_of_many, devices, fresh, intervals, numbers};
pub use crate::raw::{open, owner, owner_in, remove, replay, report, resize, share, transcript};

/// The bytes of the largest image.
pub const IMAGE_MOST: usize = 26_131;

/// The bytes that every transcript fits in.
pub const TRANSCRIPT_ROOM: usize = 3_145_728;

/// The most moves of a change.
pub const MOVES_MOST: usize = 8_448;

/// The most devices of a pool.
pub const DEVICES_MOST: usize = 256;

/// The most intervals of a pool.
pub const INTERVALS_MOST: usize = 4_096;

/// The largest capacity, in thousandths of a TB.
pub const CAPACITY_MOST: u64 = 16_000_000;

/// The places of the arrays of an opened pool.
pub const PLACES: usize = 4_096;
