//! Document 01 in plain Rust, with Wishes 1, 2 and 4 of document 02, written from their text alone: what the library's
//! calls must answer.
//!
//! | Module | Sections of document 01 |
//! |---|---|
//! | `sha1` | FIPS 180-4, sections 4 to 6 |
//! | `pool` | Pool and range, Shares, One change |
//! | `lookup` | Points and copies |
//! | `image` | Image |
//! | `history` | History text |
//! | `calls` | the calls of `gorvyts.h` over lent buffers |
//!
//! A refusal is its number; the order of checks is that of 'Where a call stops'.

// Each test program uses a part.
#![allow(dead_code)]

pub mod calls;
pub mod history;
pub mod image;
pub mod lookup;
pub mod pool;
pub mod sha1;
