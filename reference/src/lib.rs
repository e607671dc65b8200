//! The reference: program files read, written, analyzed and edited a second time, apart from the
//! proved library.
//!
//! It is plain and slow on purpose. Every judgement looks at all the frames that came before it,
//! and nothing is remembered in a cleverer form. The comparisons in `tests/` hold the proved
//! library against it, number by number and byte by byte.
//!
//! - `model` is the second implementation.
//! - `generate` makes what both are tried on, from a seed.
//! - `cases` has what is known by name, with the answers worked out by hand.

pub mod cases;
pub mod generate;
pub mod model;
