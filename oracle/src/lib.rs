//! The Rust's own tracker as a reference: event lines in, answers and whole states out.
//!
//! `tracker` is the source's text, derived at build time, over the `standins`. `calls`
//! has the table of calls, `fields` reads and writes their values, `state` is plain data,
//! `program` is the event program, `sound` tests a state
//! without the tracker's help, `image` writes and reads the bytes of a store, `random`
//! makes states. README.md names what is derived and what stands in, and which part is
//! there without the source.

pub mod calls;
pub mod fields;
pub mod image;
pub mod listing;
#[cfg(feature = "source")]
pub mod program;
pub mod random;
pub mod read;
pub mod sound;
pub mod standins;
pub mod state;
#[cfg(feature = "source")]
#[allow(dead_code, unused_imports, clippy::all)]
pub mod tracker;
pub mod write;

#[cfg(feature = "source")]
pub use tracker::machine::Machine;
