//! A second engine for bid sheets, written in plain Rust from document 01, with requests S-1, S-2 and S-4 to S-8 of document 02 (of S-8 with d + 1 for its d + 2), and from nothing else.
//!
//! The proved library needs someone to disagree with. `engine` answers the fourteen calls over the same bytes and is written for speed,
//! so that it serves the benchmark too; `slow` says the same by trying everything, as the document words it; `random` makes the
//! sheets on which they are compared.

#![forbid(unsafe_code)]
#![deny(missing_docs)]

pub mod engine;
pub mod random;
pub mod slow;

mod best;
mod canonical;
mod fill;
mod loss;
mod read;
mod rivals;
mod terms;
