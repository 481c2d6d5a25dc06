//! A second opinion on the proved code. `streams` says what the documents ask for, `proved` calls the archive, and
//! `compare` holds every answer and every byte of the one against the other. `steps` has the directions of both models.
//! `decoder` is a second decoder, which `decoding` takes through a whole stream, and `account` holds it to the law;
//! `replay` plays scripts of `crates/replay` on it. `script` writes these, the stored one too, and random lists of calls;
//! `image` has the windows that they edit. `stages` counts the steps of merging stages, and `tightest` has
//! rounds with long ones. `benchmark` makes its tables; `dense` and `sparse` are decoders for it, a plain and a fast one.
//! `cases`, `random` and `noise` make inputs, and `tally` and `covered` count what came of them; `repository` finds files.

pub mod account;
pub mod benchmark;
pub mod cases;
pub mod compare;
pub mod covered;
pub mod decoder;
pub mod decoding;
pub mod dense;
pub mod image;
pub mod noise;
pub mod proved;
pub mod random;
pub mod replay;
pub mod repository;
pub mod script;
pub mod sparse;
pub mod stages;
pub mod steps;
pub mod streams;
pub mod tally;
pub mod tightest;
