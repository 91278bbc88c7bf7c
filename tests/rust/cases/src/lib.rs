//! Inputs for the runs: a seeded generator of numbers, boxes, lines, segments and command lists.
//!
//! Everything follows from a seed, so that a failure can be run again by its seed and number.

pub mod boxes;
pub mod commands;
pub mod floats;
pub mod lines;
pub mod memory;
pub mod rng;
pub mod scene;
pub mod segments;
pub mod texts;

pub use rng::Rng;
