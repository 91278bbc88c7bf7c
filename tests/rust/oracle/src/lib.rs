//! The Rust that is ported, compiled unchanged, behind safe calls over the panel's slices.
//!
//! Panics (overflow, index, assertion, unknown command) are caught and given as `Stopped`; build with the
//! profile `checked` so that overflow is one. Endless jumps aren't caught: run only command lists that end.
#![allow(dead_code, unused_imports, unused_variables, clippy::all)]

extern crate self as vello_encoding;

mod calls;
mod cpu;
mod records;

pub use calls::*;
pub use cpu::{CpuTexture, CMD_COLOR, CMD_END, CMD_FILL, CMD_JUMP, CMD_SOLID};
pub use records::*;

/// Whether the ported source was found when this was built.
pub const AT_HAND: bool = cfg!(at_hand);

/// The folder where it was found; none where it wasn't.
pub const FOLDER: &str = env!("ORACLE_FOLDER");

/// The status with which a program ends that needs the source and hasn't it.
pub const NOT_AT_HAND: i32 = 3;

/// Whether it is an altered copy, of the self-test: nothing that it shows counts.
pub const ALTERED: bool = cfg!(altered);
