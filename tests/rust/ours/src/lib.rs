//! The calls of the crate `groatpocket` with the header's parameters and their numbers for answers, as `rules` has them.
//!
//! A call whose feature is off panics: ask `has` first. Where the archive is for another processor `bridge` stands in for
//! it and the calls go through an emulator; times say nothing then (`BRIDGED`).

#[allow(dead_code)]
#[cfg(linked)]
mod answers;
#[cfg(bridge)]
mod bridge;
#[cfg(bridge)]
#[rustfmt::skip]
mod bridge_calls;
#[rustfmt::skip]
mod calls;
pub mod null;
#[cfg(all(feature = "floats", not(bridge)))]
#[rustfmt::skip]
mod floats;

pub use calls::*;

/// Whether the calls run under an emulator.
pub const BRIDGED: bool = cfg!(bridge);

/// Whether the archive's calls of a stage are linked.
pub mod has {
    pub const FLOATS: bool = cfg!(feature = "floats");
    pub const BACKDROP: bool = cfg!(feature = "backdrop");
    pub const HAND_OUT: bool = cfg!(feature = "hand_out");
    pub const COUNT: bool = cfg!(feature = "count");
    pub const TILE: bool = cfg!(feature = "tile");
    pub const FILL: bool = cfg!(feature = "fill");
    pub const FINE: bool = cfg!(feature = "fine");
    pub const FRAME: bool = cfg!(feature = "frame");
    pub const LISTS: bool = cfg!(feature = "lists");
    pub const PICTURE: bool = cfg!(feature = "picture");
    pub const PIXEL: bool = cfg!(feature = "pixel");
    pub const OUTLINES: bool = cfg!(feature = "outlines");
    pub const RECOUNT: bool = cfg!(feature = "recount");
    pub const BOXES: bool = cfg!(feature = "boxes");
    pub const CHECK: bool = cfg!(feature = "check");
    pub const SIZES: bool = cfg!(feature = "sizes");
    pub const SVG: bool = cfg!(feature = "svg");
    pub const BANDS: bool = cfg!(feature = "bands");
    pub const PRESENT: bool = cfg!(feature = "present");
    pub const DRAW: bool = cfg!(feature = "draw");
}

/// A float helper over many operands; the numbers are those of the list of floats (01 floor .. 20 clamp).
pub fn many(helper: u32, xs: [&[u32]; 3], out: &mut [u32]) {
    #[cfg(bridge)]
    bridge::many(helper, xs, out);
    #[cfg(all(feature = "floats", not(bridge)))]
    for (k, o) in out.iter_mut().enumerate() {
        *o = floats::one(helper, [xs[0][k], xs[1][k], xs[2][k]]);
    }
    #[cfg(not(feature = "floats"))]
    panic!("helper {helper:02x} of {} and {} operands isn't linked", xs.len(), out.len());
}
