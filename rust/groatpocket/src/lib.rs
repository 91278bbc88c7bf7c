//! Safe calls of Groatpocket, a tile rasterizer in which every function is proved.
//!
//! Slices are lent, and the borrow rules stand for the lent memory. A call answers `Ok`, or an
//! `Err` with the refusal and the number of the item refused; what is refused changes nothing, and
//! what came before it stands. The rules are in `docs/RULES.md`, what is proved of each call in
//! `docs/PROMISES.md`.
//!
//! Lines become pixels in three calls: [`frame`] counts the lines and writes their segments,
//! [`write_lists`] makes a list of commands for each screen tile, [`fine`] draws them; or in one: [`draw`].
//!
#![cfg_attr(all(feature = "frame", feature = "lists"), doc = "```")]
#![cfg_attr(not(all(feature = "frame", feature = "lists")), doc = "```ignore")]
//! use groatpocket::{
//!     fine, frame, words_needed, write_lists, Frame, Paint, Path, Screen, WriteLists, REF_WORDS, SEGMENT_FLOATS,
//! };
//!
//! // One beam's trace, a triangle, as path 0, whose box is the whole screen: two by two tiles from tile 0 on.
//! let screen = Screen { width: 32, cols: 2, rows: 2 };
//! let path_nos = [0, 0, 0];
//! let coords = [4.0, 28.0, 16.0, 4.0, 16.0, 4.0, 28.0, 28.0, 28.0, 28.0, 4.0, 28.0];
//! // Its beam has the number 7 stamped on it.
//! let paths = Path { x0: 0, y0: 0, x1: 2, y1: 2, first: 0, beam: 7 }.words();
//! // Opaque orange, red in the high byte and multiplied by alpha; the rule non-zero.
//! let paints = Paint { colour: 0xff8000ff, even_odd: false }.words();
//!
//! let (mut backdrops, mut stored, mut tally) = ([0; 4], [0; 4], [0; 4]);
//! let (mut refs, mut segments, mut tags) = ([0; 16 * REF_WORDS], [0.0; 16 * SEGMENT_FLOATS], [0; 16]);
//! let lent = Frame {
//!     path_nos: &path_nos,
//!     coords: &coords,
//!     paths: &paths,
//!     backdrops: &mut backdrops,
//!     stored: &mut stored,
//!     tally: &mut tally,
//!     refs: &mut refs,
//!     segments: &mut segments,
//!     tags: &mut tags,
//! };
//! let done = frame(lent).unwrap();
//! // Every segment is the beam's own.
//! assert!(tags[..done.references as usize].iter().all(|tag| *tag == 7));
//!
//! let mut words = vec![0; words_needed(2, 2, 1)];
//! let lent = WriteLists {
//!     paths: &paths,
//!     paints: &paints,
//!     backdrops: &backdrops,
//!     stored: &stored,
//!     tally: &tally,
//!     cols: screen.cols,
//!     rows: screen.rows,
//!     room: done.references,
//!     words: &mut words,
//! };
//! write_lists(lent).unwrap();
//!
//! let mut pixels = [0; 32 * 32];
//! fine(&words, &segments, screen, 0, 4, &mut pixels).unwrap();
//! assert_eq!(pixels[32 * 20 + 16], 0xff0080ff); // inside: red is in the low byte now
//! assert_eq!(pixels[0], 0); // outside
//! ```
//!
//! A call that is lent several slices of one kind takes them by name, so that none is taken for another; records have names for
//! their words: [`Path`], [`Reference`], [`Segment`], [`Paint`].
//!
//! The stages of a frame are calls too, for whoever feeds lines in batches: [`count`], [`backdrop`], [`hand_out`],
//! [`tile`]. The paths' boxes can be made from their lines: [`boxes`]. Where one gauge has moved, its path alone is counted again: [`recount`]. What another has counted, a graphics card, is
//! held against our own count before it is used: [`check`]. How much room lines and paths need is told before any is lent: [`sizes`]. One pixel can be asked for by itself: [`pixel`], [`pixel_area`]. Threads can
//! draw one screen at once, a band of its rows each: [`fine_rows`]. Lines of an outline can be read from
//! SVG: [`svg_lines`]. Whether one's own lines make closed outlines, [`outlines`] says.
//!
//! A [`Panel`] holds the memory for all of this: channels go in as outlines, and out come pixels, or a fault with the channel to blame.
//! Nothing else allocates, and the crate is `no_std`. It links `libgroatpocket.a`: see its README. Colours are multiplied by
//! their alpha, and nothing refuses one that isn't; a paint has red in its highest byte and a pixel in its lowest.
//!
//! ```
//! use groatpocket::{count, hand_out, Count, HandOut, Path, Running, REF_WORDS};
//!
//! // One line, (8,8) to (8,24), of path 0, whose box is two by two tiles from tile 0 on.
//! let (path_nos, coords) = ([0], [8.0, 8.0, 8.0, 24.0]);
//! let paths = Path { x0: 0, y0: 0, x1: 2, y1: 2, first: 0, beam: 7 }.words();
//! let (mut backdrops, mut counts, mut refs) = ([0; 4], [0; 4], [0; 4 * REF_WORDS]);
//! let lent = Count {
//!     path_nos: &path_nos,
//!     coords: &coords,
//!     paths: &paths,
//!     backdrops: &mut backdrops,
//!     counts: &mut counts,
//!     refs: &mut refs,
//!     end: 1,
//! };
//! let running = count(Running::default(), lent).unwrap();
//! assert_eq!((running.lines, running.references), (1, 2));
//! assert_eq!(counts, [1, 0, 1, 0]);
//! assert_eq!(backdrops, [0, 0, 0, -1]);
//!
//! let mut tally = [0; 4];
//! hand_out(HandOut { counts: &mut counts, tally: &mut tally, room: 2 }).unwrap();
//! assert_eq!(counts, [4294967295, 0, 4294967294, 0]);
//! ```
#![no_std]
#![warn(missing_docs)]

#[cfg(all(feature = "boxes", feature = "draw", feature = "sizes"))]
extern crate alloc;

#[cfg(feature = "bands")]
mod bands;
#[cfg(feature = "boxes")]
mod boxes;
#[cfg(feature = "check")]
mod check;
#[cfg(feature = "draw")]
mod draw;
#[cfg(feature = "frame")]
mod frame;
#[cfg(feature = "lists")]
mod lists;
#[cfg(feature = "outlines")]
mod outlines;
#[cfg(all(feature = "boxes", feature = "draw", feature = "sizes"))]
mod panel;
#[cfg(feature = "picture")]
mod picture;
#[cfg(feature = "pixel")]
mod pixel;
#[cfg(feature = "present")]
mod present;
pub mod raw;
mod records;
#[cfg(feature = "recount")]
mod recount;
mod refusal;
mod screen;
#[cfg(feature = "sizes")]
mod sizes;
mod stages;
#[cfg(feature = "svg")]
mod svg;

#[cfg(feature = "bands")]
pub use bands::fine_rows;
#[cfg(feature = "boxes")]
pub use boxes::{boxes, Boxes, BOX_WORDS};
#[cfg(feature = "check")]
pub use check::{check, work_needed, Check, Found};
#[cfg(feature = "draw")]
pub use draw::{draw, Draw};
#[cfg(feature = "frame")]
pub use frame::{frame, Frame, FrameStopped, Stage};
#[cfg(feature = "lists")]
pub use lists::{words_needed, write_lists, WriteLists};
#[cfg(feature = "outlines")]
pub use outlines::{outlines, Outlines, OUTLINE_WORDS};
#[cfg(all(feature = "boxes", feature = "draw", feature = "sizes"))]
pub use panel::{Channel, Fault, Panel, Picture};
#[cfg(feature = "picture")]
pub use picture::{ppm_read, ppm_write};
#[cfg(feature = "pixel")]
pub use pixel::{pixel, pixel_area};
#[cfg(feature = "present")]
pub use present::{present, Present, PIXEL_BYTES};
pub use records::{Paint, Path, Reference, Segment, STEP_RANGE};
#[cfg(feature = "recount")]
pub use recount::{recount, Recount, RecountStopped};
pub use refusal::{Refusal, Refused};
pub use screen::{fill, fine, Fill, Screen};
#[cfg(feature = "sizes")]
pub use sizes::{sizes, Sizes};
pub use stages::{backdrop, count, hand_out, tile, Count, HandOut, Running, Stopped, Tile};
#[cfg(feature = "svg")]
pub use svg::{svg_lines, TextRefused};

/// The version's number of the archive that is linked: 10,000 for each major one, 100 for each minor one. Its header has
/// the same as `GP_VERSION_NUMBER`, and this crate's version is that one too.
#[inline]
pub fn version() -> u32 {
    // SAFETY: it is lent nothing.
    unsafe { gp_version() }
}

extern "C" {
    fn gp_version() -> u32;
}

/// Words to a path: box x0, y0, x1, y1 in tiles, its first tile, its beam number.
pub const PATH_WORDS: usize = 6;
/// Floats to a line: p0.x, p0.y, p1.x, p1.y in pixels.
pub const LINE_FLOATS: usize = 4;
/// Words to a reference: line number; slice number times 65,536 plus step number.
pub const REF_WORDS: usize = 2;
/// Floats to a segment: point0.x, point0.y, point1.x, point1.y, y_edge.
pub const SEGMENT_FLOATS: usize = 5;
/// Words to a paint: the colour, red in the high byte; the fill rule, its lowest bit set for even-odd.
pub const PAINT_WORDS: usize = 2;
/// Words to a region of commands; screen tile t's list starts at word 64 t + 1.
pub const TILE_WORDS: usize = 64;
/// Pixels to a side of a tile.
pub const TILE_SIDE: usize = 16;
/// Pixels of a tile.
pub const TILE_PIXELS: usize = 256;
