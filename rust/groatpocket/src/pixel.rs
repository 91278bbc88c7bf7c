//! One pixel of a tile, without the other 255.
use crate::raw;
use crate::refusal::{answered, Refused};
use crate::screen::Fill;

/// The coverage of the pixel in that column and row, 0 to 15 each: what [`fill`](crate::fill) leaves there.
///
/// ```
/// use groatpocket::{pixel_area, Fill, Segment};
/// // x from 8 on, all the way down
/// let segment = Segment { point0: [8.0, 0.0], point1: [8.0, 16.0], y_edge: Segment::NO_EDGE }.floats();
/// let edge = Fill { first: 0, number: 1, even_odd: false, backdrop: 0, x_tile: 0.0, y_tile: 0.0 };
/// assert!(pixel_area(&segment, edge, 6, 3).unwrap() < 0.01);
/// assert!(pixel_area(&segment, edge, 9, 3).unwrap() > 0.99);
/// assert_eq!(pixel_area(&segment, edge, 9, 16).unwrap_err().refusal.number(), 19);
/// ```
pub fn pixel_area(segments: &[f32], fill: Fill, column: u32, row: u32) -> Result<f32, Refused> {
    let (rule, mut area) = (fill.even_odd as u32, f32::NAN);
    // SAFETY: as for `count`.
    #[rustfmt::skip]
    let number = unsafe {
        raw::gp_pixel_area(
            segments.as_ptr(), segments.len(),
            fill.first, fill.number, rule, fill.backdrop, fill.x_tile, fill.y_tile,
            column, row, &mut area,
        )
    };
    answered(number, 0).map(|()| area)
}

/// The pixel in that column and row of screen tile `tile`, packed, by the tile's list of commands: what
/// [`fine`](crate::fine) leaves there for a screen with that tile.
///
/// ```
/// // Tile 0: SOLID, then COLOR 0x204060ff, then END.
/// let words = [0, 2, 3, 0x204060ff, 0];
/// assert_eq!(groatpocket::pixel(&words, &[], 0, 15, 15), Ok(0xff604020));
/// assert_eq!(groatpocket::pixel(&words, &[], 1, 0, 0).unwrap_err().refusal.number(), 13);
/// ```
pub fn pixel(words: &[u32], segments: &[f32], tile: u32, column: u32, row: u32) -> Result<u32, Refused> {
    let mut px = 0;
    // SAFETY: as for `count`.
    #[rustfmt::skip]
    let number = unsafe {
        raw::gp_pixel(
            words.as_ptr(), words.len(),
            segments.as_ptr(), segments.len(),
            tile, column, row, &mut px,
        )
    };
    answered(number, 0).map(|()| px)
}
