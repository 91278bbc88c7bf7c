//! Pixels: the coverage of a tile, and screen tiles by their lists of commands.
use crate::raw;
use crate::refusal::{answered, Refused, UNTOLD};

/// One fill of a tile: its segments, its rule, its backdrop, and where the tile lies in the segments' coordinates.
#[derive(Clone, Copy, Debug, PartialEq)]
pub struct Fill {
    /// The first segment.
    pub first: u32,
    /// How many.
    pub number: u32,
    /// Even-odd, else non-zero.
    pub even_odd: bool,
    /// What the area starts at.
    pub backdrop: i32,
    /// The tile's corner in the segments' coordinates: 0 for segments from [`tile`](crate::tile) or
    /// `frame`, which are relative to their tile.
    pub x_tile: f32,
    /// As `x_tile`, downward.
    pub y_tile: f32,
}

/// The coverage of a tile's 256 pixels, into `area`, which must be 256 long. Segments with an end outside
/// 0 to 16, or with a y_edge that is not finite, are refused (20).
///
/// ```
/// use groatpocket::{fill, Fill, Segment};
/// let mut area = [0.0; 256];
/// let whole = Fill { first: 0, number: 0, even_odd: false, backdrop: 2, x_tile: 0.0, y_tile: 0.0 };
/// fill(&[], whole, &mut area).unwrap();
/// assert!(area.iter().all(|a| *a == 1.0));
/// fill(&[], Fill { even_odd: true, ..whole }, &mut area).unwrap();
/// assert!(area.iter().all(|a| *a == 0.0));
/// let crooked = Segment { point0: [8.0, 0.0], point1: [8.0, 16.1], y_edge: Segment::NO_EDGE }.floats();
/// assert_eq!(fill(&crooked, Fill { number: 1, ..whole }, &mut area).unwrap_err().refusal.number(), 20);
/// ```
pub fn fill(segments: &[f32], fill: Fill, area: &mut [f32]) -> Result<(), Refused> {
    let rule = fill.even_odd as u32;
    // SAFETY: as for `count`.
    #[rustfmt::skip]
    let number = unsafe {
        raw::gp_fill(
            segments.as_ptr(), segments.len(),
            fill.first, fill.number, rule, fill.backdrop, fill.x_tile, fill.y_tile,
            area.as_mut_ptr(), area.len(),
        )
    };
    answered(number, 0)
}

/// A screen: pixels to a row, and its tiles in columns and rows.
#[derive(Clone, Copy, Debug, PartialEq, Eq)]
pub struct Screen {
    /// Pixels to a row.
    pub width: u32,
    /// Tile columns.
    pub cols: u32,
    /// Tile rows.
    pub rows: u32,
}

/// Draws the screen tiles `from..to`, each by its list of commands. It stops before the first refused,
/// whose pixels and all later ones keep what they held.
///
/// SOLID is one word. Lists kept from before have a second word, 0, after it, which is now read as END:
/// such a tile shows nothing of what follows, and the call still answers `Ok`. Write those lists again.
///
/// ```
/// use groatpocket::{fine, Screen};
/// // Tile 0: SOLID, then COLOR 0x204060ff, then END.
/// let words = [0, 2, 3, 0x204060ff, 0];
/// let mut pixels = [0; 256];
/// fine(&words, &[], Screen { width: 16, cols: 1, rows: 1 }, 0, 1, &mut pixels).unwrap();
/// assert!(pixels.iter().all(|p| *p == 0xff604020));
///
/// // A list from before: END is read after SOLID.
/// fine(&[0, 2, 0, 3, 0x204060ff, 0], &[], Screen { width: 16, cols: 1, rows: 1 }, 0, 1, &mut pixels).unwrap();
/// assert!(pixels.iter().all(|p| *p == 0));
/// ```
pub fn fine(
    words: &[u32],
    segments: &[f32],
    screen: Screen,
    from: u32,
    to: u32,
    pixels: &mut [u32],
) -> Result<(), Refused> {
    let mut item = UNTOLD;
    // SAFETY: as for `count`.
    #[rustfmt::skip]
    let number = unsafe {
        raw::gp_fine(
            words.as_ptr(), words.len(),
            segments.as_ptr(), segments.len(),
            screen.width, screen.cols, screen.rows, from, to,
            pixels.as_mut_ptr(), pixels.len(),
            &mut item,
        )
    };
    answered(number, item)
}
