//! The lines of an outline, from the path data of SVG.
use crate::raw;
use crate::refusal::Refusal;
use core::fmt;

/// A refusal, and the place of the text that is at fault.
#[derive(Clone, Copy, Debug, PartialEq, Eq, Hash)]
pub struct TextRefused {
    /// Why.
    pub refusal: Refusal,
    /// Where: for 21 the index of the first byte that can't stand there, or the text's length where it ends too soon; else 0.
    pub place: usize,
}

impl fmt::Display for TextRefused {
    fn fmt(&self, f: &mut fmt::Formatter<'_>) -> fmt::Result {
        write!(f, "{}; byte {}", self.refusal, self.place)
    }
}

impl core::error::Error for TextRefused {}

/// Reads path data (M, L, H, V, Z and Q, large or small) and writes its lines to the front of `path_nos` and `coords`, four
/// floats to a line, as [`count`](crate::count) and [`frame`](crate::frame) take them, each with the number `path`. A curve becomes
/// 2^`depth` lines, and outlines left open are closed. Gives the number of lines. Refusals: 22, 1, 21, 9, in this order;
/// none writes a line.
///
/// ```
/// use groatpocket::{svg_lines, Refusal, LINE_FLOATS};
/// let (mut path_nos, mut coords) = ([7; 4], [0.0; 4 * LINE_FLOATS]);
/// // two sides of a triangle: the third closes it
/// assert_eq!(svg_lines(b"M8 8h16v16", 0, 3, &mut path_nos, &mut coords), Ok(3));
/// assert_eq!(path_nos, [3, 3, 3, 7]);
/// assert_eq!(coords[..3 * LINE_FLOATS], [8.0, 8.0, 24.0, 8.0, 24.0, 8.0, 24.0, 24.0, 24.0, 24.0, 8.0, 8.0]);
///
/// let refused = svg_lines(b"M8 8h16,", 0, 3, &mut path_nos, &mut coords).unwrap_err();
/// assert_eq!((refused.refusal, refused.place), (Refusal::BadText, 8));
/// ```
pub fn svg_lines(
    text: &[u8],
    depth: u32,
    path: u32,
    path_nos: &mut [u32],
    coords: &mut [f32],
) -> Result<usize, TextRefused> {
    let (mut lines, mut place) = (usize::MAX, usize::MAX);
    // SAFETY: as for `count`.
    #[rustfmt::skip]
    let number = unsafe {
        raw::gp_svg_lines(
            text.as_ptr(), text.len(),
            depth, path,
            path_nos.as_mut_ptr(), path_nos.len(),
            coords.as_mut_ptr(), coords.len(),
            &mut lines, &mut place,
        )
    };
    let Some(refusal) = Refusal::of(number) else {
        debug_assert_eq!(place, 0, "a place where nothing is refused");
        return Ok(lines);
    };
    debug_assert_eq!(lines, 0, "lines where it is refused");
    Err(TextRefused { refusal, place })
}
