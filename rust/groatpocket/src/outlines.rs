//! Whether one's own lines make closed outlines.
use crate::raw;
use crate::refusal::{answered, Refused, UNTOLD};

/// Words of working room that [`outlines`] asks for, for each path.
pub const OUTLINE_WORDS: usize = 2;

/// What [`outlines`] is lent, by name.
#[derive(Debug)]
pub struct Outlines<'a> {
    /// The path number of each line.
    pub path_nos: &'a [u32],
    /// The lines, [`LINE_FLOATS`](crate::LINE_FLOATS) each.
    pub coords: &'a [f32],
    /// How many paths there are.
    pub path_count: u32,
    /// Working room: [`OUTLINE_WORDS`] for each path, which are 0 afterwards.
    pub work: &'a mut [u32],
}

/// Says whether each path's lines, in order, make closed outlines. A line that starts where its path's line before it
/// ended goes on with that line's outline; any other begins a new one; an outline must end where it began. Points are
/// compared bit for bit: +0 is not -0, and a NaN is the same as nothing. Lines of different paths may be mixed.
/// Refusals: 1, 2, 9; 5 and 7 with the first such line; 23 with the first line after which an outline stands open.
///
/// ```
/// use groatpocket::{outlines, Outlines, Refusal, OUTLINE_WORDS};
/// // A triangle of path 0, and two lines of path 1 that don't come back.
/// let path_nos = [0, 0, 1, 0, 1];
/// let coords = [
///     4.0, 28.0, 16.0, 4.0, // path 0
///     16.0, 4.0, 28.0, 28.0, // path 0
///     8.0, 8.0, 8.0, 24.0, // path 1
///     28.0, 28.0, 4.0, 28.0, // path 0: closed
///     8.0, 24.0, 24.0, 24.0, // path 1: left open
/// ];
/// let mut work = [0; 2 * OUTLINE_WORDS];
/// let told = outlines(Outlines { path_nos: &path_nos, coords: &coords, path_count: 2, work: &mut work });
/// let refused = told.unwrap_err();
/// assert_eq!((refused.refusal, refused.item), (Refusal::LeftOpen, 4));
/// ```
pub fn outlines(lent: Outlines<'_>) -> Result<(), Refused> {
    let Outlines { path_nos, coords, path_count, work } = lent;
    let mut item = UNTOLD;
    // SAFETY: as for `count`.
    #[rustfmt::skip]
    let number = unsafe {
        raw::gp_outlines(
            path_nos.as_ptr(), path_nos.len(),
            coords.as_ptr(), coords.len(),
            path_count,
            work.as_mut_ptr(), work.len(),
            &mut item,
        )
    };
    answered(number, item)
}
