//! One path's lines counted again, where one gauge has moved.
use crate::raw;
use crate::refusal::{answered, Refused, UNTOLD};
use core::fmt;

/// A recount that stopped: why, and the references made before.
#[derive(Clone, Copy, Debug, PartialEq, Eq, Hash)]
pub struct RecountStopped {
    /// Why, and the item: the path's number for 3 and 4, the line's own number for a line, else 0.
    pub refused: Refused,
    /// The references of the lines before the one refused; 0 where the checks refused.
    pub references: u32,
}

impl fmt::Display for RecountStopped {
    fn fmt(&self, f: &mut fmt::Formatter<'_>) -> fmt::Result {
        write!(f, "after {} references: {}", self.references, self.refused)
    }
}

impl core::error::Error for RecountStopped {}

/// What [`recount`] is lent, by name.
#[derive(Debug)]
pub struct Recount<'a> {
    /// The path that is counted again.
    pub path: u32,
    /// Each line's own number.
    pub line_nos: &'a [u32],
    /// The path number of each line.
    pub path_nos: &'a [u32],
    /// The lines, [`LINE_FLOATS`](crate::LINE_FLOATS) each.
    pub coords: &'a [f32],
    /// The paths: the words of a [`Path`](crate::Path) each.
    pub paths: &'a [u32],
    /// One to a tile, as [`count`](crate::count) leaves them.
    pub backdrops: &'a mut [i32],
    /// One to a tile, as [`count`](crate::count) leaves them.
    pub counts: &'a mut [u32],
    /// This path's references: the words of a [`Reference`](crate::Reference) each.
    pub refs: &'a mut [u32],
    /// As long as the path's range: keeps its backdrops.
    pub kept_backdrops: &'a mut [i32],
    /// As long as the path's range: keeps its counts.
    pub kept_counts: &'a mut [u32],
}

/// Counts a path's lines again: its tiles are zeroed and the lines lent counted into them; no tile of
/// another path changes. It works on counts and backdrops as [`count`](crate::count) leaves them, before
/// the sums and hand-out, and answers how many references it made. `refs` is a list of this path alone.
/// `line_nos` has each line's own number; `path_nos` must name `path`. The two kept slices are as long as
/// the path's range, and hold afterwards what it held; where a line is refused, the range gets it back.
///
/// ```
/// use groatpocket::{count, recount, Count, Path, Recount, Refusal, Running, REF_WORDS};
/// // Path 0: a box of two by two tiles, from tile 0 on.
/// let paths = Path { x0: 0, y0: 0, x1: 2, y1: 2, first: 0, beam: 7 }.words();
/// let (mut backdrops, mut counts, mut refs) = ([0; 4], [0; 4], [0; 4 * REF_WORDS]);
/// let lent = Count {
///     path_nos: &[0],
///     coords: &[8.0, 8.0, 8.0, 24.0],
///     paths: &paths,
///     backdrops: &mut backdrops,
///     counts: &mut counts,
///     refs: &mut refs,
///     end: 1,
/// };
/// count(Running::default(), lent).unwrap();
/// assert_eq!((backdrops, counts), ([0, 0, 0, -1], [1, 0, 1, 0]));
///
/// // The gauge moves 16 pixels to the right.
/// let (mut kept_backdrops, mut kept_counts) = ([0; 4], [0; 4]);
/// let lent = Recount {
///     path: 0,
///     line_nos: &[0],
///     path_nos: &[0],
///     coords: &[24.0, 8.0, 24.0, 24.0],
///     paths: &paths,
///     backdrops: &mut backdrops,
///     counts: &mut counts,
///     refs: &mut refs,
///     kept_backdrops: &mut kept_backdrops,
///     kept_counts: &mut kept_counts,
/// };
/// let made = recount(lent).unwrap();
/// assert_eq!((made, backdrops, counts), (2, [0; 4], [0, 1, 0, 1]));
/// assert_eq!((kept_backdrops, kept_counts), ([0, 0, 0, -1], [1, 0, 1, 0]));
///
/// // A line of another path is refused, and the tiles are as before.
/// let lent = Recount {
///     path: 0,
///     line_nos: &[3],
///     path_nos: &[1],
///     coords: &[24.0, 8.0, 24.0, 24.0],
///     paths: &paths,
///     backdrops: &mut backdrops,
///     counts: &mut counts,
///     refs: &mut refs,
///     kept_backdrops: &mut kept_backdrops,
///     kept_counts: &mut kept_counts,
/// };
/// let stopped = recount(lent).unwrap_err();
/// assert_eq!((stopped.refused.refusal, stopped.refused.item), (Refusal::NoSuch, 3));
/// assert_eq!((backdrops, counts), ([0; 4], [0, 1, 0, 1]));
/// ```
pub fn recount(lent: Recount<'_>) -> Result<u32, RecountStopped> {
    let Recount {
        path,
        line_nos,
        path_nos,
        coords,
        paths,
        backdrops,
        counts,
        refs,
        kept_backdrops,
        kept_counts,
    } = lent;
    let (mut made, mut item) = (UNTOLD, UNTOLD);
    // SAFETY: as for `count`.
    #[rustfmt::skip]
    let number = unsafe {
        raw::gp_recount(
            path,
            line_nos.as_ptr(), line_nos.len(),
            path_nos.as_ptr(), path_nos.len(),
            coords.as_ptr(), coords.len(),
            paths.as_ptr(), paths.len(),
            backdrops.as_mut_ptr(), backdrops.len(),
            counts.as_mut_ptr(), counts.len(),
            refs.as_mut_ptr(), refs.len(),
            kept_backdrops.as_mut_ptr(), kept_backdrops.len(),
            kept_counts.as_mut_ptr(), kept_counts.len(),
            &mut made, &mut item,
        )
    };
    answered(number, item).map(|()| made).map_err(|refused| RecountStopped { refused, references: made })
}
