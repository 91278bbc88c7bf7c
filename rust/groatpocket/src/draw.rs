//! From lines to pixels in one call.
use crate::frame::{FrameStopped, Stage};
use crate::raw;
use crate::refusal::{answered, UNTOLD};
use crate::stages::Running;

/// What [`draw`] is lent, by name.
#[derive(Debug)]
pub struct Draw<'a> {
    /// The path number of each line.
    pub path_nos: &'a [u32],
    /// The lines, [`LINE_FLOATS`](crate::LINE_FLOATS) each.
    pub coords: &'a [f32],
    /// The paths: the words of a [`Path`](crate::Path) each.
    pub paths: &'a [u32],
    /// A paint to a path: the words of a [`Paint`](crate::Paint) each.
    pub paints: &'a [u32],
    /// One to a tile; afterwards the sums.
    pub backdrops: &'a mut [i32],
    /// One to a tile; afterwards what hand-out left.
    pub stored: &'a mut [u32],
    /// One to a tile; afterwards the counts.
    pub tally: &'a mut [u32],
    /// The references: the words of a [`Reference`](crate::Reference) each.
    pub refs: &'a mut [u32],
    /// The segments: the floats of a [`Segment`](crate::Segment) to a slot.
    pub segments: &'a mut [f32],
    /// The tags: a beam number to a slot.
    pub tags: &'a mut [u32],
    /// The screen's pixels to a row.
    pub width: u32,
    /// Its tile columns.
    pub cols: u32,
    /// Its tile rows.
    pub rows: u32,
    /// The lists' words.
    pub words: &'a mut [u32],
    /// The screen's pixels.
    pub pixels: &'a mut [u32],
}

/// Draws all lines: a [`frame`](crate::frame), the lists of its screen with as much room as segments are lent, and
/// [`fine`](crate::fine) over all screen tiles. It tells what a frame tells, and may stop at [`Stage::Lists`] too, with 15 or 9.
/// What needs only lengths and sizes is checked before anything is written.
///
/// ```
/// use groatpocket::{draw, Draw, Paint, Path, Refusal, Stage, REF_WORDS, SEGMENT_FLOATS, TILE_WORDS};
/// // A triangle on a screen of two by two tiles, opaque orange.
/// let paths = Path { x0: 0, y0: 0, x1: 2, y1: 2, first: 0, beam: 7 }.words();
/// let paints = Paint { colour: 0xff8000ff, even_odd: false }.words();
/// let (mut backdrops, mut stored, mut tally) = ([0; 4], [0; 4], [0; 4]);
/// let (mut refs, mut segments, mut tags) = ([0; 16 * REF_WORDS], [0.0; 16 * SEGMENT_FLOATS], [0; 16]);
/// let (mut words, mut pixels) = ([0; 4 * TILE_WORDS], [0; 32 * 32]);
/// let mut drawn = |words: &mut [u32], pixels: &mut [u32]| {
///     draw(Draw {
///         path_nos: &[0, 0, 0],
///         coords: &[4.0, 28.0, 16.0, 4.0, 16.0, 4.0, 28.0, 28.0, 28.0, 28.0, 4.0, 28.0],
///         paths: &paths,
///         paints: &paints,
///         backdrops: &mut backdrops,
///         stored: &mut stored,
///         tally: &mut tally,
///         refs: &mut refs,
///         segments: &mut segments,
///         tags: &mut tags,
///         width: 32,
///         cols: 2,
///         rows: 2,
///         words,
///         pixels,
///     })
/// };
/// assert_eq!(drawn(&mut words, &mut pixels).unwrap().lines, 3);
/// assert_eq!(pixels[32 * 20 + 16], 0xff0080ff); // inside: red is in the low byte now
/// assert_eq!(pixels[0], 0); // outside
///
/// // A word too few: the frame stands, and the lists refuse.
/// let stopped = drawn(&mut words[1..], &mut pixels).unwrap_err();
/// assert_eq!((stopped.stage, stopped.refused.refusal), (Stage::Lists, Refusal::NoRoom));
/// // A pixel too few: nothing has changed.
/// let stopped = drawn(&mut words, &mut pixels[1..]).unwrap_err();
/// assert_eq!((stopped.stage, stopped.refused.refusal), (Stage::Lent, Refusal::BadScreen));
/// ```
pub fn draw(lent: Draw<'_>) -> Result<Running, FrameStopped> {
    let Draw { path_nos, coords, paths, paints, backdrops, stored, tally, refs, segments, tags, .. } = lent;
    let (words, pixels) = (lent.words, lent.pixels);
    let (mut stage, mut item, mut lines, mut made) = (UNTOLD, UNTOLD, UNTOLD, UNTOLD);
    // SAFETY: as for `count`.
    #[rustfmt::skip]
    let number = unsafe {
        raw::gp_draw(
            path_nos.as_ptr(), path_nos.len(),
            coords.as_ptr(), coords.len(),
            paths.as_ptr(), paths.len(),
            paints.as_ptr(), paints.len(),
            backdrops.as_mut_ptr(), backdrops.len(),
            stored.as_mut_ptr(), stored.len(),
            tally.as_mut_ptr(), tally.len(),
            refs.as_mut_ptr(), refs.len(),
            segments.as_mut_ptr(), segments.len(),
            tags.as_mut_ptr(), tags.len(),
            lent.width, lent.cols, lent.rows,
            words.as_mut_ptr(), words.len(),
            pixels.as_mut_ptr(), pixels.len(),
            &mut stage, &mut item, &mut lines, &mut made,
        )
    };
    let running = Running { lines, references: made };
    let Err(refused) = answered(number, item) else {
        debug_assert_eq!(stage, 0, "a stage where nothing is refused");
        return Ok(running);
    };
    let stage = Stage::ALL[stage as usize - 1];
    Err(FrameStopped { stage, refused, running })
}
