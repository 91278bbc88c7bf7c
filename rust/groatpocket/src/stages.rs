//! The stages of a frame, one call each: counting in batches, sums, slots, segments.
use crate::raw;
use crate::refusal::{answered, Refused, UNTOLD};
use core::fmt;

/// The running numbers of counting: lines so far and references so far.
#[derive(Clone, Copy, Debug, Default, PartialEq, Eq, Hash)]
pub struct Running {
    /// Lines so far: the next batch starts at this line.
    pub lines: u32,
    /// References so far.
    pub references: u32,
}

/// A batch that stopped before a line: why, and the running numbers there.
#[derive(Clone, Copy, Debug, PartialEq, Eq, Hash)]
pub struct Stopped {
    /// Why, and the line's number (for 3 and 4 the path's).
    pub refused: Refused,
    /// The running numbers of the lines before it.
    pub running: Running,
}

impl fmt::Display for Stopped {
    fn fmt(&self, f: &mut fmt::Formatter<'_>) -> fmt::Result {
        write!(
            f,
            "{}; {} lines and {} references counted",
            self.refused, self.running.lines, self.running.references
        )
    }
}

impl core::error::Error for Stopped {}

/// What [`count`] is lent, by name.
#[derive(Debug)]
pub struct Count<'a> {
    /// The path number of each line.
    pub path_nos: &'a [u32],
    /// The lines, [`LINE_FLOATS`](crate::LINE_FLOATS) each.
    pub coords: &'a [f32],
    /// The paths: the words of a [`Path`](crate::Path) each.
    pub paths: &'a [u32],
    /// One to a tile: the lines' marks are added.
    pub backdrops: &'a mut [i32],
    /// One to a tile: the lines' references are added.
    pub counts: &'a mut [u32],
    /// The references: the words of a [`Reference`](crate::Reference) each.
    pub refs: &'a mut [u32],
    /// The batch's end: lines below it are counted.
    pub end: u32,
}

/// Counts the lines from `running.lines` up to `end` into `backdrops` and `counts`, and writes their
/// references. It stops before the first line refused.
///
/// ```
/// use groatpocket::{count, Count, Path, Refusal, Running, REF_WORDS};
/// let paths = Path { x0: 0, y0: 0, x1: 2, y1: 2, first: 0, beam: 7 }.words();
/// // x is no number: the line is refused with 6, and nothing changes.
/// let lent = Count {
///     path_nos: &[0],
///     coords: &[f32::NAN, 0.0, 8.0, 24.0],
///     paths: &paths,
///     backdrops: &mut [0; 4],
///     counts: &mut [0; 4],
///     refs: &mut [0; 4 * REF_WORDS],
///     end: 1,
/// };
/// let stopped = count(Running::default(), lent).unwrap_err();
/// assert_eq!(stopped.refused.refusal, Refusal::Coordinate);
/// assert_eq!(stopped.running, Running::default());
/// ```
pub fn count(running: Running, lent: Count<'_>) -> Result<Running, Stopped> {
    let Count { path_nos, coords, paths, backdrops, counts, refs, end } = lent;
    let (mut lines, mut made, mut item) = (running.lines, running.references, UNTOLD);
    // SAFETY: each pointer comes from a slice with its length, and the borrow rules keep them apart.
    #[rustfmt::skip]
    let number = unsafe {
        raw::gp_count(
            path_nos.as_ptr(), path_nos.len(),
            coords.as_ptr(), coords.len(),
            paths.as_ptr(), paths.len(),
            backdrops.as_mut_ptr(), backdrops.len(),
            counts.as_mut_ptr(), counts.len(),
            refs.as_mut_ptr(), refs.len(),
            end, &mut lines, &mut made, &mut item,
        )
    };
    let running = Running { lines, references: made };
    answered(number, item).map(|()| running).map_err(|refused| Stopped { refused, running })
}

/// Sums the backdrops along the tile rows of each path. It stops before the first path whose sums
/// leave an `i32`.
///
/// ```
/// use groatpocket::{backdrop, Path};
/// let paths = Path { x0: 0, y0: 0, x1: 2, y1: 2, first: 0, beam: 7 }.words();
/// let mut backdrops = [1, 2, -5, 4];
/// backdrop(&paths, &mut backdrops).unwrap();
/// assert_eq!(backdrops, [1, 3, -5, -1]);
/// ```
pub fn backdrop(paths: &[u32], backdrops: &mut [i32]) -> Result<(), Refused> {
    let mut item = UNTOLD;
    // SAFETY: as for `count`.
    #[rustfmt::skip]
    let number = unsafe {
        raw::gp_backdrop(
            paths.as_ptr(), paths.len(),
            backdrops.as_mut_ptr(), backdrops.len(),
            &mut item,
        )
    };
    answered(number, item)
}

/// What [`hand_out`] is lent, by name.
#[derive(Debug)]
pub struct HandOut<'a> {
    /// One to a tile, as [`count`] leaves them; afterwards the stored words.
    pub counts: &'a mut [u32],
    /// One to a tile: keeps the counts.
    pub tally: &'a mut [u32],
    /// How many slots there are.
    pub room: u32,
}

/// Hands out slots: a tile with a count above 0 takes so many and then holds the NOT of its first;
/// an empty tile holds 0. The counts are kept in `tally`.
pub fn hand_out(lent: HandOut<'_>) -> Result<(), Refused> {
    let HandOut { counts, tally, room } = lent;
    // SAFETY: as for `count`.
    #[rustfmt::skip]
    let number = unsafe {
        raw::gp_hand_out(
            counts.as_mut_ptr(), counts.len(),
            tally.as_mut_ptr(), tally.len(),
            room,
        )
    };
    answered(number, 0)
}

/// What [`tile`] is lent, by name.
#[derive(Debug)]
pub struct Tile<'a> {
    /// The path number of each line.
    pub path_nos: &'a [u32],
    /// The lines, [`LINE_FLOATS`](crate::LINE_FLOATS) each.
    pub coords: &'a [f32],
    /// The paths: the words of a [`Path`](crate::Path) each.
    pub paths: &'a [u32],
    /// One to a tile: what [`hand_out`] left in the counts.
    pub stored: &'a [u32],
    /// The references: the words of a [`Reference`](crate::Reference) each.
    pub refs: &'a [u32],
    /// The first reference of the range.
    pub from: u32,
    /// The range's end.
    pub to: u32,
    /// The segments: the floats of a [`Segment`](crate::Segment) to a slot.
    pub segments: &'a mut [f32],
    /// The tags: a beam number to a slot.
    pub tags: &'a mut [u32],
}

/// Writes the segments of the references `from..to`, each at its slot, relative to its tile, and beside each its tag: the
/// beam number of its line's path. It stops before the first refused. `stored` is what [`hand_out`] left in the counts. There are
/// as many tags as segments, else 1; where nothing is written, segment and tag stay.
///
/// ```
/// use groatpocket::{tile, Path, Reference, Tile, SEGMENT_FLOATS};
/// // Step 0 of the one line of beam 7, in a tile whose slot is 1.
/// let paths = Path { x0: 0, y0: 0, x1: 1, y1: 1, first: 0, beam: 7 }.words();
/// let refs = Reference { line: 0, slice: 0, step: 0 }.words();
/// let (mut segments, mut tags) = ([0.0; 3 * SEGMENT_FLOATS], [9; 3]);
/// let lent = Tile {
///     path_nos: &[0],
///     coords: &[8.5, 2.0, 8.5, 6.0],
///     paths: &paths,
///     stored: &[!1],
///     refs: &refs,
///     from: 0,
///     to: 1,
///     segments: &mut segments,
///     tags: &mut tags,
/// };
/// tile(lent).unwrap();
/// assert_eq!(tags, [9, 7, 9]);
/// ```
pub fn tile(lent: Tile<'_>) -> Result<(), Refused> {
    let Tile { path_nos, coords, paths, stored, refs, from, to, segments, tags } = lent;
    let mut item = UNTOLD;
    // SAFETY: as for `count`.
    #[rustfmt::skip]
    let number = unsafe {
        raw::gp_tile(
            path_nos.as_ptr(), path_nos.len(),
            coords.as_ptr(), coords.len(),
            paths.as_ptr(), paths.len(),
            stored.as_ptr(), stored.len(),
            refs.as_ptr(), refs.len(),
            from, to,
            segments.as_mut_ptr(), segments.len(),
            tags.as_mut_ptr(), tags.len(),
            &mut item,
        )
    };
    answered(number, item)
}
