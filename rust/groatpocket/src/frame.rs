//! One call for a frame: counting, sums, hand-out and tiling.
use crate::raw;
use crate::refusal::{answered, Refused, UNTOLD};
use crate::stages::Running;
use crate::{Reference, REF_WORDS};
use core::fmt;

/// The part of a frame, or of a drawing, that refused.
#[derive(Clone, Copy, Debug, PartialEq, Eq, Hash)]
#[repr(u32)]
pub enum Stage {
    /// The checks of what is lent; nothing has changed.
    Lent = 1,
    /// Counting; the item is a line.
    Count = 2,
    /// The sums of the backdrops; the item is a path.
    Sums = 3,
    /// Hand-out: the segments lent have too few slots; the item is 0.
    HandOut = 4,
    /// Tiling; the item is a reference.
    Tile = 5,
    /// The lists, in [`draw`](crate::draw); the item is a screen tile.
    Lists = 6,
    /// Fine, in [`draw`](crate::draw); the item is a screen tile. No drawing is ever refused there.
    Fine = 7,
}

impl Stage {
    pub(crate) const ALL: [Stage; 7] =
        [Stage::Lent, Stage::Count, Stage::Sums, Stage::HandOut, Stage::Tile, Stage::Lists, Stage::Fine];
}

/// A frame that stopped: where, why, and the running numbers of its count.
#[derive(Clone, Copy, Debug, PartialEq, Eq, Hash)]
pub struct FrameStopped {
    /// The part that refused. What the parts before it did stands.
    pub stage: Stage,
    /// Why, and the item.
    pub refused: Refused,
    /// Lines and references counted; both 0 where the checks refused.
    pub running: Running,
}

impl fmt::Display for FrameStopped {
    fn fmt(&self, f: &mut fmt::Formatter<'_>) -> fmt::Result {
        let what = match self.stage {
            Stage::Lent => "what was lent was refused; path",
            Stage::Count => "counting stopped at line",
            Stage::Sums => "the sums stopped at path",
            Stage::HandOut => "hand-out stopped; item",
            Stage::Tile => "tiling stopped at reference",
            Stage::Lists => "the lists stopped at screen tile",
            Stage::Fine => "fine stopped at screen tile",
        };
        write!(f, "{what} {}: {}", self.refused.item, self.refused.refusal)
    }
}

impl FrameStopped {
    /// The line that was refused, if it was a line: the item in counting, and in tiling the line of the
    /// item's reference. Its path number says whose it is: `path_nos[line]` is the channel to show as faulty, if the refusal
    /// is 6, 7, 8, 10 or 12 and there is such a channel. All others, 9 too, are the program's own fault.
    pub fn line(&self, refs: &[u32]) -> Option<usize> {
        let item = self.refused.item as usize;
        match self.stage {
            Stage::Count => Some(item),
            Stage::Tile => {
                refs.chunks_exact(REF_WORDS).nth(item).map(|words| Reference::of(words).line as usize)
            }
            _ => None,
        }
    }
}

impl core::error::Error for FrameStopped {}

/// What [`frame`] is lent, by name.
#[derive(Debug)]
pub struct Frame<'a> {
    /// The path number of each line.
    pub path_nos: &'a [u32],
    /// The lines, [`LINE_FLOATS`](crate::LINE_FLOATS) each.
    pub coords: &'a [f32],
    /// The paths: the words of a [`Path`](crate::Path) each.
    pub paths: &'a [u32],
    /// One to a tile; afterwards the sums.
    pub backdrops: &'a mut [i32],
    /// One to a tile; afterwards what hand-out left.
    pub stored: &'a mut [u32],
    /// One to a tile; afterwards the counts.
    pub tally: &'a mut [u32],
    /// The references: the words of a [`Reference`] each.
    pub refs: &'a mut [u32],
    /// The segments: the floats of a [`Segment`](crate::Segment) to a slot.
    pub segments: &'a mut [f32],
    /// The tags: a beam number to a slot.
    pub tags: &'a mut [u32],
}

/// Draws all lines into tiles and segments: backdrops and counts are cleared, the lines counted, the
/// backdrops summed, slots handed out with room for the segments lent, and every reference tiled.
/// Afterwards `backdrops` are the sums, `stored` what hand-out left, `tally` the counts, and the
/// segments below `references` are written, each with its tag: the beam number of its line's path. There are as many tags
/// as segments, else 1.
///
/// ```
/// use groatpocket::{frame, Frame, Path, Refusal, Segment, Stage, REF_WORDS, SEGMENT_FLOATS};
/// let (path_nos, coords) = ([0], [8.0, 8.0, 8.0, 24.0]);
/// let paths = Path { x0: 0, y0: 0, x1: 2, y1: 2, first: 0, beam: 7 }.words();
/// let (mut backdrops, mut stored, mut tally) = ([7; 4], [7; 4], [7; 4]);
/// let (mut refs, mut segments, mut tags) = ([0; 4 * REF_WORDS], [0.0; 2 * SEGMENT_FLOATS], [0; 2]);
/// let lent = Frame {
///     path_nos: &path_nos,
///     coords: &coords,
///     paths: &paths,
///     backdrops: &mut backdrops,
///     stored: &mut stored,
///     tally: &mut tally,
///     refs: &mut refs,
///     segments: &mut segments,
///     tags: &mut tags,
/// };
/// let done = frame(lent).unwrap();
/// assert_eq!((done.lines, done.references), (1, 2));
/// assert_eq!((backdrops, tally), ([0, 0, 0, -1], [1, 0, 1, 0]));
/// let second = Segment::of(&segments[SEGMENT_FLOATS..]);
/// assert_eq!((second.point0, second.point1), ([7.999999, 0.0], [7.999999, 8.0]));
/// assert_eq!(tags, [7, 7]);
///
/// // Room for one segment only: hand-out refuses, and what was counted stands.
/// let lent = Frame {
///     path_nos: &path_nos,
///     coords: &coords,
///     paths: &paths,
///     backdrops: &mut backdrops,
///     stored: &mut stored,
///     tally: &mut tally,
///     refs: &mut refs,
///     segments: &mut segments[..SEGMENT_FLOATS],
///     tags: &mut tags[..1],
/// };
/// let stopped = frame(lent).unwrap_err();
/// assert_eq!((stopped.stage, stopped.refused.refusal), (Stage::HandOut, Refusal::NoRoom));
///
/// // A coordinate that is no number: counting stops, and says at which line.
/// let lent = Frame {
///     path_nos: &path_nos,
///     coords: &[8.0, 8.0, f32::NAN, 24.0],
///     paths: &paths,
///     backdrops: &mut backdrops,
///     stored: &mut stored,
///     tally: &mut tally,
///     refs: &mut refs,
///     segments: &mut segments,
///     tags: &mut tags,
/// };
/// let stopped = frame(lent).unwrap_err();
/// assert_eq!(stopped.to_string(), "counting stopped at line 0: refusal 6: a coordinate not finite, or over 65,536 in size");
/// assert_eq!(stopped.line(&refs), Some(0));
/// ```
pub fn frame(lent: Frame<'_>) -> Result<Running, FrameStopped> {
    let Frame { path_nos, coords, paths, backdrops, stored, tally, refs, segments, tags } = lent;
    let (mut stage, mut item, mut lines, mut made) = (UNTOLD, UNTOLD, UNTOLD, UNTOLD);
    // SAFETY: as for `count`.
    #[rustfmt::skip]
    let number = unsafe {
        raw::gp_frame(
            path_nos.as_ptr(), path_nos.len(),
            coords.as_ptr(), coords.len(),
            paths.as_ptr(), paths.len(),
            backdrops.as_mut_ptr(), backdrops.len(),
            stored.as_mut_ptr(), stored.len(),
            tally.as_mut_ptr(), tally.len(),
            refs.as_mut_ptr(), refs.len(),
            segments.as_mut_ptr(), segments.len(),
            tags.as_mut_ptr(), tags.len(),
            &mut stage, &mut item, &mut lines, &mut made,
        )
    };
    let running = Running { lines, references: made };
    let Err(refused) = answered(number, item) else {
        debug_assert_eq!(stage, 0, "a stage where nothing is refused");
        return Ok(running);
    };
    let stage = Stage::ALL[stage as usize - 1];
    Err(FrameStopped { stage, refused, running })
}
