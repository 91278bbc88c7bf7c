//! The records that are lent as plain words, with names for their parts: each as its words, and back.
use crate::{PAINT_WORDS, PATH_WORDS, REF_WORDS, SEGMENT_FLOATS};

// Where the parts stand: GP_PATH_X0 and so on of the header, which tests/header.rs holds against these.
const X0: usize = 0;
const Y0: usize = 1;
const X1: usize = 2;
const Y1: usize = 3;
const FIRST: usize = 4;
const BEAM: usize = 5;
const LINE: usize = 0;
const PACKED: usize = 1;
const POINT0: usize = 0;
const POINT1: usize = 2;
const Y_EDGE: usize = 4;
const COLOUR: usize = 0;
const RULE: usize = 1;

/// A reference's second word is its slice number times this, plus its step number.
pub const STEP_RANGE: u32 = 65536;

/// A path: its box in tiles, its first tile, and the number of its beam.
///
/// ```
/// use groatpocket::{Path, PATH_WORDS};
/// // Two paths over two by two tiles each, one after the other.
/// let first = Path { x0: 0, y0: 0, x1: 2, y1: 2, first: 0, beam: 7 };
/// let second = Path { first: 4, beam: 8, ..first };
/// let paths = [first.words(), second.words()].concat();
/// assert_eq!((paths.len(), Path::of(&paths[PATH_WORDS..])), (2 * PATH_WORDS, second));
/// ```
#[derive(Clone, Copy, Debug, Default, PartialEq, Eq, Hash)]
pub struct Path {
    /// The box's left edge, in tiles.
    pub x0: u32,
    /// Its top edge.
    pub y0: u32,
    /// Its right edge, which is outside.
    pub x1: u32,
    /// Its bottom edge, which is outside.
    pub y1: u32,
    /// The path's first tile: its tiles follow it, row by row.
    pub first: u32,
    /// The beam number stamped on the steel: any word, and two paths may carry one. [`tile`](crate::tile) and `frame` write it
    /// into the tag of every slot that they fill for a line of this path.
    pub beam: u32,
}

impl Path {
    /// Its words, as they are lent.
    pub const fn words(self) -> [u32; PATH_WORDS] {
        let mut words = [0; PATH_WORDS];
        words[X0] = self.x0;
        words[Y0] = self.y0;
        words[X1] = self.x1;
        words[Y1] = self.y1;
        words[FIRST] = self.first;
        words[BEAM] = self.beam;
        words
    }

    /// The path whose words these begin with. There must be [`PATH_WORDS`] at least.
    pub const fn of(words: &[u32]) -> Path {
        Path {
            x0: words[X0],
            y0: words[Y0],
            x1: words[X1],
            y1: words[Y1],
            first: words[FIRST],
            beam: words[BEAM],
        }
    }
}

/// A reference: a line, and one of its steps with its place among the references of its tile.
///
/// ```
/// use groatpocket::Reference;
/// let reference = Reference { line: 1, slice: 1, step: 2 };
/// assert_eq!(reference.words(), [1, 65538]);
/// assert_eq!(Reference::of(&[1, 65538]), reference);
/// ```
#[derive(Clone, Copy, Debug, Default, PartialEq, Eq, Hash)]
pub struct Reference {
    /// The line's number.
    pub line: u32,
    /// Its place among the references of its tile: 0 to 65,535.
    pub slice: u16,
    /// The step of the line's walk: 0 to 65,535.
    pub step: u16,
}

impl Reference {
    /// Its words, as they are lent.
    pub const fn words(self) -> [u32; REF_WORDS] {
        let mut words = [0; REF_WORDS];
        words[LINE] = self.line;
        words[PACKED] = self.slice as u32 * STEP_RANGE + self.step as u32;
        words
    }

    /// The reference whose words these begin with. There must be [`REF_WORDS`] at least.
    pub const fn of(words: &[u32]) -> Reference {
        let packed = words[PACKED];
        Reference {
            line: words[LINE],
            slice: (packed / STEP_RANGE) as u16,
            step: (packed % STEP_RANGE) as u16,
        }
    }
}

/// A segment: a line's piece, relative to its tile, and where it touches the tile's left side.
///
/// ```
/// use groatpocket::Segment;
/// let segment = Segment { point0: [8.0, 0.0], point1: [8.0, 16.0], y_edge: Segment::NO_EDGE };
/// assert_eq!(segment.floats(), [8.0, 0.0, 8.0, 16.0, 1e9]);
/// assert_eq!(Segment::of(&segment.floats()), segment);
/// ```
#[derive(Clone, Copy, Debug, PartialEq)]
pub struct Segment {
    /// Where it starts, x and y in pixels.
    pub point0: [f32; 2],
    /// Where it ends.
    pub point1: [f32; 2],
    /// The y at which it touches the tile's left side; [`Segment::NO_EDGE`] where it doesn't.
    pub y_edge: f32,
}

impl Segment {
    /// The y_edge of a segment that doesn't touch its tile's left side.
    pub const NO_EDGE: f32 = 1e9;

    /// Its floats, as they are lent.
    pub const fn floats(self) -> [f32; SEGMENT_FLOATS] {
        let mut floats = [0.0; SEGMENT_FLOATS];
        floats[POINT0] = self.point0[0];
        floats[POINT0 + 1] = self.point0[1];
        floats[POINT1] = self.point1[0];
        floats[POINT1 + 1] = self.point1[1];
        floats[Y_EDGE] = self.y_edge;
        floats
    }

    /// The segment whose floats these begin with. There must be [`SEGMENT_FLOATS`] at least.
    pub const fn of(floats: &[f32]) -> Segment {
        Segment {
            point0: [floats[POINT0], floats[POINT0 + 1]],
            point1: [floats[POINT1], floats[POINT1 + 1]],
            y_edge: floats[Y_EDGE],
        }
    }
}

/// A paint: a path's colour and fill rule.
///
/// ```
/// use groatpocket::Paint;
/// let paint = Paint { colour: 0xff8000ff, even_odd: true };
/// assert_eq!(paint.words(), [0xff8000ff, 1]);
/// assert_eq!(Paint::of(&paint.words()), paint);
/// ```
#[derive(Clone, Copy, Debug, Default, PartialEq, Eq, Hash)]
pub struct Paint {
    /// Red in the high byte, alpha in the low one; multiplied by alpha already.
    pub colour: u32,
    /// Even-odd, else non-zero.
    pub even_odd: bool,
}

impl Paint {
    /// Its words, as they are lent.
    pub const fn words(self) -> [u32; PAINT_WORDS] {
        let mut words = [0; PAINT_WORDS];
        words[COLOUR] = self.colour;
        words[RULE] = self.even_odd as u32;
        words
    }

    /// The paint whose words these begin with. There must be [`PAINT_WORDS`] at least.
    pub const fn of(words: &[u32]) -> Paint {
        Paint { colour: words[COLOUR], even_odd: words[RULE] % 2 == 1 }
    }
}
