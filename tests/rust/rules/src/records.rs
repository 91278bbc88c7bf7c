//! Records as they are lent: the one place of the tests that knows where a record's words stand. Widths: limits.rs.

use crate::limits::{LINE, PAINT, PATH, REF, SEGMENT, STEP_RANGE};
use std::ops::Range;

/// The places of a path's words: its box in tiles, then its first tile, then its beam number.
pub const X0: usize = 0;
pub const Y0: usize = 1;
pub const X1: usize = 2;
pub const Y1: usize = 3;
pub const FIRST: usize = 4;
pub const BEAM: usize = 5;

/// The places of a reference's words: its line, then its slice and step numbers in one.
const NAMED: usize = 0;
pub const PACKED: usize = 1;

/// The place of y_edge among a segment's floats, right after its ends.
pub const Y_EDGE: usize = 4;

/// The places of a paint's words.
const COLOUR: usize = 0;
const RULE: usize = 1;

/// A path's words: its box x0, y0, x1, y1 in tiles, its first tile, and its beam number.
pub const fn stamped(b: [u32; 4], first: u32, beam: u32) -> [u32; PATH] {
    let mut words = [0; PATH];
    (words[X0], words[Y0], words[X1], words[Y1]) = (b[0], b[1], b[2], b[3]);
    (words[FIRST], words[BEAM]) = (first, beam);
    words
}

/// The same where the beam number is of no account: it has one all the same, another for each first tile.
pub const fn path(b: [u32; 4], first: u32) -> [u32; PATH] {
    stamped(b, first, first.wrapping_mul(0x9e37_79b1) ^ 0xbea3_0000)
}

/// Paths of no tiles, `n` of them.
pub fn no_tiles(n: usize) -> Vec<u32> {
    path([0; 4], 0).repeat(n)
}

/// How many paths these words are.
pub fn paths_in(paths: &[u32]) -> usize {
    paths.len() / PATH
}

/// The words of path `n`.
pub fn words_of(n: usize) -> Range<usize> {
    PATH * n..PATH * (n + 1)
}

/// The box of path `n`, and its first tile.
pub fn box_at(paths: &[u32], n: usize) -> [u32; 4] {
    let p = &paths[words_of(n)];
    [p[X0], p[Y0], p[X1], p[Y1]]
}

pub fn first_at(paths: &[u32], n: usize) -> u32 {
    paths[PATH * n + FIRST]
}

/// A line's floats: p0.x, p0.y, p1.x, p1.y.
pub type Line = [f32; LINE];

/// The beam number of path `n`.
pub fn beam_at(paths: &[u32], n: usize) -> u32 {
    paths[PATH * n + BEAM]
}

/// The floats of line `n`.
pub fn line_floats(n: usize) -> Range<usize> {
    LINE * n..LINE * (n + 1)
}

/// A line's two points, as it is drawn.
pub fn points(line: &[f32]) -> ([f32; 2], [f32; 2]) {
    ([line[0], line[1]], [line[2], line[3]])
}

/// A reference's words.
pub const fn reference(line: u32, slice: u32, step: u32) -> [u32; REF] {
    let mut words = [0; REF];
    (words[NAMED], words[PACKED]) = (line, slice * STEP_RANGE + step);
    words
}

/// How many references these words are.
pub fn refs_in(refs: &[u32]) -> usize {
    refs.len() / REF
}

/// The words of reference `n`.
pub fn ref_words(n: usize) -> Range<usize> {
    REF * n..REF * (n + 1)
}

/// The line that a reference names.
pub fn named(reference: &[u32]) -> u32 {
    reference[NAMED]
}

/// A reference's slice number and its step.
pub fn slice_and_step(reference: &[u32]) -> (u32, u32) {
    (reference[PACKED] / STEP_RANGE, reference[PACKED] % STEP_RANGE)
}

/// Whether the word at this place of a list of references is a second one, of slice and step.
pub fn is_packed(at: usize) -> bool {
    at % REF == PACKED
}

/// A segment's floats.
pub const fn segment(p: [f32; 2], q: [f32; 2], y_edge: f32) -> [f32; SEGMENT] {
    let mut floats = [0.0; SEGMENT];
    (floats[0], floats[1], floats[2], floats[3]) = (p[0], p[1], q[0], q[1]);
    floats[Y_EDGE] = y_edge;
    floats
}

/// The floats of segment `n`.
pub fn segment_floats(n: usize) -> Range<usize> {
    SEGMENT * n..SEGMENT * (n + 1)
}

/// How many segments these floats are.
pub fn segments_in<T>(segments: &[T]) -> usize {
    segments.len() / SEGMENT
}

/// A segment's two ends, and the four floats that they are.
pub fn ends(segment: &[f32]) -> ([f32; 2], [f32; 2]) {
    points(&segment[..Y_EDGE])
}

pub fn end_floats(segment: &[f32]) -> &[f32] {
    &segment[..Y_EDGE]
}

/// A paint's words.
pub const fn paint(colour: u32, rule: u32) -> [u32; PAINT] {
    let mut words = [0; PAINT];
    (words[COLOUR], words[RULE]) = (colour, rule);
    words
}

/// The words of path `n`'s paint.
pub fn paint_words(n: usize) -> Range<usize> {
    PAINT * n..PAINT * (n + 1)
}

/// A paint's colour, and whether its rule is even-odd.
pub fn colour(paint: &[u32]) -> u32 {
    paint[COLOUR]
}

pub fn even_odd(paint: &[u32]) -> bool {
    paint[RULE] % 2 == 1
}
