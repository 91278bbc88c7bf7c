//! Tiling: a segment for each reference, relative to its tile, and beside it the beam number of its line's path. The clips stand beside path_tiling.rs.

use crate::checks::*;
use crate::limits::*;
use crate::records::{self, beam_at, end_floats, line_floats, named, ref_words, refs_in, segment_floats, segments_in, slice_and_step};
use crate::walk::*;

const SIDE: f32 = 16.0;
const NUDGE: f32 = 1e-3;
const EPSILON: f32 = 1e-6;
const NO_EDGE: f32 = 1e9;

type Point = [f32; 2];

/// Where the line from `p` to `q` meets row y, kept in the tile.
fn at_row(p: Point, q: Point, y: f32, corner: Point, far: Point) -> Point {
    let x = p[0] + (q[0] - p[0]) * (y - p[1]) / (q[1] - p[1]);
    [x.clamp(corner[0] + NUDGE, far[0]), y]
}

/// Where the line from `p` to `q` meets column x, kept in the tile.
fn at_column(p: Point, q: Point, x: f32, corner: Point, far: Point) -> Point {
    let y = p[1] + (q[1] - p[1]) * (x - p[0]) / (q[0] - p[0]);
    [x, y.clamp(corner[1] + NUDGE, far[1])]
}

/// The ends of step i's piece, clipped to its tile.
fn clipped(w: &Walk, i: i64, corner: Point, far: Point) -> (Point, Point) {
    let (mut p, mut q) = (w.upper, w.lower);
    let z = w.z_at(i as f32);
    if i > 0 {
        p = if w.z_at(i as f32 - 1.0) == z {
            at_row(p, q, corner[1], corner, far)
        } else {
            at_column(p, q, if w.rightward { corner[0] } else { far[0] }, corner, far)
        };
    }
    if i < w.count - 1 {
        q = if w.z_at(i as f32 + 1.0) == z {
            at_row(p, q, far[1], corner, far)
        } else {
            at_column(p, q, if w.rightward { far[0] } else { corner[0] }, corner, far)
        };
    }
    (p, q)
}

/// The ends nudged off the tile's left edge, and y_edge.
fn nudged(mut p: Point, mut q: Point) -> (Point, Point, f32) {
    let mut y_edge = NO_EDGE;
    if p[0] == 0.0 && q[0] == 0.0 {
        p[0] = EPSILON;
        if p[1] == 0.0 {
            q = [EPSILON, SIDE];
        } else {
            q = [2.0 * EPSILON, p[1]];
        }
    } else if p[0] == 0.0 {
        if p[1] == 0.0 {
            p[0] = EPSILON;
        } else {
            y_edge = p[1];
        }
    } else if q[0] == 0.0 {
        if q[1] == 0.0 {
            q[0] = EPSILON;
        } else {
            y_edge = q[1];
        }
    }
    (off_whole(p), off_whole(q), y_edge)
}

fn off_whole(p: Point) -> Point {
    let whole = p[0] == p[0].floor() && p[0] != 0.0;
    [if whole { p[0] - EPSILON } else { p[0] }, p[1]]
}

/// The segment of step i in the tile at x, y: point0, point1, y_edge.
pub fn segment(w: &Walk, i: i64, x: i64, y: i64) -> [f32; SEGMENT] {
    let corner = [x as f32 * SIDE, y as f32 * SIDE];
    let far = [corner[0] + SIDE, corner[1] + SIDE];
    let (p, q) = clipped(w, i, corner, far);
    let p = [p[0] - corner[0], p[1] - corner[1]];
    let q = [q[0] - corner[0], q[1] - corner[1]];
    let (p, q, y_edge) = nudged(p, q);
    let (from, to) = if w.down { (p, q) } else { (q, p) };
    records::segment(from, to, y_edge)
}

/// All the slices that tiling reads.
pub struct Lent<'a> {
    pub path_nos: &'a [u32],
    pub coords: &'a [f32],
    pub paths: &'a [u32],
    pub stored: &'a [u32],
}

/// What a reference writes: its slot, the segment there, and the slot's tag.
pub struct Piece {
    pub slot: usize,
    pub segment: [f32; SEGMENT],
    pub tag: u32,
}

/// What a reference writes, nothing where its tile is empty, or its refusal.
pub fn piece(lent: &Lent, reference: &[u32], room: i64) -> Result<Option<Piece>, u32> {
    let n = named(reference) as usize;
    let (slice, i) = slice_and_step(reference);
    let (slice, i) = (slice as i64, i as i64);
    if n >= lent.path_nos.len() {
        return Err(NO_SUCH);
    }
    let line = &lent.coords[line_floats(n)];
    if !good_coords(line) {
        return Err(BAD_COORD);
    }
    let path_no = lent.path_nos[n] as usize;
    let path = lent.paths.chunks_exact(PATH).nth(path_no).ok_or(NO_SUCH)?;
    let at = Place::of(path);
    let w = Walk::of(line);
    if w.skipped(&at) {
        return Err(NO_SUCH);
    }
    let (x, y) = w.step_by_two_casts(i, &at).ok_or(OFF_BOX)?;
    let stored = lent.stored[at.tile(x, y)];
    if stored < 1 << 31 {
        return Ok(None); // its NOT is negative as i32
    }
    let slot = !stored as i64 + slice;
    if slot + 1 > room.min(ROOM_MOST) {
        return Err(NO_ROOM);
    }
    let segment = segment(&w, i, x, y);
    if !end_floats(&segment).iter().all(|v| (0.0..=SIDE).contains(v)) {
        return Err(OFF_TILE);
    }
    Ok(Some(Piece { slot: slot as usize, segment, tag: beam_at(lent.paths, path_no) }))
}

pub fn tile(
    path_nos: &[u32],
    coords: &[f32],
    paths: &[u32],
    stored: &[u32],
    refs: &[u32],
    from: u32,
    to: u32,
    segments: &mut [f32],
    tags: &mut [u32],
    item: &mut u32,
) -> u32 {
    let got = (|| {
        let shape = whole(coords.len(), LINE)
            && path_nos.len() == coords.len() / LINE
            && whole(refs.len(), REF)
            && whole(segments.len(), SEGMENT)
            && tags.len() == segments_in(segments)
            && from <= to
            && to as usize <= refs_in(refs);
        checked(shape, paths, stored.len())?;
        let lent = Lent { path_nos, coords, paths, stored };
        let room = segments_in(segments) as i64;
        for r in from..to {
            if let Some(piece) = piece(&lent, &refs[ref_words(r as usize)], room).map_err(|no| (no, r))? {
                segments[segment_floats(piece.slot)].copy_from_slice(&piece.segment);
                tags[piece.slot] = piece.tag;
            }
        }
        Ok(())
    })();
    answer(got, item)
}
