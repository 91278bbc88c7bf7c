//! The picture that lines make, from lines, paths, paints and a screen alone: the page of `crates/picture/specs/Picture.antt` once more, in its order.
//!
//! No tile words, no references, no slots, no lists, no batches. Of the stages it has a line's walk with its clip to the box, the clip of a step to its
//! tile, what a segment adds to one pixel, and colours: nothing else.

use crate::fill::{added, finished};
use crate::fine::{over, pack, unpack};
use crate::limits::{LINE, PAINT, PATH, SEGMENT};
use crate::records::{colour, end_floats, even_odd};
use crate::tile::segment;
use crate::walk::{good_coords, Clip, Place, Walk};

/// Pixels of a tile's side.
const SIDE: usize = 16;
const TILE: usize = SIDE * SIDE;

/// A line of a path that isn't skipped, and the part of its walk that the box leaves.
struct Walked {
    walk: Walk,
    clip: Clip,
}

/// A path: its box, its colour, its rule, and its own lines in their order.
struct Path {
    at: Place,
    colour: u32,
    even_odd: bool,
    lines: Vec<Walked>,
}

fn path_of(p: usize, path: &[u32], paint: &[u32], path_nos: &[u32], coords: &[f32]) -> Path {
    let at = Place::of(path);
    let own = path_nos.iter().zip(coords.chunks_exact(LINE)).filter(|(&no, line)| no as usize == p && good_coords(line));
    let walks = own.map(|(_, line)| Walk::of(line)).filter(|walk| !walk.skipped(&at));
    let lines = walks.map(|walk| Walked { walk, clip: walk.clip(&at) }).collect();
    Path { at, colour: colour(paint), even_odd: even_odd(paint), lines }
}

impl Path {
    fn has(&self, x: i64, y: i64) -> bool {
        (self.at.x0..self.at.x1).contains(&x) && (self.at.y0..self.at.y1).contains(&y)
    }

    /// The segments that its lines make in the screen tile at x, y, lines in order and each one's steps in order.
    fn pieces(&self, x: i64, y: i64) -> Vec<[f32; SEGMENT]> {
        let mut out = vec![];
        for Walked { walk, clip } in &self.lines {
            let there = (clip.from..clip.to).filter(|&i| walk.step(i, &self.at) == Some((x, y)));
            out.extend(there.map(|i| segment(walk, i, x, y)).filter(held));
        }
        out
    }

    /// What its lines' marks in that tile's row, up to that tile, add up to.
    fn winding(&self, x: i64, y: i64) -> i64 {
        let signed = |l: &Walked| if l.walk.down { -self.marks(l, x, y) } else { self.marks(l, x, y) };
        self.lines.iter().map(signed).sum()
    }

    /// A row passed left of the box is marked in the box's first column; a step that crosses its tile's top edge marks the tile right of it.
    fn marks(&self, Walked { walk, clip }: &Walked, x: i64, y: i64) -> i64 {
        let left_of_it = |i: i64| walk.step(i, &self.at).is_some_and(|(u, v)| v == y && u < x);
        let steps = (clip.from..clip.to).filter(|&i| walk.crosses_top(i) && left_of_it(i)).count();
        (clip.top..clip.bottom).contains(&y) as i64 + steps as i64
    }

    fn covers(&self, winding: i64) -> bool {
        if self.even_odd {
            winding % 2 != 0
        } else {
            winding != 0
        }
    }

    /// Its colour over the pixels of the tile at x, y: by its pieces' coverage; whole where it has no piece and its winding covers; else not at all.
    fn lay(&self, x: i64, y: i64, pixels: &mut [[f32; 4]; TILE]) {
        let (pieces, winding) = (self.pieces(x, y), self.winding(x, y));
        if pieces.is_empty() && !self.covers(winding) {
            return;
        }
        for (k, pixel) in pixels.iter_mut().enumerate() {
            let area = if pieces.is_empty() { 1.0 } else { coverage(self.even_odd, k, &pieces, winding) };
            *pixel = over(*pixel, unpack(self.colour), area);
        }
    }
}

/// Both ends lie in the tile, its edges with it.
fn held(segment: &[f32; SEGMENT]) -> bool {
    end_floats(segment).iter().all(|v| (0.0..=SIDE as f32).contains(v))
}

/// The coverage of pixel k by these pieces in order, from this winding on.
fn coverage(even_odd: bool, k: usize, pieces: &[[f32; SEGMENT]], winding: i64) -> f32 {
    let mut area = winding as f32;
    for more in pieces.iter().filter_map(|s| added(s, k % SIDE, k / SIDE, 0.0, 0.0)) {
        area += more;
    }
    finished(even_odd, area)
}

/// The pixels of the screen: its tiles show the paths in painting order, and pixels off the tiles are as they were.
pub fn picture_of(path_nos: &[u32], coords: &[f32], paths: &[u32], paints: &[u32], cols: u32, rows: u32, width: u32, old: &[u32]) -> Vec<u32> {
    let each = paths.chunks_exact(PATH).zip(paints.chunks_exact(PAINT)).enumerate();
    let paths: Vec<Path> = each.map(|(p, (path, paint))| path_of(p, path, paint, path_nos, coords)).collect();
    let mut out = old.to_vec();
    for (x, y) in (0..rows as i64).flat_map(|y| (0..cols as i64).map(move |x| (x, y))) {
        let mut pixels = [[0.0; 4]; TILE];
        for path in paths.iter().filter(|path| path.has(x, y)) {
            path.lay(x, y, &mut pixels);
        }
        for (k, pixel) in pixels.into_iter().enumerate() {
            let (column, row) = (SIDE * x as usize + k % SIDE, SIDE * y as usize + k / SIDE);
            out[width as usize * row + column] = pack(pixel);
        }
    }
    out
}
