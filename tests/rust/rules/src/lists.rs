//! The lists of commands: what each path puts on a screen tile, and how a list is laid out in regions of 64 words.

use crate::checks::*;
use crate::fill::{cover, range};
use crate::fine::{over, pack, unpack, COLOR, END, FILL, JUMP, SOLID};
use crate::limits::*;
use crate::records::{colour, even_odd, segment_floats};
use crate::walk::Place;

const JUMP_WORDS: usize = 2;

/// What a path puts on a screen tile, and its colour.
#[derive(Clone, Copy, Debug, PartialEq)]
pub enum Pair {
    Fill { number: u32, even_odd: bool, first: u32, backdrop: i32, color: u32 },
    Solid { color: u32 },
}

impl Pair {
    fn words(&self) -> Vec<u32> {
        match *self {
            Pair::Fill { number, even_odd, first, backdrop, color } => {
                vec![FILL, (2 * number as u64 + even_odd as u64) as u32, first, backdrop as u32, COLOR, color]
            }
            Pair::Solid { color } => vec![SOLID, COLOR, color],
        }
    }
}

/// The tables of a frame and the paints of its paths.
#[derive(Clone, Copy)]
pub struct Tables<'a> {
    pub paths: &'a [u32],
    pub paints: &'a [u32],
    pub backdrops: &'a [i32],
    pub stored: &'a [u32],
    pub tally: &'a [u32],
}

impl Tables<'_> {
    /// What one path puts on the screen tile at x, y, if anything.
    fn pair(&self, path: &[u32], paint: &[u32], x: i64, y: i64) -> Option<Pair> {
        let at = Place::of(path);
        if x < at.x0 || x >= at.x1 || y < at.y0 || y >= at.y1 {
            return None;
        }
        let t = at.tile(x, y);
        let (color, even_odd, backdrop) = (colour(paint), even_odd(paint), self.backdrops[t]);
        let covers = if even_odd { backdrop % 2 != 0 } else { backdrop != 0 };
        if self.tally[t] > 0 {
            Some(Pair::Fill { number: self.tally[t], even_odd, first: !self.stored[t], backdrop, color })
        } else {
            covers.then_some(Pair::Solid { color })
        }
    }

    /// The pairs of the screen tile at x, y, paths in painting order, each with its path's number.
    pub fn pairs_of_paths(&self, x: i64, y: i64) -> Vec<(usize, Pair)> {
        let each = self.paths.chunks_exact(PATH).zip(self.paints.chunks_exact(PAINT)).enumerate();
        each.filter_map(|(p, (path, paint))| self.pair(path, paint, x, y).map(|pair| (p, pair))).collect()
    }

    pub fn pairs(&self, x: i64, y: i64) -> Vec<Pair> {
        self.pairs_of_paths(x, y).into_iter().map(|(_, pair)| pair).collect()
    }
}

/// The words of tile t's list with their places, its commands without END, and the fresh regions it took.
struct Laid {
    words: Vec<(usize, u32)>,
    commands: usize,
    fresh: usize,
}

fn laid(pairs: &[Pair], t: usize, first_fresh: usize) -> Laid {
    let mut out = Laid { words: vec![], commands: 0, fresh: 0 };
    let (mut at, mut end) = (REGION * t + 1, REGION * t + REGION);
    for pair in pairs {
        let words = pair.words();
        if at + words.len() + JUMP_WORDS > end {
            let to = REGION * (first_fresh + out.fresh);
            out.words.extend([(at, JUMP), (at + 1, to as u32)]);
            out.commands += 1;
            out.fresh += 1;
            (at, end) = (to, to + REGION);
        }
        for word in words {
            out.words.push((at, word));
            at += 1;
        }
        out.commands += 2;
    }
    out.words.push((at, END));
    out
}

/// The fresh regions that a tile's list takes.
pub fn fresh_regions(pairs: &[Pair]) -> usize {
    laid(pairs, 0, 1).fresh
}

pub fn write_lists(
    paths: &[u32],
    paints: &[u32],
    backdrops: &[i32],
    stored: &[u32],
    tally: &[u32],
    cols: u32,
    rows: u32,
    room: u32,
    words: &mut [u32],
    item: &mut u32,
) -> u32 {
    let tables = Tables { paths, paints, backdrops, stored, tally };
    let got = written(&tables, cols, rows, room, words.len());
    if let Ok(all) = &got {
        for &(at, word) in all {
            words[at] = word;
        }
    }
    answer(got.map(|_| ()), item)
}

/// All words to write with their places.
fn written(tables: &Tables, cols: u32, rows: u32, room: u32, words: usize) -> Result<Vec<(usize, u32)>, No> {
    let n = tables.stored.len();
    let shape = whole(tables.paths.len(), PATH)
        && tables.paints.len() == PAINT * (tables.paths.len() / PATH)
        && tables.backdrops.len() == n
        && tables.tally.len() == n;
    if !shape {
        return Err((BAD_SHAPE, 0));
    }
    let screen = cols as i128 * rows as i128;
    if too_many(tables.paths, n) || screen > TILES_MOST as i128 {
        return Err((TOO_MANY, 0));
    }
    check_paths(tables.paths, n)?;
    let screen = screen as usize;
    let mut all = vec![];
    let mut regions = screen;
    let mut no_slots = false;
    for t in 0..screen {
        let pairs = tables.pairs((t % cols as usize) as i64, (t / cols as usize) as i64);
        let list = laid(&pairs, t, regions);
        if list.commands > COMMANDS_MOST as usize {
            return Err((TOO_LONG, t as u32));
        }
        no_slots |= pairs.iter().any(|pair| !has_slots(pair, room));
        regions += list.fresh;
        all.extend(list.words);
    }
    if no_slots || REGION * regions > words {
        return Err((NO_ROOM, 0));
    }
    Ok(all)
}

fn has_slots(pair: &Pair, room: u32) -> bool {
    match *pair {
        Pair::Fill { first, number, .. } => first as i64 + number as i64 <= (room as i64).min(ROOM_MOST),
        Pair::Solid { .. } => true,
    }
}

/// Whether a fill of the pairs has a crooked segment.
pub fn crooked(pairs: &[Pair], segments: &[f32]) -> bool {
    pairs.iter().any(|pair| match *pair {
        Pair::Fill { number, first, .. } => range(segments, first, number).is_err(),
        Pair::Solid { .. } => false,
    })
}

/// The pixels of a tile on which the paths are painted one after another, without a list.
pub fn painted(pairs: &[Pair], segments: &[f32]) -> [u32; 256] {
    let mut rgba = [[0.0f32; 4]; 256];
    for pair in pairs {
        let mut area = [1.0f32; 256];
        let color = match *pair {
            Pair::Fill { number, even_odd, first, backdrop, color } => {
                let own = &segments[segment_floats(first as usize).start..segment_floats(first as usize + number as usize).start];
                cover(own, even_odd, backdrop, 0.0, 0.0, &mut area);
                color
            }
            Pair::Solid { color } => color,
        };
        for (pixel, a) in rgba.iter_mut().zip(area) {
            *pixel = over(*pixel, unpack(color), a);
        }
    }
    rgba.map(pack)
}
