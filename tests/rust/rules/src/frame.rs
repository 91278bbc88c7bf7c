//! A frame: all that is lent is checked first, then count, sums, hand-out and tiling over cleared tiles.

use crate::checks::*;
use crate::limits::*;
use crate::records::segments_in;
use crate::{backdrop, count, hand_out, tile};

/// The parts of a frame that may refuse.
pub const LENT: u32 = 1;
pub const COUNTING: u32 = 2;
pub const SUMS: u32 = 3;
pub const HAND_OUT: u32 = 4;
pub const TILING: u32 = 5;

/// The stage and the item are 0 where it is done; `lines` and `made` are what was counted.
pub fn frame(
    path_nos: &[u32],
    coords: &[f32],
    paths: &[u32],
    backdrops: &mut [i32],
    tiles: &mut [u32],
    tally: &mut [u32],
    refs: &mut [u32],
    segments: &mut [f32],
    tags: &mut [u32],
    stage: &mut u32,
    item: &mut u32,
    lines: &mut u32,
    made: &mut u32,
) -> u32 {
    (*lines, *made, *item) = (0, 0, 0);
    let checked = lent(path_nos, coords, paths, backdrops, tiles, tally, refs, segments, tags);
    let mut number = answer(checked, item);
    *stage = LENT;
    if number == DONE {
        backdrops.fill(0);
        tiles.fill(0);
        *stage = COUNTING;
        let all = path_nos.len() as u32;
        number = count(path_nos, coords, paths, backdrops, tiles, refs, all, lines, made, item);
    }
    if number == DONE {
        *stage = SUMS;
        number = backdrop(paths, backdrops, item);
    }
    if number == DONE {
        *stage = HAND_OUT;
        let room = segments_in(segments).min(ROOM_MOST as usize) as u32;
        number = hand_out(tiles, tally, room);
    }
    if number == DONE {
        *stage = TILING;
        number = tile(path_nos, coords, paths, tiles, refs, 0, *made, segments, tags, item);
    }
    if number == DONE {
        (*stage, *item) = (0, 0);
    }
    number
}

/// Checks 1 of every stage, then 2, 3 and 4.
fn lent(
    path_nos: &[u32],
    coords: &[f32],
    paths: &[u32],
    backdrops: &[i32],
    tiles: &[u32],
    tally: &[u32],
    refs: &[u32],
    segments: &[f32],
    tags: &[u32],
) -> Result<(), No> {
    let shape = whole(coords.len(), LINE)
        && path_nos.len() == coords.len() / LINE
        && backdrops.len() == tiles.len()
        && tally.len() == tiles.len()
        && whole(refs.len(), REF)
        && whole(segments.len(), SEGMENT)
        && tags.len() == segments_in(segments);
    checked(shape, paths, tiles.len())
}
