//! From lines to pixels in one call: all that is lent is checked first, then a frame, its lists, and fine.

use crate::checks::*;
use crate::frame::LENT;
use crate::limits::*;
use crate::records::{paths_in, segments_in};
use crate::{fine, frame, write_lists};

/// The parts after a frame's five.
pub const LISTS: u32 = 6;
pub const FINE: u32 = 7;

/// Told as a frame tells it.
pub fn draw(
    path_nos: &[u32],
    coords: &[f32],
    paths: &[u32],
    paints: &[u32],
    backdrops: &mut [i32],
    tiles: &mut [u32],
    tally: &mut [u32],
    refs: &mut [u32],
    segments: &mut [f32],
    tags: &mut [u32],
    width: u32,
    cols: u32,
    rows: u32,
    words: &mut [u32],
    pixels: &mut [u32],
    stage: &mut u32,
    item: &mut u32,
    lines: &mut u32,
    made: &mut u32,
) -> u32 {
    let shape = whole(coords.len(), LINE)
        && path_nos.len() == coords.len() / LINE
        && backdrops.len() == tiles.len()
        && tally.len() == tiles.len()
        && whole(refs.len(), REF)
        && whole(segments.len(), SEGMENT)
        && tags.len() == segments_in(segments)
        && whole(paths.len(), PATH)
        && paints.len() == PAINT * paths_in(paths);
    let screen = cols as i128 * rows as i128;
    let narrow = (width as i128) < 16 * cols as i128;
    let few = (pixels.len() as i128) < width as i128 * 16 * rows as i128;
    let no = match () {
        _ if !shape => BAD_SHAPE,
        _ if too_many(paths, tiles.len()) || screen > TILES_MOST as i128 => TOO_MANY,
        _ if narrow || few => BAD_SCREEN,
        _ => DONE,
    };
    if no != DONE {
        (*stage, *item, *lines, *made) = (LENT, 0, 0, 0);
        return no;
    }
    let mut number = frame(path_nos, coords, paths, backdrops, tiles, tally, refs, segments, tags, stage, item, lines, made);
    if number == DONE {
        *stage = LISTS;
        let room = segments_in(segments).min(ROOM_MOST as usize) as u32;
        number = write_lists(paths, paints, backdrops, tiles, tally, cols, rows, room, words, item);
    }
    if number == DONE && *stage == LISTS {
        *stage = FINE;
        number = fine(words, segments, width, cols, rows, 0, cols * rows, pixels, item);
    }
    if number == DONE {
        (*stage, *item) = (0, 0);
    }
    number
}
