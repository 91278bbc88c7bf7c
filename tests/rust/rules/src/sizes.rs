//! How much lines and paths need: tiles, references, and command words for a screen. No step of a line is walked.

use crate::checks::*;
use crate::limits::*;
use crate::lists::{fresh_regions, Pair};
use crate::walk::{good_coords, Place, Walk};

/// So many pairs surely have room in a region, whatever they are: found by laying the longest.
pub fn region_pairs() -> usize {
    let longest = Pair::Fill { number: 1, even_odd: false, first: 0, backdrop: 0, color: 0 };
    (1..).take_while(|&n| fresh_regions(&vec![longest; n]) == 0).last().unwrap_or(0)
}

/// The references after a line, or its refusal: counting's, up to its steps.
fn after_line(n: usize, path_no: u32, line: &[f32], places: &[Place], made: i64) -> Result<i64, u32> {
    if n as i64 >= LINES_MOST {
        return Err(BAD_LINE_NO);
    }
    if !good_coords(line) {
        return Err(BAD_COORD);
    }
    let at = places.get(path_no as usize).ok_or(NO_SUCH)?;
    let walk = Walk::of(line);
    if walk.skipped(at) {
        return Ok(made);
    }
    let clip = walk.clip(at);
    if clip.to > clip.from && clip.to - 1 > STEP_MOST {
        return Err(TOO_FULL);
    }
    let after = made + clip.to - clip.from;
    if after > ROOM_MOST {
        return Err(NO_ROOM);
    }
    Ok(after)
}

/// The tiles of a box that lie on the screen.
fn shown(at: &Place, cols: u32, rows: u32) -> i64 {
    let across = (at.x1.min(cols as i64) - at.x0).max(0);
    let down = (at.y1.min(rows as i64) - at.y0).max(0);
    across * down
}

/// Tiles, references, words.
fn told(path_nos: &[u32], coords: &[f32], paths: &[u32], cols: u32, rows: u32) -> Result<[i64; 3], No> {
    if !whole(coords.len(), LINE) || path_nos.len() != coords.len() / LINE || !whole(paths.len(), PATH) {
        return Err((BAD_SHAPE, 0));
    }
    let screen = cols as i128 * rows as i128;
    if too_many(paths, 0) || screen > TILES_MOST as i128 {
        return Err((TOO_MANY, 0));
    }
    check_paths(paths, TILES_MOST as usize)?;
    let places: Vec<Place> = paths.chunks_exact(PATH).map(Place::of).collect();
    let mut made = 0;
    for (n, line) in coords.chunks_exact(LINE).enumerate() {
        made = after_line(n, path_nos[n], line, &places, made).map_err(|no| (no, n as u32))?;
    }
    let ends = places.iter().map(|at| at.first + (at.x1 - at.x0) * (at.y1 - at.y0));
    let pairs: i64 = places.iter().map(|at| shown(at, cols, rows)).sum();
    let regions = screen as i64 + pairs / region_pairs() as i64;
    Ok([ends.max().unwrap_or(0), made, REGION as i64 * regions])
}

pub fn sizes(
    path_nos: &[u32],
    coords: &[f32],
    paths: &[u32],
    cols: u32,
    rows: u32,
    tiles: &mut u32,
    made: &mut u32,
    words: &mut u32,
    item: &mut u32,
) -> u32 {
    let got = told(path_nos, coords, paths, cols, rows);
    [*tiles, *made, *words] = got.unwrap_or_default().map(|n| n as u32);
    answer(got.map(|_| ()), item)
}

#[cfg(test)]
mod tests {
    use super::*;
    use crate::records::path;

    #[test]
    fn ten_fills_have_room_in_a_region() {
        assert_eq!(region_pairs(), 10);
    }

    #[test]
    fn one_line_down_a_column() {
        let [mut tiles, mut made, mut words, mut item] = [7; 4];
        let paths = path([0, 0, 2, 2], 3);
        let no = sizes(&[0], &[8.0, 8.0, 8.0, 24.0], &paths, 3, 1, &mut tiles, &mut made, &mut words, &mut item);
        assert_eq!((no, tiles, made, words, item), (0, 7, 2, 3 * REGION as u32, 0));
    }
}
