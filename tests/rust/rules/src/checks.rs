//! Checks 1 to 4, of whatever a call takes.

use crate::limits::*;
use crate::records::{box_at, first_at, paths_in};

/// A refusal: its number, and the line, path, reference or screen tile.
pub type No = (u32, u32);

pub fn whole(words: usize, record: usize) -> bool {
    words.is_multiple_of(record)
}

/// Check 2, of paths and tiles.
pub fn too_many(paths: &[u32], tiles: usize) -> bool {
    paths_in(paths) as i64 > PATHS_MOST || tiles as i64 > TILES_MOST
}

/// Checks 3, then 4, path by path.
pub fn check_paths(paths: &[u32], tiles: usize) -> Result<(), No> {
    let mut end_before: i64 = 0;
    for n in 0..paths_in(paths) {
        let ([x0, y0, x1, y1], first) = (box_at(paths, n).map(i64::from), i64::from(first_at(paths, n)));
        if [x0, y0, x1, y1].iter().any(|&edge| edge > EDGE_MOST) || x1 < x0 || y1 < y0 {
            return Err((BAD_BOX, n as u32));
        }
        let end = first + (x1 - x0) * (y1 - y0);
        if first < end_before || end > tiles as i64 {
            return Err((BAD_FIRST, n as u32));
        }
        end_before = end;
    }
    Ok(())
}

/// Checks 1 to 4 of a call that takes paths and tiles, where `shape` is whether all that is lent is whole.
pub fn checked(shape: bool, paths: &[u32], tiles: usize) -> Result<(), No> {
    if !shape || !whole(paths.len(), PATH) {
        return Err((BAD_SHAPE, 0));
    }
    if too_many(paths, tiles) {
        return Err((TOO_MANY, 0));
    }
    check_paths(paths, tiles)
}

/// Writes a refusal's item and gives its number; done is 0, 0.
pub fn answer(got: Result<(), No>, item: &mut u32) -> u32 {
    let (number, of) = got.err().unwrap_or((DONE, 0));
    *item = of;
    number
}
