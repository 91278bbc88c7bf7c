//! Closed outlines: each path's lines taken by themselves, cut into outlines, each held against where it began.

use crate::checks::*;
use crate::limits::*;
use std::collections::BTreeMap;

/// Words of working room for each path.
pub const ROOM_EACH: usize = 2;

/// The same bit for bit; a NaN is the same as nothing.
fn same(p: &[f32], q: &[f32]) -> bool {
    p.iter().zip(q).all(|(a, b)| !a.is_nan() && a.to_bits() == b.to_bits())
}

fn start(coords: &[f32], line: usize) -> &[f32] {
    &coords[LINE * line..LINE * line + LINE / 2]
}

fn end(coords: &[f32], line: usize) -> &[f32] {
    &coords[LINE * line + LINE / 2..LINE * (line + 1)]
}

/// A path's lines, cut where one doesn't start where the one before it ended.
fn cut<'a>(coords: &[f32], lines: &'a [usize]) -> Vec<&'a [usize]> {
    lines.chunk_by(|&k, &l| same(end(coords, k), start(coords, l))).collect()
}

/// The first line after which an outline stands open.
pub fn first_open(path_nos: &[u32], coords: &[f32]) -> Option<usize> {
    let mut of: BTreeMap<u32, Vec<usize>> = BTreeMap::new();
    for (line, &path) in path_nos.iter().enumerate() {
        of.entry(path).or_default().push(line);
    }
    let outlines = of.values().flat_map(|lines| cut(coords, lines));
    let open = outlines.filter(|o| !same(end(coords, o[o.len() - 1]), start(coords, o[0])));
    open.map(|o| o[o.len() - 1]).min()
}

fn checked(path_nos: &[u32], coords: &[f32], path_count: u32, room: usize) -> Result<(), No> {
    if !whole(coords.len(), LINE) || path_nos.len() != coords.len() / LINE {
        return Err((BAD_SHAPE, 0));
    }
    if i64::from(path_count) > PATHS_MOST {
        return Err((TOO_MANY, 0));
    }
    if room < ROOM_EACH * path_count as usize {
        return Err((NO_ROOM, 0));
    }
    for (line, &path) in path_nos.iter().enumerate() {
        if line as i64 >= LINES_MOST {
            return Err((BAD_LINE_NO, line as u32));
        }
        if path >= path_count {
            return Err((NO_SUCH, line as u32));
        }
    }
    Ok(())
}

pub fn outlines(path_nos: &[u32], coords: &[f32], path_count: u32, work: &mut [u32], item: &mut u32) -> u32 {
    let mut got = checked(path_nos, coords, path_count, work.len());
    if got.is_ok() {
        got = first_open(path_nos, coords).map_or(Ok(()), |line| Err((LEFT_OPEN, line as u32)));
        work[..ROOM_EACH * path_count as usize].fill(0);
    }
    answer(got, item)
}

#[cfg(test)]
mod tests {
    use super::*;

    fn asked(path_nos: &[u32], coords: &[f32]) -> (u32, u32) {
        let (mut work, mut item) = ([7; 5], 9);
        let number = outlines(path_nos, coords, 2, &mut work, &mut item);
        let used = if matches!(number, DONE | LEFT_OPEN) { 4 } else { 0 };
        assert!(work.iter().enumerate().all(|(k, &w)| w == if k < used { 0 } else { 7 }));
        (number, item)
    }

    #[test]
    fn closed_and_open() {
        let triangle = [0.0, 0.0, 4.0, 0.0, 4.0, 0.0, 0.0, 4.0, 0.0, 4.0, 0.0, 0.0];
        assert_eq!(asked(&[0, 0, 0], &triangle), (DONE, 0));
        assert_eq!(asked(&[0, 0], &triangle[..8]), (LEFT_OPEN, 1));
        // a line of another path between them is an outline of its own, left open before the first one's end
        assert_eq!(asked(&[0, 1, 0], &triangle), (LEFT_OPEN, 0));
        assert_eq!(asked(&[0, 2, 0], &triangle), (NO_SUCH, 1));
        let mut zero = triangle;
        zero[11] = -0.0;
        assert_eq!(asked(&[0, 0, 0], &zero), (LEFT_OPEN, 2));
        let nan = [f32::NAN; 4];
        assert_eq!(asked(&[0], &nan), (LEFT_OPEN, 0));
        assert_eq!(asked(&[1], &[5.0; 4]), (DONE, 0));
        // two outlines of one path, the second of which goes on from the first one's start
        assert_eq!(asked(&[1, 1, 1, 1], &[triangle.as_slice(), &[0.0, 0.0, 1.0, 1.0]].concat()), (LEFT_OPEN, 3));
    }
}
