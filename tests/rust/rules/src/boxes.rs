//! Boxes: for each path the tiles that its lines' ends lie in, a margin larger on every side, first tiles one after another.

use crate::checks::*;
use crate::limits::*;
use crate::records::{paths_in, points, stamped, words_of};
use crate::walk::{good_coords, TILE_SCALE};

/// So many words of working room for each path.
const WORK_EACH: usize = 4;

/// How many words of working room are asked for.
pub fn work_words(paths: usize) -> usize {
    WORK_EACH * paths
}

/// The tile that a coordinate lies in, counted from 0; one below 0 counts as in tile 0.
pub fn tile_at(v: f32) -> i64 {
    ((v * TILE_SCALE).floor() as i64).max(0)
}

/// The columns and rows of the tiles of both ends of a line.
fn tiles_of(line: &[f32]) -> [[i64; 2]; 2] {
    let (p0, p1) = points(line);
    [p0.map(tile_at), p1.map(tile_at)]
}

/// Line `l`, of path `path` of `n`.
fn checked_line(l: usize, line: &[f32], path: u32, n: usize) -> Result<(), No> {
    let named = l as u32;
    if l as i64 >= LINES_MOST {
        return Err((BAD_LINE_NO, named));
    }
    if !good_coords(line) {
        return Err((BAD_COORD, named));
    }
    if path as usize >= n {
        return Err((NO_SUCH, named));
    }
    if tiles_of(line).iter().flatten().any(|&tile| tile + 1 > EDGE_MOST) {
        return Err((BAD_BOX, path));
    }
    Ok(())
}

/// The box around tiles, columns and rows, with the margin; an empty one around none.
fn around(tiles: &[[i64; 2]], margin: u32) -> [i64; 4] {
    let margin = i64::from(margin);
    let edges = |k: usize| {
        let (low, high) = (tiles.iter().map(|t| t[k]).min()?, tiles.iter().map(|t| t[k]).max()?);
        Some(((low - margin).max(0), (high + 1 + margin).min(EDGE_MOST)))
    };
    match (edges(0), edges(1)) {
        (Some((x0, x1)), Some((y0, y1))) => [x0, y0, x1, y1],
        _ => [0; 4],
    }
}

pub fn boxes(
    path_nos: &[u32],
    coords: &[f32],
    beams: &[u32],
    margin: u32,
    paths: &mut [u32],
    work: &mut [u32],
    tiles: &mut u32,
    item: &mut u32,
) -> u32 {
    *tiles = 0;
    let got = (|| {
        let shape = whole(coords.len(), LINE) && path_nos.len() == coords.len() / LINE && whole(paths.len(), PATH) && paths_in(paths) == beams.len();
        if !shape {
            return Err((BAD_SHAPE, 0));
        }
        if beams.len() as i64 > PATHS_MOST {
            return Err((TOO_MANY, 0));
        }
        if work.len() < work_words(beams.len()) {
            return Err((NO_ROOM, 0));
        }
        for (l, line) in coords.chunks_exact(LINE).enumerate() {
            checked_line(l, line, path_nos[l], beams.len())?;
        }
        work[..work_words(beams.len())].fill(0);
        let mut ends = vec![vec![]; beams.len()];
        for (line, &path) in coords.chunks_exact(LINE).zip(path_nos) {
            ends[path as usize].extend(tiles_of(line));
        }
        let boxes: Vec<[i64; 4]> = ends.iter().map(|tiles| around(tiles, margin)).collect();
        let areas: Vec<i64> = boxes.iter().map(|b| (b[2] - b[0]) * (b[3] - b[1])).collect();
        if areas.iter().sum::<i64>() > TILES_MOST {
            return Err((TOO_MANY, 0));
        }
        let mut first = 0;
        for (k, b) in boxes.iter().enumerate() {
            paths[words_of(k)].copy_from_slice(&stamped(b.map(|edge| edge as u32), first as u32, beams[k]));
            first += areas[k];
        }
        *tiles = first as u32;
        Ok(())
    })();
    answer(got, item)
}

#[cfg(test)]
mod tests {
    use super::*;

    fn made<const N: usize>(lines: &[(u32, [f32; LINE])], beams: [u32; N], margin: u32) -> (u32, u32, u32, Vec<u32>) {
        let path_nos: Vec<u32> = lines.iter().map(|l| l.0).collect();
        let coords: Vec<f32> = lines.iter().flat_map(|l| l.1).collect();
        let (mut paths, mut work) = (vec![9; PATH * N], vec![7; work_words(N) + 1]);
        let (mut tiles, mut item) = (99, 99);
        let number = boxes(&path_nos, &coords, &beams, margin, &mut paths, &mut work, &mut tiles, &mut item);
        assert_eq!(work[work_words(N)], 7);
        (number, tiles, item, paths)
    }

    #[test]
    fn one_tile_and_its_margin() {
        let line = [(0, [40.0, 40.0, 44.0, 41.0])];
        assert_eq!(made(&line, [5], 0), (DONE, 1, 0, stamped([2, 2, 3, 3], 0, 5).to_vec()));
        assert_eq!(made(&line, [5], 1), (DONE, 9, 0, stamped([1, 1, 4, 4], 0, 5).to_vec()));
        // the left and upper margin end at 0
        assert_eq!(made(&line, [5], 4), (DONE, 49, 0, stamped([0, 0, 7, 7], 0, 5).to_vec()));
    }

    #[test]
    fn edges_of_tiles_and_of_what_there_is() {
        // 16 lies in tile 1; what is below 0 counts as in tile 0
        assert_eq!(made(&[(0, [16.0, -40.0, 31.9, 15.9])], [5], 0), (DONE, 1, 0, stamped([1, 0, 2, 1], 0, 5).to_vec()));
        let most = EDGE_MOST as u32;
        let last = COORD_MOST - 0.0078125;
        assert_eq!(made(&[(0, [last, 0.0, last, 0.0])], [5], 1), (DONE, 4, 0, stamped([most - 2, 0, most, 2], 0, 5).to_vec()));
        assert_eq!(made(&[(1, [COORD_MOST, 0.0, 0.0, 0.0])], [5, 6], 1).0, BAD_BOX);
        assert_eq!(made(&[(1, [COORD_MOST, 0.0, 0.0, 0.0])], [5, 6], 1).2, 1);
    }

    #[test]
    fn one_after_another() {
        let lines = [(2, [0.0, 0.0, 20.0, 0.0]), (0, [0.0, 0.0, 0.0, 40.0]), (2, [0.0, 17.0, 0.0, 0.0])];
        let words = [stamped([0, 0, 1, 3], 0, 1), stamped([0; 4], 3, 2), stamped([0, 0, 2, 2], 3, 3)].concat();
        assert_eq!(made(&lines, [1, 2, 3], 0), (DONE, 7, 0, words));
    }
}
