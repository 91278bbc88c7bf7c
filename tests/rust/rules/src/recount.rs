//! A recount: one path's range kept and zeroed, its new lines counted, and the range given back where a line is refused.

use crate::checks::*;
use crate::count::{count_line, Seen, Tiles};
use crate::limits::*;
use crate::walk::Place;

/// A path number that no path has: a line of another path than the one named is refused as one of no path is.
const NO_PATH: u32 = u32::MAX;

pub fn recount(
    path: u32,
    line_nos: &[u32],
    path_nos: &[u32],
    coords: &[f32],
    paths: &[u32],
    backdrops: &mut [i32],
    counts: &mut [u32],
    refs: &mut [u32],
    kept_backdrops: &mut [i32],
    kept_counts: &mut [u32],
    made: &mut u32,
    item: &mut u32,
) -> u32 {
    *made = 0;
    let got = (|| {
        let lines = coords.len() / LINE;
        let shape = whole(coords.len(), LINE)
            && path_nos.len() == lines
            && line_nos.len() == lines
            && backdrops.len() == counts.len()
            && whole(refs.len(), REF);
        checked(shape, paths, counts.len())?;
        let at = paths.chunks_exact(PATH).nth(path as usize).map(Place::of).ok_or((NO_SUCH, 0))?;
        let range = at.first as usize..(at.first + (at.x1 - at.x0) * (at.y1 - at.y0)) as usize;
        if kept_backdrops.len() != range.len() || kept_counts.len() != range.len() {
            return Err((BAD_SHAPE, 0));
        }
        kept_backdrops.copy_from_slice(&backdrops[range.clone()]);
        kept_counts.copy_from_slice(&counts[range.clone()]);
        backdrops[range.clone()].fill(0);
        counts[range.clone()].fill(0);
        for (k, line) in coords.chunks_exact(LINE).enumerate() {
            let of = if path_nos[k] == path { path } else { NO_PATH };
            let mut tiles = Tiles { backdrops: &mut *backdrops, counts: &mut *counts, refs: &mut *refs };
            match count_line(line_nos[k], of, line, paths, *made as i64, &mut tiles, &mut Seen::default()) {
                Ok(steps) => *made += steps as u32,
                Err(number) => {
                    backdrops[range.clone()].copy_from_slice(kept_backdrops);
                    counts[range].copy_from_slice(kept_counts);
                    return Err((number, line_nos[k]));
                }
            }
        }
        Ok(())
    })();
    answer(got, item)
}
