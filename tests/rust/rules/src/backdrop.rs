//! Backdrop: running sums along the tile rows of each path, each path all or nothing.

use crate::checks::*;
use crate::limits::*;
use crate::records::{box_at, first_at, paths_in};

/// The path's tiles with its rows summed, or nothing where a sum leaves i32.
fn summed(tiles: &[i32], width: usize) -> Option<Vec<i32>> {
    let mut out = Vec::with_capacity(tiles.len());
    for row in tiles.chunks_exact(width.max(1)) {
        let mut sum: i64 = 0;
        for &backdrop in row {
            sum += backdrop as i64;
            out.push(i32::try_from(sum).ok()?);
        }
    }
    Some(out)
}

pub fn backdrop(paths: &[u32], backdrops: &mut [i32], item: &mut u32) -> u32 {
    let got = (|| {
        checked(true, paths, backdrops.len())?;
        for n in 0..paths_in(paths) {
            let ([x0, y0, x1, y1], first) = (box_at(paths, n).map(|v| v as usize), first_at(paths, n) as usize);
            let (width, height) = (x1 - x0, y1 - y0);
            let range = &mut backdrops[first..first + width * height];
            let sums = summed(range, width).ok_or((OUT_OF_I32, n as u32))?;
            range.copy_from_slice(&sums);
        }
        Ok(())
    })();
    answer(got, item)
}
