//! Coverage: what one pixel's area is, a sum over the segments in order, and a tile of 256.

use crate::floats::{max, min};
use crate::limits::*;
use crate::records::{end_floats, ends, segment_floats, segments_in, Y_EDGE};

fn unit(v: f32) -> f32 {
    v.clamp(0.0, 1.0)
}

/// What one segment adds to the pixel at column `i`, row `j`; nothing where it doesn't reach the row.
pub fn added(s: &[f32], i: usize, j: usize, x_tile: f32, y_tile: f32) -> Option<f32> {
    let (p, q) = ends(s);
    let (dx, dy) = (q[0] - p[0], q[1] - p[1]);
    let row = y_tile + j as f32;
    let y = p[1] - row;
    let (y0, y1) = (unit(y), unit(y + dy));
    let height = y0 - y1;
    let edge = dx.signum() * unit(row - s[Y_EDGE] + 1.0);
    if height != 0.0 {
        let reciprocal = dy.recip();
        let start = p[0] - x_tile;
        let x0 = start + (y0 - y) * reciprocal * dx;
        let x1 = start + (y1 - y) * reciprocal * dx;
        let left = min(min(x0, x1) - i as f32, 1.0) - 1.0e-6;
        let right = max(x0, x1) - i as f32;
        let b = min(right, 1.0);
        let c = max(b, 0.0);
        let d = max(left, 0.0);
        let a = (b + 0.5 * (d * d - c * c) - left) / (right - left);
        Some(edge + a * height)
    } else if edge != 0.0 {
        Some(edge)
    } else {
        None
    }
}

/// The coverage of the pixel at column `i`, row `j` of a tile.
pub fn pixel(segments: &[f32], even_odd: bool, backdrop: i32, i: usize, j: usize, x_tile: f32, y_tile: f32) -> f32 {
    let mut area = backdrop as f32;
    for s in segments.chunks_exact(SEGMENT) {
        if let Some(more) = added(s, i, j, x_tile, y_tile) {
            area += more;
        }
    }
    finished(even_odd, area)
}

/// The coverage that a summed area is, by the rule.
pub fn finished(even_odd: bool, area: f32) -> f32 {
    if even_odd {
        (area - 2.0 * (0.5 * area).round()).abs()
    } else {
        min(area.abs(), 1.0)
    }
}

/// Whether a segment has both ends in its tile, the edges with it and either zero, and a y_edge that is a number.
pub fn straight(s: &[f32]) -> bool {
    end_floats(s).iter().all(|v| (0.0..=16.0).contains(v)) && s[Y_EDGE].is_finite()
}

/// The segments `first..first + number`: where they aren't all lent, 13; where one of them is crooked, 20.
pub fn range(segments: &[f32], first: u32, number: u32) -> Result<&[f32], u32> {
    let end = first as i64 + number as i64;
    if end > segments_in(segments) as i64 {
        return Err(PAST_END);
    }
    let named = &segments[segment_floats(first as usize).start..segment_floats(end as usize).start];
    if named.chunks_exact(SEGMENT).all(straight) {
        Ok(named)
    } else {
        Err(BAD_SEGMENT)
    }
}

pub fn cover(segments: &[f32], even_odd: bool, backdrop: i32, x_tile: f32, y_tile: f32, area: &mut [f32]) {
    for (k, a) in area.iter_mut().enumerate() {
        *a = pixel(segments, even_odd, backdrop, k % 16, k / 16, x_tile, y_tile);
    }
}

pub fn fill(segments: &[f32], first: u32, number: u32, even_odd: u32, backdrop: i32, x_tile: f32, y_tile: f32, area: &mut [f32]) -> u32 {
    if !segments.len().is_multiple_of(SEGMENT) || area.len() != 256 {
        return BAD_SHAPE;
    }
    match range(segments, first, number) {
        Ok(named) => cover(named, even_odd != 0, backdrop, x_tile, y_tile, area),
        Err(no) => return no,
    }
    DONE
}
