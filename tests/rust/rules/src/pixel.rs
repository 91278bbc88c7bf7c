//! One pixel of a tile: its coverage by a fill, and its colour under a tile's list of commands.

use crate::checks::whole;
use crate::fill::{pixel as coverage, range};
use crate::fine::tile_pixels;
use crate::limits::*;

/// The first number that a tile has no column, and no row, of.
const SIDE: u32 = 16;

fn off(column: u32, row: u32) -> bool {
    column >= SIDE || row >= SIDE
}

#[rustfmt::skip]
pub fn pixel_area(
    segments: &[f32], first: u32, number: u32, even_odd: u32, backdrop: i32, x_tile: f32, y_tile: f32, column: u32, row: u32,
    area: &mut f32,
) -> u32 {
    if off(column, row) {
        return OFF_PIXEL;
    }
    if !whole(segments.len(), SEGMENT) {
        return BAD_SHAPE;
    }
    match range(segments, first, number) {
        Ok(named) => *area = coverage(named, even_odd != 0, backdrop, column as usize, row as usize, x_tile, y_tile),
        Err(no) => return no,
    }
    DONE
}

pub fn pixel(words: &[u32], segments: &[f32], tile: u32, column: u32, row: u32, pixel: &mut u32) -> u32 {
    if off(column, row) {
        return OFF_PIXEL;
    }
    if !whole(segments.len(), SEGMENT) {
        return BAD_SHAPE;
    }
    match tile_pixels(words, segments, REGION as u64 * tile as u64 + 1) {
        Ok(made) => {
            *pixel = made[(SIDE * row + column) as usize];
            DONE
        }
        Err(no) => no,
    }
}
