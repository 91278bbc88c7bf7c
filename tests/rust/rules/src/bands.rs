//! A band of the screen: some of its tile rows, in pixels of the band's own.

use crate::checks::*;
use crate::fine::tile_pixels;
use crate::limits::*;

pub fn fine_rows(words: &[u32], segments: &[f32], width: u32, cols: u32, rows: u32, first: u32, end: u32, pixels: &mut [u32], item: &mut u32) -> u32 {
    let got = (|| {
        if !whole(segments.len(), SEGMENT) || first > end || end > rows {
            return Err((BAD_SHAPE, 0));
        }
        if cols as i128 * rows as i128 > TILES_MOST as i128 {
            return Err((TOO_MANY, 0));
        }
        let few = (pixels.len() as i128) < width as i128 * 16 * (end - first) as i128;
        if (width as i128) < 16 * cols as i128 || few {
            return Err((BAD_SCREEN, 0));
        }
        for row in 0..end - first {
            for column in 0..cols {
                let t = cols * (first + row) + column;
                let made = tile_pixels(words, segments, REGION as u64 * t as u64 + 1).map_err(|no| (no, t))?;
                for (line, sixteen) in made.chunks_exact(16).enumerate() {
                    let base = width as usize * (16 * row as usize + line) + 16 * column as usize;
                    pixels[base..base + 16].copy_from_slice(sixteen);
                }
            }
        }
        Ok(())
    })();
    answer(got, item)
}
