//! Fine: a tile's commands, its colours, and the screen.

use crate::checks::*;
use crate::fill::{cover, range};
use crate::limits::*;

pub const END: u32 = 0;
pub const FILL: u32 = 1;
pub const SOLID: u32 = 2;
pub const COLOR: u32 = 3;
pub const JUMP: u32 = 4;

/// The high byte is red, the low one alpha.
pub fn unpack(color: u32) -> [f32; 4] {
    [24, 16, 8, 0].map(|shift| (color >> shift & 0xff) as f32 * (1.0 / 255.0))
}

/// Red lowest; NaN packs as 0.
pub fn pack(rgba: [f32; 4]) -> u32 {
    let byte = |v: f32| (v.clamp(0.0, 1.0) * 255.0).round() as u32;
    byte(rgba[0]) | byte(rgba[1]) << 8 | byte(rgba[2]) << 16 | byte(rgba[3]) << 24
}

pub fn over(under: [f32; 4], color: [f32; 4], area: f32) -> [f32; 4] {
    let fore = color.map(|v| v * area);
    let mut out = [0.0; 4];
    for j in 0..4 {
        out[j] = under[j] * (1.0 - fore[3]) + fore[j];
    }
    out
}

/// One tile's 256 pixels, or the first refusal that its commands meet.
pub fn tile_pixels(words: &[u32], segments: &[f32], start: u64) -> Result<[u32; 256], u32> {
    let word = |at: u64| words.get(at as usize).copied().ok_or(PAST_END);
    let mut area = [0.0f32; 256];
    let mut rgba = [[0.0f32; 4]; 256];
    let mut at = start;
    let mut ran = 0;
    loop {
        let tag = word(at)?;
        if tag == END {
            return Ok(rgba.map(pack));
        }
        if ran == COMMANDS_MOST {
            return Err(TOO_LONG);
        }
        match tag {
            FILL => {
                let (number_and_rule, first, backdrop) = (word(at + 1)?, word(at + 2)?, word(at + 3)?);
                let named = range(segments, first, number_and_rule / 2)?;
                cover(named, number_and_rule % 2 == 1, backdrop as i32, 0.0, 0.0, &mut area);
                at += 4;
            }
            SOLID => {
                area = [1.0; 256];
                at += 1;
            }
            COLOR => {
                let color = unpack(word(at + 1)?);
                for (pixel, a) in rgba.iter_mut().zip(area) {
                    *pixel = over(*pixel, color, a);
                }
                at += 2;
            }
            JUMP => at = word(at + 1)? as u64,
            _ => return Err(UNKNOWN),
        }
        ran += 1;
    }
}

pub fn fine(words: &[u32], segments: &[f32], width: u32, cols: u32, rows: u32, from: u32, to: u32, pixels: &mut [u32], item: &mut u32) -> u32 {
    let got = (|| {
        let tiles = cols as i128 * rows as i128;
        if !whole(segments.len(), SEGMENT) || from > to || to as i128 > tiles {
            return Err((BAD_SHAPE, 0));
        }
        if tiles > TILES_MOST as i128 {
            return Err((TOO_MANY, 0));
        }
        let narrow = (width as i128) < 16 * cols as i128;
        let few = (pixels.len() as i128) < width as i128 * 16 * rows as i128;
        if narrow || few {
            return Err((BAD_SCREEN, 0));
        }
        for t in from..to {
            let made = tile_pixels(words, segments, REGION as u64 * t as u64 + 1).map_err(|no| (no, t))?;
            let (x, y) = (16 * (t % cols) as usize, 16 * (t / cols) as usize);
            for (row, sixteen) in made.chunks_exact(16).enumerate() {
                let base = width as usize * (y + row) + x;
                pixels[base..base + 16].copy_from_slice(sixteen);
            }
        }
        Ok(())
    })();
    answer(got, item)
}
