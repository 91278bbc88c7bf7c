//! The rules of docs/RULES.md, "A picture on paper", once more in plain Rust, from the documents and not from our code.

use crate::limits::SIDE_MOST;

pub const DONE: u32 = 0;
pub const NOT_WHOLE: u32 = 1;
pub const NO_ROOM: u32 = 9;
pub const BAD_SIZE: u32 = 17;
pub const BAD_FILE: u32 = 18;

/// The bytes of a header after "P6", comments left out, each with its place.
fn outside_comments(file: &[u8]) -> Vec<(usize, u8)> {
    let mut kept = Vec::new();
    let mut comment = false;
    for (at, &b) in file.iter().enumerate().skip(2) {
        if comment {
            comment = b != b'\n' && b != b'\r';
        } else if b == b'#' {
            comment = true;
        } else {
            kept.push((at, b));
        }
    }
    kept
}

fn is_white(b: u8) -> bool {
    matches!(b, b' ' | b'\t' | b'\n' | 11 | 12 | b'\r')
}

/// The three numbers of a header, and where its raster begins; none where it is no header.
fn header(file: &[u8]) -> Option<([u128; 3], usize)> {
    if !file.starts_with(b"P6") {
        return None;
    }
    let bytes = outside_comments(file);
    let mut at = 0;
    let mut numbers = [0u128; 3];
    for number in &mut numbers {
        let white = bytes[at..].iter().take_while(|(_, b)| is_white(*b)).count();
        let digits = bytes[at + white..].iter().take_while(|(_, b)| b.is_ascii_digit()).count();
        if white == 0 || digits == 0 {
            return None;
        }
        for (_, b) in &bytes[at + white..at + white + digits] {
            *number = number.saturating_mul(10).saturating_add((b - b'0') as u128);
        }
        at += white + digits;
    }
    let &(place, b) = bytes.get(at)?;
    is_white(b).then_some((numbers, place + 1))
}

/// What reading answers: the width, the height and the raster, or the number of the refusal.
pub fn read(file: &[u8], room: usize) -> Result<(u32, u32, &[u8]), u32> {
    let ([width, height, largest], at) = header(file).ok_or(BAD_FILE)?;
    if largest != 255 {
        return Err(BAD_FILE);
    }
    if [width, height].iter().any(|side| !(1..=SIDE_MOST as u128).contains(side)) {
        return Err(BAD_SIZE);
    }
    let raster = &file[at..];
    if raster.len() as u128 != 3 * width * height {
        return Err(BAD_FILE);
    }
    if room < raster.len() {
        return Err(NO_ROOM);
    }
    Ok((width as u32, height as u32, raster))
}

/// What writing answers: the file, or the number of the refusal.
pub fn write(pixels: &[u32], width: u32, height: u32, room: usize) -> Result<Vec<u8>, u32> {
    if [width, height].iter().any(|&side| !(1..=SIDE_MOST).contains(&side)) {
        return Err(BAD_SIZE);
    }
    if pixels.len() as u128 != width as u128 * height as u128 {
        return Err(NOT_WHOLE);
    }
    let mut file = format!("P6\n{width} {height}\n255\n").into_bytes();
    for pixel in pixels {
        file.extend(&pixel.to_le_bytes()[..3]);
    }
    if room < file.len() {
        return Err(NO_ROOM);
    }
    Ok(file)
}

/// Writing, with the exported call's parameters: all that isn't written stays.
pub fn ppm_write(pixels: &[u32], width: u32, height: u32, out: &mut [u8], size: &mut usize) -> u32 {
    let file = write(pixels, width, height, out.len());
    *size = file.as_ref().map_or(0, |f| f.len());
    file.map_or_else(
        |number| number,
        |f| {
            out[..f.len()].copy_from_slice(&f);
            DONE
        },
    )
}

/// Reading, with the exported call's parameters.
pub fn ppm_read(file: &[u8], out: &mut [u8], width: &mut u32, height: &mut u32) -> u32 {
    let found = read(file, out.len());
    (*width, *height) = found.map_or((0, 0), |(w, h, _)| (w, h));
    found.map_or_else(
        |number| number,
        |(_, _, raster)| {
            out[..raster.len()].copy_from_slice(raster);
            DONE
        },
    )
}
