//! The rules of docs/RULES.md, "A picture on a screen", once more in plain Rust, from the documents and not from our code.
use crate::limits::SIDE_MOST;
use crate::picture::{BAD_SIZE, DONE, NOT_WHOLE, NO_ROOM};

/// Bytes to a pixel.
pub const EACH: u64 = 4;

/// The bytes that rows take, the last without what its stride leaves.
pub fn bytes(width: u32, height: u32, stride: u32) -> u64 {
    stride as u64 * (height as u64 - 1) + EACH * width as u64
}

pub fn present(pixels: &[u32], screen: u32, width: u32, height: u32, stride: u32, bgra: u32, out: &mut [u8]) -> u32 {
    if [width, height].iter().any(|side| !(1..=SIDE_MOST).contains(side)) {
        return BAD_SIZE;
    }
    let whole = screen >= width && pixels.len() as u64 % screen as u64 == 0 && pixels.len() as u64 / screen as u64 >= height as u64;
    if !whole || (stride as u64) < EACH * width as u64 {
        return NOT_WHOLE;
    }
    if (out.len() as u64) < bytes(width, height, stride) {
        return NO_ROOM;
    }
    for (y, row) in pixels.chunks(screen as usize).take(height as usize).enumerate() {
        for (x, pixel) in row.iter().take(width as usize).enumerate() {
            let [red, green, blue, alpha] = pixel.to_le_bytes();
            let shown = if bgra == 0 { [red, green, blue, alpha] } else { [blue, green, red, alpha] };
            out[stride as usize * y + EACH as usize * x..][..EACH as usize].copy_from_slice(&shown);
        }
    }
    DONE
}

#[cfg(test)]
mod tests {
    use super::*;

    #[test]
    fn rows_a_stride_apart() {
        let mut out = [9; 11];
        let pixels = [0x04030201, 7, 0x0d0c0b0a, 7];
        assert_eq!(present(&pixels, 2, 1, 2, 6, 0, &mut out), 0);
        assert_eq!(out, [1, 2, 3, 4, 9, 9, 10, 11, 12, 13, 9]);
        assert_eq!(present(&pixels, 2, 1, 2, 6, 7, &mut out[..10]), 0);
        assert_eq!(out, [3, 2, 1, 4, 9, 9, 12, 11, 10, 13, 9]);
        assert_eq!(present(&pixels, 2, 1, 2, 6, 0, &mut out[..9]), NO_ROOM);
        assert_eq!(present(&pixels, 3, 1, 1, 6, 0, &mut out), NOT_WHOLE);
        assert_eq!(present(&pixels, 2, 1, 2, 3, 0, &mut out), NOT_WHOLE);
        assert_eq!(present(&pixels, 2, 1, 0, 6, 0, &mut out), BAD_SIZE);
    }
}
