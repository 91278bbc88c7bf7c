//! Pixels as bytes for a frame buffer.
use crate::raw;
use crate::refusal::{answered, Refused};

/// Bytes to a pixel.
pub const PIXEL_BYTES: usize = 4;

/// What of the pixels is shown, and how it lies in the bytes.
#[derive(Clone, Copy, Debug, PartialEq, Eq, Hash)]
pub struct Present {
    /// Pixels to a row of the screen.
    pub screen: u32,
    /// Pixels to a row that is shown, from the left.
    pub width: u32,
    /// Rows that are shown, from the top.
    pub height: u32,
    /// Bytes from the start of a row to that of the next.
    pub stride: u32,
    /// Blue, green, red, alpha in the place of red, green, blue, alpha.
    pub bgra: bool,
}

/// Writes the top left part of a screen's pixels as bytes to the front of `out`, row after row, each a stride past the one
/// before. Bytes between two rows, and after the last, stay. Refusals: 17, 1, 9, in this order; none writes a byte.
///
/// ```
/// use groatpocket::{present, Present};
/// // Two rows of 16 pixels, of which one pixel each is shown, in rows of 6 bytes.
/// let mut pixels = [0; 32];
/// (pixels[0], pixels[16]) = (0xff604020, 0x04030201);
/// let mut out = [9; 11];
/// let how = Present { screen: 16, width: 1, height: 2, stride: 6, bgra: true };
/// present(&pixels, how, &mut out).unwrap();
/// assert_eq!(out, [0x60, 0x40, 0x20, 0xff, 9, 9, 3, 2, 1, 4, 9]);
/// ```
pub fn present(pixels: &[u32], how: Present, out: &mut [u8]) -> Result<(), Refused> {
    let bgra = how.bgra as u32;
    // SAFETY: as for `count`.
    #[rustfmt::skip]
    let number = unsafe {
        raw::gp_present(
            pixels.as_ptr(), pixels.len(),
            how.screen, how.width, how.height, how.stride, bgra,
            out.as_mut_ptr(), out.len(),
        )
    };
    answered(number, 0)
}
