//! A picture on paper: pixels to a Netpbm P6 file, and back.
use crate::raw;
use crate::refusal::{answered, Refused, UNTOLD};

/// Writes the pixels, red in the lowest byte, as a binary Netpbm P6 file to the front of `out`, and
/// gives its number of bytes. Refusals: 17, 1, 9, in this order; none writes a byte.
///
/// ```
/// let pixels = [0xff604020; 2];
/// let mut out = [0; 64];
/// let n = groatpocket::ppm_write(&pixels, 2, 1, &mut out).unwrap();
/// assert_eq!(&out[..n], b"P6\n2 1\n255\n\x20\x40\x60\x20\x40\x60");
/// ```
pub fn ppm_write(pixels: &[u32], width: u32, height: u32, out: &mut [u8]) -> Result<usize, Refused> {
    let mut size = usize::MAX;
    // SAFETY: as for `count`.
    #[rustfmt::skip]
    let number = unsafe {
        raw::gp_ppm_write(
            pixels.as_ptr(), pixels.len(),
            width, height,
            out.as_mut_ptr(), out.len(),
            &mut size,
        )
    };
    debug_assert!(number == 0 || size == 0, "a size where it is refused");
    answered(number, 0).map(|()| size)
}

/// Reads such a file, comments allowed: its width and height, and red, green and blue of each pixel at
/// the front of `out`. Refusals: 18, 17, 18 for the raster, 9, in this order; none writes a byte.
///
/// ```
/// let mut out = [0; 6];
/// let size = groatpocket::ppm_read(b"P6 # two pixels\n2 1\n255\nabcdef", &mut out).unwrap();
/// assert_eq!((size, &out), ((2, 1), b"abcdef"));
/// ```
pub fn ppm_read(file: &[u8], out: &mut [u8]) -> Result<(u32, u32), Refused> {
    let (mut width, mut height) = (UNTOLD, UNTOLD);
    // SAFETY: as for `count`.
    #[rustfmt::skip]
    let number = unsafe {
        raw::gp_ppm_read(
            file.as_ptr(), file.len(),
            out.as_mut_ptr(), out.len(),
            &mut width, &mut height,
        )
    };
    debug_assert!(number == 0 || (width, height) == (0, 0), "a width or height where it is refused");
    answered(number, 0).map(|()| (width, height))
}
