//! A band of the screen in a slice of pixels of its own, so that threads can draw at once.
use crate::raw;
use crate::refusal::{answered, Refused, UNTOLD};
use crate::screen::Screen;

/// Draws the tile rows `first..end` of the screen into `pixels`, the band's own slice, which begins with the first pixel of its
/// first row and has `width * 16` pixels or more for each of its rows (else 16). The words and segments are only read, so that
/// threads may share them. Wherever the rows are cut, the bands' pixels one after another are what [`fine`](crate::fine) leaves
/// on the whole screen; a refusal names the tile by its number on the whole screen, and the uppermost band's is the one that `fine` gives.
///
/// ```
/// use groatpocket::{fine, fine_rows, Screen, TILE_SIDE, TILE_WORDS};
/// // One column of three tiles: each SOLID, then COLOR, then END.
/// let screen = Screen { width: 16, cols: 1, rows: 3 };
/// let mut words = [0; 3 * TILE_WORDS];
/// for (list, colour) in words.chunks_exact_mut(TILE_WORDS).zip([0xff0000ff, 0x00ff00ff, 0x0000ffff]) {
///     list[1..5].copy_from_slice(&[2, 3, colour, 0]);
/// }
/// let (mut whole, mut bands) = ([0; 3 * 256], [0; 3 * 256]);
/// fine(&words, &[], screen, 0, 3, &mut whole).unwrap();
/// // Two rows for the first thread, the rest for the second.
/// let row = screen.width as usize * TILE_SIDE;
/// std::thread::scope(|threads| {
///     for (band, pixels) in bands.chunks_mut(2 * row).enumerate() {
///         let (first, end) = (2 * band as u32, screen.rows.min(2 * band as u32 + 2));
///         let words = &words;
///         threads.spawn(move || fine_rows(words, &[], screen, first, end, pixels).unwrap());
///     }
/// });
/// assert_eq!(bands, whole);
/// ```
pub fn fine_rows(
    words: &[u32],
    segments: &[f32],
    screen: Screen,
    first: u32,
    end: u32,
    pixels: &mut [u32],
) -> Result<(), Refused> {
    let mut item = UNTOLD;
    // SAFETY: as for `count`.
    #[rustfmt::skip]
    let number = unsafe {
        raw::gp_fine_rows(
            words.as_ptr(), words.len(),
            segments.as_ptr(), segments.len(),
            screen.width, screen.cols, screen.rows, first, end,
            pixels.as_mut_ptr(), pixels.len(),
            &mut item,
        )
    };
    answered(number, item)
}
