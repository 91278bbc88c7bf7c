//! How much lines and paths need, before anything is lent for them.
use crate::raw;
use crate::refusal::{answered, Refused, UNTOLD};

/// What [`sizes`] tells.
#[derive(Clone, Copy, Debug, PartialEq, Eq, Hash)]
pub struct Sizes {
    /// The tiles of all paths: so many backdrops, stored words and tally words.
    pub tiles: u32,
    /// The references that counting makes of the lines: so many references, segments and tags.
    pub references: u32,
    /// Command words that surely suffice for the screen.
    pub words: u32,
}

/// Tells how much room [`frame`](crate::frame) and [`write_lists`](crate::write_lists) need for these lines and paths
/// and a screen of `cols` by `rows` tiles. With so much, or more, neither is refused with 9
/// ([`Refusal::NoRoom`](crate::Refusal::NoRoom)). Tiles and references are exact where the frame is done; the words are enough for any paints. No
/// step is walked: a line that counting refuses at one of its steps (10) is counted in.
///
/// ```
/// use groatpocket::{sizes, Path, Sizes};
/// // Path 0: a box of two by two tiles, from tile 0 on; one line down its first column.
/// let paths = Path { x0: 0, y0: 0, x1: 2, y1: 2, first: 0, beam: 7 }.words();
/// let told = sizes(&[0], &[8.0, 8.0, 8.0, 24.0], &paths, 2, 2).unwrap();
/// assert_eq!(told, Sizes { tiles: 4, references: 2, words: 4 * 64 });
/// ```
pub fn sizes(
    path_nos: &[u32],
    coords: &[f32],
    paths: &[u32],
    cols: u32,
    rows: u32,
) -> Result<Sizes, Refused> {
    let (mut tiles, mut references, mut words, mut item) = (UNTOLD, UNTOLD, UNTOLD, UNTOLD);
    // SAFETY: as for `count`.
    #[rustfmt::skip]
    let number = unsafe {
        raw::gp_sizes(
            path_nos.as_ptr(), path_nos.len(),
            coords.as_ptr(), coords.len(),
            paths.as_ptr(), paths.len(),
            cols, rows,
            &mut tiles, &mut references, &mut words, &mut item,
        )
    };
    debug_assert!(
        number == 0 || (tiles, references, words) == (0, 0, 0),
        "tiles, references or words where it is refused"
    );
    answered(number, item).map(|()| Sizes { tiles, references, words })
}
