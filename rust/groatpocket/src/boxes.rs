//! The boxes of paths, made from their lines.
use crate::raw;
use crate::refusal::{answered, Refused, UNTOLD};

/// Words of working room that [`boxes`] asks for, for each path.
pub const BOX_WORDS: usize = 4;

/// What [`boxes`] is lent, by name.
#[derive(Debug)]
pub struct Boxes<'a> {
    /// The path number of each line.
    pub path_nos: &'a [u32],
    /// The lines, [`LINE_FLOATS`](crate::LINE_FLOATS) each.
    pub coords: &'a [f32],
    /// The beam number of each path.
    pub beams: &'a [u32],
    /// By how many tiles a box is larger on every side, as far as 0 and the edge limit let it.
    pub margin: u32,
    /// The paths to be made, the words of a [`Path`](crate::Path) each: as many as beam numbers.
    pub paths: &'a mut [u32],
    /// Working room: [`BOX_WORDS`] for each path, which are 0 afterwards.
    pub work: &'a mut [u32],
}

/// Makes the records of paths from their lines: for each path the tiles that its lines' ends lie in, a margin larger on
/// every side, then first tiles one after another, and its beam number; a path with no line gets an empty box. Gives the
/// number of tiles that the boxes take in all. Refusals: 1, 2, 9, then for each line 5, 6, 7 and 3, then 2 for the tiles; none
/// changes a path.
///
/// ```
/// use groatpocket::{boxes, Boxes, Path, BOX_WORDS, PATH_WORDS};
/// // Path 0: one line, from tile 2,2 to tile 2,3; path 1 has none.
/// let (path_nos, coords) = ([0], [40.0, 40.0, 40.0, 56.0]);
/// let (mut paths, mut work) = ([[0; PATH_WORDS]; 2], [0; 2 * BOX_WORDS]);
/// let tiles = boxes(Boxes {
///     path_nos: &path_nos,
///     coords: &coords,
///     beams: &[7, 8],
///     margin: 1,
///     paths: paths.as_flattened_mut(),
///     work: &mut work,
/// })
/// .unwrap();
/// assert_eq!(paths[0], Path { x0: 1, y0: 1, x1: 4, y1: 5, first: 0, beam: 7 }.words());
/// assert_eq!(paths[1], Path { x0: 0, y0: 0, x1: 0, y1: 0, first: 12, beam: 8 }.words());
/// assert_eq!(tiles, 12);
/// ```
pub fn boxes(lent: Boxes<'_>) -> Result<u32, Refused> {
    let Boxes { path_nos, coords, beams, margin, paths, work } = lent;
    let (mut tiles, mut item) = (UNTOLD, UNTOLD);
    // SAFETY: as for `count`.
    #[rustfmt::skip]
    let number = unsafe {
        raw::gp_boxes(
            path_nos.as_ptr(), path_nos.len(),
            coords.as_ptr(), coords.len(),
            beams.as_ptr(), beams.len(),
            margin,
            paths.as_mut_ptr(), paths.len(),
            work.as_mut_ptr(), work.len(),
            &mut tiles, &mut item,
        )
    };
    debug_assert!(number == 0 || tiles == 0, "tiles where it is refused");
    answered(number, item).map(|()| tiles)
}
