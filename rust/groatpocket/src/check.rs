//! Another's tables beside our own count of the lines.
use crate::raw;
use crate::refusal::{answered, Refused, UNTOLD};

/// What a check of another's tables found.
#[derive(Clone, Copy, Debug, PartialEq, Eq, Hash)]
#[must_use = "only Yes says that the tables may be used"]
pub enum Found {
    /// They are as good as our own count.
    Yes,
    /// The reference with this number is at fault; or one is missing, where so many are lent.
    Reference(u32),
    /// The count of the tile with this number isn't ours.
    Count(u32),
    /// The backdrop of the tile with this number isn't ours.
    Backdrop(u32),
    /// The slots of the tile with this number lie past the room or over an earlier tile's.
    Slots(u32),
}

impl Found {
    /// Its number in `GP_FOUND_..` of the header, and the entry's; 0 where it names none.
    pub fn numbers(self) -> (u32, u32) {
        match self {
            Found::Yes => (1, 0),
            Found::Reference(j) => (2, j),
            Found::Count(t) => (3, t),
            Found::Backdrop(t) => (4, t),
            Found::Slots(t) => (5, t),
        }
    }

    fn of(found: u32, item: u32) -> Found {
        match found {
            1 => Found::Yes,
            2 => Found::Reference(item),
            3 => Found::Count(item),
            4 => Found::Backdrop(item),
            _ => Found::Slots(item),
        }
    }
}

/// How many words of working room [`check`] asks for.
pub fn work_needed(tiles: usize, lines: usize, references: usize) -> usize {
    4 * (tiles + lines + references)
}

/// What [`check`] is lent, by name.
#[derive(Debug)]
pub struct Check<'a> {
    /// The path number of each line: ours.
    pub path_nos: &'a [u32],
    /// The lines, [`LINE_FLOATS`](crate::LINE_FLOATS) each: ours.
    pub coords: &'a [f32],
    /// The paths, the words of a [`Path`](crate::Path) each: ours.
    pub paths: &'a [u32],
    /// The other's references: the words of a [`Reference`](crate::Reference) each.
    pub refs: &'a [u32],
    /// The other's counts, one to a tile: what hand-out keeps in the tally.
    pub counts: &'a [u32],
    /// The other's backdrops, one to a tile, before the sums.
    pub backdrops: &'a [i32],
    /// The other's stored words, one to a tile.
    pub stored: &'a [u32],
    /// How many slots there are.
    pub room: u32,
    /// Working room: [`work_needed`] words, which are 0 afterwards.
    pub work: &'a mut [u32],
}

/// Checks tables that another made of our lines: references, counts (what hand-out keeps in the tally), backdrops
/// before the sums, stored words, and the slots that there are. It counts the lines itself, and is refused where
/// that count is. A no names the first entry at fault, in the order references, counts, backdrops, slots. After a
/// yes [`tile`](crate::tile) over these tables writes no stray piece.
///
/// ```
/// use groatpocket::{check, count, hand_out, work_needed, Check, Count, Found, HandOut, Path, Running};
/// // Path 0: a box of two by two tiles, from tile 0 on; one line down its first column.
/// let (path_nos, coords) = ([0], [8.0, 8.0, 8.0, 24.0]);
/// let paths = Path { x0: 0, y0: 0, x1: 2, y1: 2, first: 0, beam: 7 }.words();
///
/// // The other's work, done here by our own calls.
/// let (mut backdrops, mut stored, mut counts, mut refs) = ([0; 4], [0; 4], [0; 4], [0; 4]);
/// count(
///     Running::default(),
///     Count {
///         path_nos: &path_nos,
///         coords: &coords,
///         paths: &paths,
///         backdrops: &mut backdrops,
///         counts: &mut stored,
///         refs: &mut refs,
///         end: 1,
///     },
/// )
/// .unwrap();
/// hand_out(HandOut { counts: &mut stored, tally: &mut counts, room: 2 }).unwrap();
///
/// let mut work = vec![0; work_needed(4, 1, 2)];
/// let mut found = |refs: &[u32], counts: &[u32], stored: &[u32]| {
///     let (path_nos, coords, paths) = (&path_nos, &coords, &paths);
///     let backdrops = &backdrops;
///     check(Check { path_nos, coords, paths, refs, counts, backdrops, stored, room: 2, work: &mut work }).unwrap()
/// };
/// assert_eq!(found(&refs, &counts, &stored), Found::Yes);
/// assert_eq!(found(&[refs[2], refs[3], refs[0], refs[1]], &counts, &stored), Found::Yes); // any order
/// assert_eq!(found(&[0, 0, 0, 0], &counts, &stored), Found::Reference(1)); // the first one again
/// assert_eq!(found(&refs[..2], &counts, &stored), Found::Reference(1)); // one is missing
/// assert_eq!(found(&refs, &[1, 1, 1, 0], &stored), Found::Count(1));
/// assert_eq!(found(&refs, &counts, &[stored[0], 0, stored[0], 0]), Found::Slots(2)); // tile 0's slot
/// ```
pub fn check(lent: Check<'_>) -> Result<Found, Refused> {
    let Check { path_nos, coords, paths, refs, counts, backdrops, stored, room, work } = lent;
    let (mut found, mut item) = (UNTOLD, UNTOLD);
    // SAFETY: as for `count`.
    #[rustfmt::skip]
    let number = unsafe {
        raw::gp_check(
            path_nos.as_ptr(), path_nos.len(),
            coords.as_ptr(), coords.len(),
            paths.as_ptr(), paths.len(),
            refs.as_ptr(), refs.len(),
            counts.as_ptr(), counts.len(),
            backdrops.as_ptr(), backdrops.len(),
            stored.as_ptr(), stored.len(),
            room,
            work.as_mut_ptr(), work.len(),
            &mut found, &mut item,
        )
    };
    let refused = if number == 0 { 0 } else { item };
    answered(number, refused).map(|()| Found::of(found, item))
}
