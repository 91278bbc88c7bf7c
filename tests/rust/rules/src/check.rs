//! A check of another's tables: our own count of the lines, then every entry in turn, beside all earlier ones.

use crate::checks::*;
use crate::count::{count_line, Seen, Tiles};
use crate::limits::*;
use crate::records::{named, slice_and_step};
use crate::walk::{good_coords, Place, Walk};
use std::collections::{BTreeMap, HashSet};

/// What a check found, as the header has it.
pub const FOUND_NOTHING: u32 = 0;
pub const FOUND_YES: u32 = 1;
pub const FOUND_REFERENCE: u32 = 2;
pub const FOUND_COUNT: u32 = 3;
pub const FOUND_BACKDROP: u32 = 4;
pub const FOUND_SLOTS: u32 = 5;

/// So many words of working room for each tile, line and reference.
const WORK_EACH: usize = 4;

/// How many words of working room are asked for.
pub fn work_words(tiles: usize, lines: usize, references: usize) -> usize {
    WORK_EACH * (tiles + lines + references)
}

/// The lines, and the paths that they are of.
struct Lines<'a> {
    path_nos: &'a [u32],
    coords: &'a [f32],
    paths: &'a [u32],
}

impl Lines<'_> {
    /// A line's walk and its path's place; nothing for a line that isn't there, that is refused or skipped.
    fn walk(&self, line: usize) -> Option<(Walk, Place)> {
        let ends = self.coords.chunks_exact(LINE).nth(line).filter(|ends| good_coords(ends))?;
        let path = self.paths.chunks_exact(PATH).nth(self.path_nos[line] as usize)?;
        let (at, walk) = (Place::of(path), Walk::of(ends));
        (!walk.skipped(&at)).then_some((walk, at))
    }

    /// How many references all lines make, were none refused.
    fn steps(&self) -> i64 {
        let each = (0..self.path_nos.len()).filter_map(|l| self.walk(l)).map(|(walk, at)| walk.clip(&at));
        each.map(|c| c.to - c.from).sum()
    }

    /// The tile of a line's step, where the clipped walk has it.
    fn made(&self, line: u32, step: u32) -> Option<usize> {
        let (walk, at) = self.walk(line as usize)?;
        let c = walk.clip(&at);
        if !(c.from..c.to).contains(&(step as i64)) {
            return None;
        }
        walk.step(step as i64, &at).map(|(x, y)| at.tile(x, y))
    }
}

/// What our own count leaves.
struct Own {
    backdrops: Vec<i32>,
    counts: Vec<u32>,
    made: i64,
}

/// All lines from zeroed tiles. The room is for as many references as there can be; no more of it is made than the lines ask for.
fn own(lines: &Lines, tiles: usize) -> Result<Own, No> {
    let mut refs = vec![0; REF * lines.steps().clamp(0, ROOM_MOST) as usize];
    let mut own = Own { backdrops: vec![0; tiles], counts: vec![0; tiles], made: 0 };
    for (n, ends) in lines.coords.chunks_exact(LINE).enumerate() {
        let mut tiles = Tiles { backdrops: &mut own.backdrops, counts: &mut own.counts, refs: &mut refs };
        let steps = count_line(n as u32, lines.path_nos[n], ends, lines.paths, own.made, &mut tiles, &mut Seen::default());
        own.made += steps.map_err(|number| (number, n as u32))?;
    }
    Ok(own)
}

/// The first reference at fault.
fn bad_reference(lines: &Lines, own: &Own, refs: &[u32]) -> Option<usize> {
    let (mut steps, mut slices) = (HashSet::new(), HashSet::new());
    refs.chunks_exact(REF).position(|r| {
        let (line, (slice, step)) = (named(r), slice_and_step(r));
        let Some(tile) = lines.made(line, step) else { return true };
        slice >= own.counts[tile] || !steps.insert((line, step)) || !slices.insert((tile, slice))
    })
}

/// The first tile whose slots lie past the room or over an earlier tile's.
fn bad_slots(counts: &[u32], stored: &[u32], room: u32) -> Option<usize> {
    let room = (room as i64).min(ROOM_MOST);
    let mut taken: BTreeMap<i64, i64> = BTreeMap::new(); // first slot and end of each earlier tile that has any
    (0..counts.len()).filter(|&t| counts[t] > 0).find(|&t| {
        let (first, end) = (!stored[t] as i64, !stored[t] as i64 + counts[t] as i64);
        let over = taken.range(..end).next_back().is_some_and(|(_, &last)| last > first);
        taken.insert(first, end);
        end > room || over
    })
}

/// The table and the first entry at fault, or yes.
fn looked(lines: &Lines, own: &Own, refs: &[u32], counts: &[u32], backdrops: &[i32], stored: &[u32], room: u32) -> (u32, usize) {
    let lent = refs.len() / REF;
    if let Some(j) = bad_reference(lines, own, refs) {
        return (FOUND_REFERENCE, j);
    }
    if let Some(t) = (0..counts.len()).find(|&t| counts[t] != own.counts[t]) {
        return (FOUND_COUNT, t);
    }
    if let Some(t) = (0..counts.len()).find(|&t| backdrops[t] != own.backdrops[t]) {
        return (FOUND_BACKDROP, t);
    }
    if let Some(t) = bad_slots(counts, stored, room) {
        return (FOUND_SLOTS, t);
    }
    if (lent as i64) < own.made {
        return (FOUND_REFERENCE, lent);
    }
    (FOUND_YES, 0)
}

pub fn check(
    path_nos: &[u32],
    coords: &[f32],
    paths: &[u32],
    refs: &[u32],
    counts: &[u32],
    backdrops: &[i32],
    stored: &[u32],
    room: u32,
    work: &mut [u32],
    found: &mut u32,
    item: &mut u32,
) -> u32 {
    *found = FOUND_NOTHING;
    let got = (|| {
        let shape = whole(coords.len(), LINE)
            && path_nos.len() == coords.len() / LINE
            && whole(refs.len(), REF)
            && backdrops.len() == counts.len()
            && stored.len() == counts.len();
        checked(shape, paths, counts.len())?;
        let asked = work_words(counts.len(), path_nos.len(), refs.len() / REF);
        if work.len() < asked {
            return Err((NO_ROOM, 0));
        }
        work[..asked].fill(0);
        let lines = Lines { path_nos, coords, paths };
        let own = own(&lines, counts.len())?;
        Ok(looked(&lines, &own, refs, counts, backdrops, stored, room))
    })();
    match got {
        Ok((what, entry)) => {
            (*found, *item) = (what, entry as u32);
            DONE
        }
        Err(no) => answer(Err(no), item),
    }
}
