//! Hand-out: the first slot of each tile, tiles in rising order; the counts go to the tally.

use crate::limits::*;

pub fn hand_out(counts: &mut [u32], tally: &mut [u32], room: u32) -> u32 {
    if counts.len() != tally.len() {
        return BAD_SHAPE;
    }
    if counts.len() as i64 > TILES_MOST {
        return TOO_MANY;
    }
    let sum: i64 = counts.iter().map(|&n| n as i64).sum();
    if sum > room as i64 || sum > ROOM_MOST {
        return NO_ROOM;
    }
    let mut next: i64 = 0;
    for (stored, kept) in counts.iter_mut().zip(tally) {
        *kept = *stored;
        *stored = if *kept > 0 { !(next as u32) } else { 0 };
        next += *kept as i64;
    }
    DONE
}
