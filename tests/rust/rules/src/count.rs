//! Counting: a batch of lines, each all or nothing.

use crate::checks::*;
use crate::limits::*;
use crate::records::{line_floats, ref_words, reference, refs_in};
use crate::walk::*;

/// How many lines of each kind were accepted.
#[derive(Clone, Copy, Default, Debug)]
pub struct Seen {
    pub skipped: u64,
    pub none: u64,
    pub one: u64,
    pub many: u64,
    pub rows: u64,
}

pub(crate) struct Tiles<'a> {
    pub(crate) backdrops: &'a mut [i32],
    pub(crate) counts: &'a mut [u32],
    pub(crate) refs: &'a mut [u32],
}

/// One word of a tile or a reference slot as it was.
enum Was {
    Backdrop(usize, i32),
    Count(usize, u32),
    Ref(usize, u32),
}

impl Tiles<'_> {
    fn mark(&mut self, t: usize, delta: i64, log: &mut Vec<Was>) -> Result<(), u32> {
        let sum = self.backdrops[t] as i64 + delta;
        let Ok(sum) = i32::try_from(sum) else { return Err(OUT_OF_I32) };
        log.push(Was::Backdrop(t, self.backdrops[t]));
        self.backdrops[t] = sum;
        Ok(())
    }

    fn reference(&mut self, slot: usize, t: usize, line: u32, i: i64, log: &mut Vec<Was>) -> Result<(), u32> {
        let slice = self.counts[t];
        if slice as i64 > COUNT_MOST {
            return Err(TOO_FULL);
        }
        log.push(Was::Count(t, slice));
        self.counts[t] = slice + 1;
        for (k, word) in ref_words(slot).zip(reference(line, slice, i as u32)) {
            log.push(Was::Ref(k, self.refs[k]));
            self.refs[k] = word;
        }
        Ok(())
    }

    fn undo(&mut self, log: Vec<Was>) {
        for was in log.into_iter().rev() {
            match was {
                Was::Backdrop(t, v) => self.backdrops[t] = v,
                Was::Count(t, v) => self.counts[t] = v,
                Was::Ref(k, v) => self.refs[k] = v,
            }
        }
    }
}

fn marks_and_steps(n: u32, made: i64, w: &Walk, c: &Clip, at: &Place, tiles: &mut Tiles, log: &mut Vec<Was>) -> Result<(), u32> {
    let delta = if w.down { -1 } else { 1 };
    for y in c.top..c.bottom {
        tiles.mark(at.tile(at.x0, y), delta, log)?;
    }
    for i in c.from..c.to {
        let (x, y) = w.step(i, at).ok_or(OFF_BOX)?;
        let slot = (made + i - c.from) as usize;
        tiles.reference(slot, at.tile(x, y), n, i, log)?;
        if w.crosses_top(i) && x + 1 < at.x1 {
            tiles.mark(at.tile(x + 1, y), delta, log)?;
        }
    }
    Ok(())
}

/// The references that the line makes.
pub(crate) fn count_line(n: u32, path_no: u32, line: &[f32], paths: &[u32], made: i64, tiles: &mut Tiles, seen: &mut Seen) -> Result<i64, u32> {
    if n as i64 >= LINES_MOST {
        return Err(BAD_LINE_NO);
    }
    if !good_coords(line) {
        return Err(BAD_COORD);
    }
    let path = paths.chunks_exact(PATH).nth(path_no as usize).ok_or(NO_SUCH)?;
    let at = Place::of(path);
    let w = Walk::of(line);
    if w.skipped(&at) {
        seen.skipped += 1;
        return Ok(0);
    }
    let c = w.clip(&at);
    let steps = c.to - c.from;
    if steps > 0 && c.to - 1 > STEP_MOST {
        return Err(TOO_FULL);
    }
    let room = (refs_in(tiles.refs) as i64).min(ROOM_MOST);
    if made + steps > room {
        return Err(NO_ROOM);
    }
    let mut log = Vec::new();
    if let Err(number) = marks_and_steps(n, made, &w, &c, &at, tiles, &mut log) {
        tiles.undo(log);
        return Err(number);
    }
    match steps {
        0 => seen.none += 1,
        1 => seen.one += 1,
        _ => seen.many += 1,
    }
    seen.rows += (c.bottom - c.top).max(0) as u64;
    Ok(steps)
}

pub fn count(
    path_nos: &[u32],
    coords: &[f32],
    paths: &[u32],
    backdrops: &mut [i32],
    counts: &mut [u32],
    refs: &mut [u32],
    end: u32,
    lines: &mut u32,
    made: &mut u32,
    item: &mut u32,
) -> u32 {
    count_seen(path_nos, coords, paths, backdrops, counts, refs, end, lines, made, item, &mut Seen::default())
}

/// The same, and what kinds of line were accepted.
pub fn count_seen(
    path_nos: &[u32],
    coords: &[f32],
    paths: &[u32],
    backdrops: &mut [i32],
    counts: &mut [u32],
    refs: &mut [u32],
    end: u32,
    lines: &mut u32,
    made: &mut u32,
    item: &mut u32,
    seen: &mut Seen,
) -> u32 {
    let got = (|| {
        let shape = whole(coords.len(), LINE)
            && path_nos.len() == coords.len() / LINE
            && backdrops.len() == counts.len()
            && whole(refs.len(), REF)
            && *lines <= end
            && end as usize <= path_nos.len();
        checked(shape, paths, counts.len())?;
        let mut tiles = Tiles { backdrops, counts, refs };
        for n in *lines..end {
            let k = n as usize;
            let line = &coords[line_floats(k)];
            let steps = count_line(n, path_nos[k], line, paths, *made as i64, &mut tiles, seen).map_err(|no| (no, n))?;
            *lines = n + 1;
            *made = (*made as i64 + steps) as u32;
        }
        Ok(())
    })();
    answer(got, item)
}
