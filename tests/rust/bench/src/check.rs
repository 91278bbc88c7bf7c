//! A check of another's tables beside a plain count of the same lines, both ours; and at the limits.

use crate::scenes::{Scene, KINDS};
use crate::{measured, timed, Times};
use cases::Rng;
use rules::check::{work_words, FOUND_REFERENCE, FOUND_SLOTS, FOUND_YES};
use rules::limits::{LINES_MOST, REF, ROOM_MOST, STEP_RANGE};
use rules::records::path;

/// Lines with the tables that our own calls make of them.
struct Tables {
    path_nos: Vec<u32>,
    coords: Vec<f32>,
    paths: Vec<u32>,
    refs: Vec<u32>,
    counts: Vec<u32>,
    backdrops: Vec<i32>,
    stored: Vec<u32>,
    room: u32,
}

impl Tables {
    fn new(path_nos: Vec<u32>, coords: Vec<f32>, paths: Vec<u32>, tiles: usize, room: usize) -> Tables {
        let (mut backdrops, mut stored, mut counts, mut refs) = (vec![0; tiles], vec![0; tiles], vec![0; tiles], vec![0; REF * room]);
        let (end, mut made) = (path_nos.len() as u32, 0);
        assert_eq!(ours::count(&path_nos, &coords, &paths, &mut backdrops, &mut stored, &mut refs, end, &mut 0, &mut made, &mut 0), 0);
        assert_eq!(ours::hand_out(&mut stored, &mut counts, made), 0);
        refs.truncate(REF * made as usize);
        Tables { path_nos, coords, paths, refs, counts, backdrops, stored, room: made }
    }

    /// The seconds of a plain count.
    fn count(&self) -> f64 {
        let tiles = self.counts.len();
        let (mut backdrops, mut counts, mut refs) = (vec![0; tiles], vec![0; tiles], vec![1; self.refs.len()]);
        let end = self.path_nos.len() as u32;
        timed(|| {
            let no = ours::count(&self.path_nos, &self.coords, &self.paths, &mut backdrops, &mut counts, &mut refs, end, &mut 0, &mut 0, &mut 0);
            assert_eq!(no, 0);
        })
    }

    /// The seconds of a check that finds this.
    fn check(&self, wanted: u32) -> f64 {
        let (mut work, mut found) = (vec![1; work_words(self.counts.len(), self.path_nos.len(), self.refs.len() / REF)], 0);
        let seconds = timed(|| {
            let no = ours::check(
                &self.path_nos,
                &self.coords,
                &self.paths,
                &self.refs,
                &self.counts,
                &self.backdrops,
                &self.stored,
                self.room,
                &mut work,
                &mut found,
                &mut 0,
            );
            assert_eq!(no, 0);
        });
        assert_eq!(found, wanted);
        seconds
    }

    fn shuffle(&mut self, rng: &mut Rng) {
        for k in (1..self.refs.len() / REF).rev() {
            let other = rng.below(k as u64 + 1) as usize;
            for w in 0..REF {
                self.refs.swap(REF * k + w, REF * other + w);
            }
        }
    }

    fn times(&self, wanted: u32, rounds: usize) -> Times {
        measured(self.refs.len() / REF, rounds, || self.count(), || self.check(wanted))
    }
}

fn row(what: &str, tables: &Tables, wanted: u32, rounds: usize) {
    let times = tables.times(wanted, rounds);
    let (lines, refs) = (tables.path_nos.len(), tables.refs.len() / REF);
    println!("| {what} | {lines} | {refs} | {:.1} | {:.1} | {:.2} |", times.rust, times.ours, times.ours / times.rust);
}

/// Scenes of all kinds, their references in order and shuffled.
pub fn scenes(rounds: usize) {
    for (kind, name) in KINDS {
        for n in [2_000, 60_000] {
            let scene = Scene::new(kind, n);
            let mut tables = Tables::new(vec![0; n], scene.coords.clone(), scene.paths.clone(), scene.tiles, scene.room);
            row(&format!("lines {name}"), &tables, FOUND_YES, rounds);
            tables.shuffle(&mut Rng::new(n as u64));
            row(&format!("lines {name}, shuffled"), &tables, FOUND_YES, rounds);
        }
    }
}

/// As many lines and references as there can be: each line through every tile of one row.
pub fn limits() {
    let lines = LINES_MOST as usize;
    let columns = (ROOM_MOST / LINES_MOST) as u32;
    let across = columns as f32 * 16.0;
    let coords = (0..lines).flat_map(|l| [0.5, 1.0 + l as f32 / 8_192.0, across - 0.5, 1.5 + l as f32 / 8_192.0]).collect();
    let mut tables = Tables::new(vec![0; lines], coords, path([0, 0, columns, 1], 0).to_vec(), columns as usize, ROOM_MOST as usize);
    row("at the limits, in order", &tables, FOUND_YES, 1);
    tables.shuffle(&mut Rng::new(7));
    row("at the limits, shuffled", &tables, FOUND_YES, 1);
    let n = tables.refs.len() / REF;
    let first = [tables.refs[0], tables.refs[1]];
    tables.refs[REF * (n - 1)..].copy_from_slice(&first);
    row("at the limits, the last the first again", &tables, FOUND_REFERENCE, 1);
    let half = tables.refs[..REF * (n / 2)].to_vec();
    tables.refs.splice(REF * (n / 2)..REF * n, half);
    row("at the limits, each doubled", &tables, FOUND_REFERENCE, 1);
    tables.refs.iter_mut().skip(1).step_by(REF).for_each(|w| *w %= STEP_RANGE);
    row("at the limits, all slices 0", &tables, FOUND_REFERENCE, 1);

    // one short line among many tiles; what is stored for the tiles that have no slots lies all over
    let side = 256;
    let mut wide = Tables::new(vec![0], vec![8.0, 4.0, 8.0, 12.0], path([0, 0, side, side], 0).to_vec(), (side * side) as usize, 1);
    row("one line, the words of tiles with no slots as handed out", &wide, FOUND_YES, 3);
    for (t, word) in wide.stored.iter_mut().enumerate().skip(1) {
        *word = !(t as u32 * (u32::MAX / (side * side)));
    }
    row("one line, the words of tiles with no slots all over", &wide, FOUND_YES, 3);

    // one tile, its slots at the limit's end and past it, whatever room is named: by few lines, so with little working room, and by many
    for lines in [1, lines - 1] {
        let coords = [8.0, 4.0, 8.0, 12.0].repeat(lines);
        let mut one = Tables::new(vec![0; lines], coords, path([0, 0, 1, 1], 0).to_vec(), 1, lines);
        (one.room, one.stored[0]) = (u32::MAX, !(ROOM_MOST as u32 - lines as u32));
        row("one tile, slots up to the limit", &one, FOUND_YES, 3);
        one.stored[0] -= 1;
        row("one tile, slots past the limit", &one, FOUND_SLOTS, 3);
    }
}
