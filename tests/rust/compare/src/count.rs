//! Counting: batches against the rules, the unchanged Rust on the lines accepted.

use crate::stage::{hex, same, same_words, Sides, Stage};
use crate::table::Table;
use cases::memory::{as_f32, Lent};
use cases::{boxes, floats, lines, Rng};
use rules::limits::{COUNT_MOST, EDGE_MOST, LINE, LINES_MOST, PATHS_MOST, REF, ROOM_MOST};
use rules::records::{box_at, line_floats, no_tiles, path, paths_in};

#[derive(Clone, Debug)]
pub struct Case {
    pub path_nos: Vec<u32>,
    pub coords: Vec<u32>,
    pub paths: Vec<u32>,
    pub backdrops: Vec<u32>,
    pub counts: Vec<u32>,
    pub refs: Vec<u32>,
    pub lines: u32,
    pub made: u32,
    /// The batches' ends, in order.
    pub ends: Vec<u32>,
}

pub struct Count;

/// The box of a path.
pub fn box_of(paths: &[u32], n: usize) -> [i64; 4] {
    box_at(paths, n).map(|v| v as i64)
}

/// Lines of all families among the paths: their path numbers and coordinates' bits.
pub fn some_lines(rng: &mut Rng, paths: &[u32], n: usize) -> (Vec<u32>, Vec<u32>) {
    let among = paths_in(paths);
    let one_family = rng.coin().then(|| rng.below(lines::FAMILIES.len() as u64) as usize);
    let mut path_nos = Vec::with_capacity(n);
    let mut coords = Vec::with_capacity(LINE * n);
    for _ in 0..n {
        let path = rng.below(among.max(1) as u64) as usize;
        let b = if among > 0 { box_of(paths, path) } else { [0, 0, 2, 2] };
        let line = match one_family {
            Some(family) if family != lines::RANDOM_BITS => lines::of_family(rng, family, &b),
            _ => lines::any(rng, &b).1,
        };
        path_nos.push(path as u32);
        coords.extend(line.map(f32::to_bits));
    }
    (path_nos, coords)
}

/// What tiles and reference slots held before, any words.
fn held_before(rng: &mut Rng, case: &mut Case) {
    match rng.below(4) {
        0 => {
            for b in &mut case.backdrops {
                *b = rng.pick(&[0, 1, i32::MAX as u32, i32::MIN as u32, i32::MAX as u32 - 1, i32::MIN as u32 + 1, u32::MAX]);
            }
        }
        1 => {
            for c in &mut case.counts {
                *c = rng.pick(&[0, 1, COUNT_MOST as u32 - 1, COUNT_MOST as u32, COUNT_MOST as u32 + 1, u32::MAX, 7]);
            }
        }
        _ => {
            for (b, c) in case.backdrops.iter_mut().zip(&mut case.counts) {
                *b = rng.range(-5, 5) as u32;
                *c = rng.below(9) as u32;
            }
        }
    }
}

/// A path number that names no path, or any bits for a coordinate.
pub fn spoil_line(rng: &mut Rng, path_nos: &mut [u32], coords: &mut [u32], paths: &[u32]) {
    if rng.coin() {
        let n = path_nos.len().max(1) as u64;
        if let Some(p) = path_nos.get_mut(rng.below(n) as usize) {
            *p = rng.pick(&[paths_in(paths) as u32, u32::MAX, PATHS_MOST as u32, 1 << 31]);
        }
    } else {
        let n = coords.len().max(1) as u64;
        if let Some(c) = coords.get_mut(rng.below(n) as usize) {
            *c = floats::any_bits(rng);
        }
    }
}

/// Lengths, ranges and words that a caller may get wrong.
fn spoil(rng: &mut Rng, case: &mut Case) {
    match rng.below(14) {
        0 => _ = case.coords.pop(),
        1 => _ = case.path_nos.pop(),
        2 => _ = case.paths.pop(),
        3 => _ = case.backdrops.pop(),
        4 => case.counts.push(3),
        5 => _ = case.refs.pop(),
        6 => case.ends.push(case.path_nos.len() as u32 + 1),
        7 => case.lines = rng.pick(&[1, 5, u32::MAX, case.path_nos.len() as u32 + 1]),
        8 | 9 => spoil_line(rng, &mut case.path_nos, &mut case.coords, &case.paths),
        _ => boxes::spoil(rng, &mut case.paths, case.counts.len()),
    }
}

/// A long list over clear tiles with room for all, few of its lines refused.
pub fn long_list(rng: &mut Rng) -> Case {
    let most = if rng.one_in(60) { EDGE_MOST } else { rng.pick(&[6, 12, 24]) };
    let n_paths = rng.range(1, 3) as usize;
    let (paths, tiles) = boxes::table(rng, n_paths, most);
    let n = rng.range(20, 60) as usize;
    let (mut path_nos, mut coords) = (vec![], vec![]);
    while path_nos.len() < n {
        let path = rng.below(n_paths as u64) as usize;
        let (family, line) = lines::any(rng, &box_of(&paths, path));
        if family != lines::RANDOM_BITS && family != lines::LIMIT {
            path_nos.push(path as u32);
            coords.extend(line.map(f32::to_bits));
        }
    }
    let refs = (0..REF * n * (most as usize / 2).max(12)).map(|k| 0xbeef_0000 + k as u32).collect();
    let mut ends = vec![n as u32];
    if rng.coin() {
        ends.insert(0, rng.range(0, n as i64) as u32);
    }
    Case { path_nos, coords, paths, backdrops: vec![0; tiles], counts: vec![0; tiles], refs, lines: 0, made: 0, ends }
}

/// A path, line or tile too many: refusals 2 and 5.
fn past_limits(rng: &mut Rng) -> Case {
    let over = rng.range(-1, 3);
    let mut case = Case {
        path_nos: vec![],
        coords: vec![],
        paths: path([0, 0, 2, 2], 0).to_vec(),
        backdrops: vec![0; 4],
        counts: vec![0; 4],
        refs: vec![0; REF * 8],
        lines: 0,
        made: 0,
        ends: vec![],
    };
    if rng.below(3) > 0 {
        case.paths = no_tiles((PATHS_MOST + over) as usize);
        (case.path_nos, case.coords) = some_lines(rng, &path([0, 0, 2, 2], 0), 2);
        case.ends = vec![2];
    } else {
        let n = LINES_MOST as usize + 3;
        case.path_nos = vec![0; n];
        case.coords = vec![0; LINE * n];
        case.lines = LINES_MOST as u32 - 3;
        let (_, coords) = some_lines(rng, &path([0, 0, 2, 2], 0), 6);
        case.coords[line_floats(n - 6).start..].copy_from_slice(&coords);
        case.ends = vec![n as u32];
        case.refs = vec![9; REF * 200];
    }
    case
}

impl Stage for Count {
    type Case = Case;
    const NAME: &'static str = "count";
    const REACHED: &'static [u32] = &[0, 1, 2, 3, 4, 5, 6, 7, 8, 9, 10, 11];
    const LEAST: u64 = 120_000;

    fn make(&self, rng: &mut Rng) -> Case {
        if rng.one_in(24) {
            return past_limits(rng);
        }
        if rng.one_in(3) {
            return long_list(rng);
        }
        let most = if rng.one_in(40) { EDGE_MOST } else { rng.pick(&[4, 8, 24]) };
        let n_paths = if rng.one_in(40) { 0 } else { rng.range(1, 3) as usize };
        let (mut paths, mut tiles) = boxes::table(rng, n_paths, most);
        if rng.one_in(60) {
            // a box at the limit's edge, many tiles
            let rows = rng.range(1, 3) as u32;
            paths = path([0, 0, EDGE_MOST as u32, rows], 0).to_vec();
            tiles = EDGE_MOST as usize * rows as usize;
        }
        tiles += rng.below(4) as usize;
        let n = rng.range(0, 12) as usize;
        let (path_nos, coords) = some_lines(rng, &paths, n);
        let room = if rng.one_in(8) { rng.below(20) } else { 40 + 60 * (most as u64 / 8) };
        let refs = (0..REF as u64 * room).map(|k| 0xdead_0000 + k as u32).collect();
        let mut case = Case { path_nos, coords, paths, backdrops: vec![0; tiles], counts: vec![0; tiles], refs, lines: 0, made: 0, ends: vec![] };
        if rng.coin() {
            held_before(rng, &mut case);
        }
        if rng.one_in(6) {
            case.lines = rng.below(n as u64 + 1) as u32;
            case.made = match rng.below(4) {
                0 => room as u32,
                1 => rng.pick(&[room as u32 + 1, u32::MAX, ROOM_MOST as u32, ROOM_MOST as u32 + 1]),
                _ => rng.below(room + 1) as u32,
            };
        }
        let mut end = case.lines;
        while rng.one_in(2) {
            end = rng.range(end as i64, n as i64) as u32;
            case.ends.push(end);
        }
        case.ends.push(n as u32);
        if rng.one_in(5) {
            spoil(rng, &mut case);
        }
        case
    }

    fn check(&self, case: &Case, sides: Sides, table: &mut Table) -> Result<(), String> {
        let (path_nos, coords, paths) = (Lent::new(&case.path_nos), Lent::new(&case.coords), Lent::new(&case.paths));
        let mut by_rules = Memory::of(case);
        let mut by_ours = Memory::of(case);
        let (mut number, mut item) = (0, 0);
        let mut seen = rules::Seen::default();
        for &end in &case.ends {
            item = 0xabcd;
            number = by_rules.lend(|b, c, r, lines, made| {
                rules::count_seen(path_nos.u32s(), coords.f32s(), paths.u32s(), b, c, r, end, lines, made, &mut item, &mut seen)
            });
            table.answer(number);
            if sides.ours {
                let mut our_item = 0xabcd;
                let our_number = by_ours
                    .lend(|b, c, r, lines, made| ours::count(path_nos.u32s(), coords.f32s(), paths.u32s(), b, c, r, end, lines, made, &mut our_item));
                same("answer", our_number, number)?;
                same("item", our_item, item)?;
                by_ours.same_as(&by_rules)?;
            }
            if number != 0 {
                break;
            }
        }
        table.add("lines accepted, skipped", seen.skipped);
        table.add("lines accepted, no step", seen.none);
        table.add("lines accepted, one step", seen.one);
        table.add("lines accepted, more steps", seen.many);
        table.add("row marks", seen.rows);
        if sides.ours && case.ends.len() > 1 {
            uncut(case, &path_nos, &coords, &paths, &by_rules, (number, item))?;
        }
        same_words("path numbers lent", path_nos.u32s(), &case.path_nos)?;
        same_words("coordinates lent", coords.u32s(), &case.coords)?;
        same_words("paths lent", paths.u32s(), &case.paths)?;
        same("guards", [&path_nos, &coords, &paths].iter().all(|l| l.guards_stand()), true)?;
        if sides.rust && by_rules.lines > case.lines {
            by_the_rust(case, &by_rules)?;
            table.add("references the Rust made too", (by_rules.made - case.made) as u64);
        }
        Ok(())
    }

    fn smaller(&self, case: &Case) -> Vec<Case> {
        let mut out = vec![];
        let n = case.path_nos.len();
        if case.ends.len() > 1 {
            for k in 0..case.ends.len() {
                let mut c = case.clone();
                c.ends.remove(k);
                out.push(c);
            }
        }
        if n <= 64 && case.coords.len() == LINE * n {
            for k in 0..n {
                let mut c = case.clone();
                c.path_nos.remove(k);
                c.coords.drain(line_floats(k));
                for e in &mut c.ends {
                    *e -= (*e > k as u32) as u32;
                }
                c.lines -= (c.lines > k as u32) as u32;
                out.push(c);
            }
        }
        for (b, c) in [(true, false), (false, true)] {
            let mut plain = case.clone();
            if b && plain.backdrops.iter().any(|&v| v != 0) {
                plain.backdrops.fill(0);
                out.push(plain);
            } else if c && plain.counts.iter().any(|&v| v != 0) {
                plain.counts.fill(0);
                out.push(plain);
            }
        }
        out
    }

    fn show(&self, case: &Case) -> String {
        if case.path_nos.len() > 200 || case.paths.len() > 200 {
            return format!("{} lines, {} paths, lines so far {}, ends {:?}", case.path_nos.len(), paths_in(&case.paths), case.lines, case.ends);
        }
        format!(
            "  lines so far {}, references so far {}, ends {:?}, room {} words\n  paths {:?}\n  path numbers {:?}\n  coordinates {}\n  backdrops {}\n  counts {}",
            case.lines, case.made, case.ends, case.refs.len(), case.paths, case.path_nos, hex(&case.coords), hex(&case.backdrops), hex(&case.counts)
        )
    }
}

/// What is lent to be changed, and the running numbers.
pub struct Memory {
    pub backdrops: Lent,
    pub counts: Lent,
    pub refs: Lent,
    lines: u32,
    pub made: u32,
}

impl Memory {
    pub fn of(case: &Case) -> Memory {
        Memory {
            backdrops: Lent::new(&case.backdrops),
            counts: Lent::new(&case.counts),
            refs: Lent::new(&case.refs),
            lines: case.lines,
            made: case.made,
        }
    }

    pub fn lend(&mut self, call: impl FnOnce(&mut [i32], &mut [u32], &mut [u32], &mut u32, &mut u32) -> u32) -> u32 {
        call(self.backdrops.i32s_mut(), self.counts.u32s_mut(), self.refs.u32s_mut(), &mut self.lines, &mut self.made)
    }

    pub fn same_as(&self, wanted: &Memory) -> Result<(), String> {
        same("lines so far", self.lines, wanted.lines)?;
        same("references so far", self.made, wanted.made)?;
        same_words("backdrops", self.backdrops.u32s(), wanted.backdrops.u32s())?;
        same_words("counts", self.counts.u32s(), wanted.counts.u32s())?;
        same_words("references", self.refs.u32s(), wanted.refs.u32s())?;
        same("guards", [&self.backdrops, &self.counts, &self.refs].iter().all(|l| l.guards_stand()), true)
    }
}

/// One batch for all of them, where no batch is refused for its own range.
fn uncut(case: &Case, path_nos: &Lent, coords: &Lent, paths: &Lent, wanted: &Memory, answer: (u32, u32)) -> Result<(), String> {
    let end = *case.ends.last().unwrap();
    let in_order = case.ends.iter().all(|&e| e <= end) && end as usize <= case.path_nos.len();
    if answer.0 == 1 || !in_order {
        return Ok(());
    }
    let mut all = Memory::of(case);
    let mut item = 0xabcd;
    let got = all.lend(|b, c, r, lines, made| ours::count(path_nos.u32s(), coords.f32s(), paths.u32s(), b, c, r, end, lines, made, &mut item));
    same("answer and item of one batch", (got, item), answer)?;
    all.same_as(wanted).map_err(|e| format!("one batch: {e}"))
}

/// The lines that the rules accepted, run by the unchanged Rust.
pub fn by_the_rust(case: &Case, wanted: &Memory) -> Result<(), String> {
    let mut memory = Memory::of(case);
    let mut made = 0;
    let (from, to, so_far) = (case.lines as usize, wanted.lines as usize, case.made);
    let mut stopped = false;
    memory.lend(|b, c, r, _, _| {
        match oracle::count(&case.path_nos, as_f32(&case.coords), &case.paths, b, c, r, from, to, so_far) {
            Ok(n) => made = n,
            Err(oracle::Stopped) => stopped = true,
        }
        0
    });
    same("the Rust panicked", stopped, false)?;
    (memory.lines, memory.made) = (wanted.lines, made);
    wanted.same_as(&memory).map_err(|e| format!("beside the Rust: {e}"))
}
