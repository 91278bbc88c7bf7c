//! A recount: one path of a list counted again, beside the rules; and, where the old list was counted and no line is refused,
//! beside a fresh count of the list with that path's lines replaced, ours and the unchanged Rust's.

use crate::count::{self, box_of, by_the_rust, spoil_line};
use crate::stage::{hex, same, same_words, Sides, Stage};
use crate::table::Table;
use cases::memory::Lent;
use cases::{boxes, lines, Rng};
use rules::limits::{COUNT_MOST, LINE, LINES_MOST, PATH, PATHS_MOST, REF};
use rules::records::{line_floats, named, no_tiles, paths_in};
use rules::walk::Place;

#[derive(Clone, Debug)]
pub struct Case {
    /// The old list, whose count leaves the tiles.
    old: count::Case,
    path: u32,
    /// The new list's lines of that path, with their places in it.
    line_nos: Vec<u32>,
    path_nos: Vec<u32>,
    coords: Vec<u32>,
    refs: Vec<u32>,
    kept: [usize; 2],
    /// The tiles hold what counting can't leave.
    stale: bool,
}

pub struct Recount;

/// How many tiles a path has.
fn tiles_of(paths: &[u32], path: u32) -> usize {
    let place = paths.chunks_exact(PATH).nth(path as usize).map(Place::of);
    place.map_or(0, |b| ((b.x1 - b.x0).max(0) * (b.y1 - b.y0).max(0)) as usize)
}

/// The lines of a list that are of a path, or that aren't: their numbers.
fn of_path(path_nos: &[u32], path: u32, own: bool) -> Vec<usize> {
    (0..path_nos.len()).filter(|&l| (path_nos[l] == path) == own).collect()
}

/// The list with the path's lines replaced: the others in their order, the new ones at their numbers.
fn replaced(case: &Case) -> Option<count::Case> {
    let others = of_path(&case.old.path_nos, case.path, false);
    let n = others.len() + case.line_nos.len();
    let rising = case.line_nos.windows(2).all(|w| w[0] < w[1]) && case.line_nos.iter().all(|&l| (l as usize) < n);
    if !rising || case.path_nos.len() != case.line_nos.len() || case.coords.len() != LINE * case.line_nos.len() {
        return None;
    }
    let mut out = count::Case { path_nos: vec![], coords: vec![], ends: vec![n as u32], ..case.old.clone() };
    let (mut others, mut new) = (others.into_iter(), 0..case.line_nos.len());
    for l in 0..n as u32 {
        let (no, line) = if case.line_nos.contains(&l) {
            let k = new.next()?;
            (case.path_nos[k], &case.coords[line_floats(k)])
        } else {
            let k = others.next()?;
            (case.old.path_nos[k], &case.old.coords[line_floats(k)])
        };
        out.path_nos.push(no);
        out.coords.extend(line);
    }
    Some(out)
}

/// Lengths, numbers and words that a caller may get wrong.
fn spoil(rng: &mut Rng, case: &mut Case) {
    match rng.below(24) {
        0 => _ = case.coords.pop(),
        1 => _ = case.path_nos.pop(),
        2 => _ = case.line_nos.pop(),
        3 => _ = case.old.backdrops.pop(),
        4 => _ = case.refs.pop(),
        5 => case.kept[0] += 1,
        6 => case.kept[1] = case.kept[1].saturating_sub(1),
        7 | 16 => case.path = rng.pick(&[paths_in(&case.old.paths) as u32, u32::MAX]),
        8 | 17 => {
            if let Some(l) = case.line_nos.last_mut() {
                *l = rng.pick(&[LINES_MOST as u32, LINES_MOST as u32 - 1, u32::MAX]);
            }
        }
        9 | 10 => spoil_line(rng, &mut case.path_nos, &mut case.coords, &case.old.paths),
        11 => {
            if let Some(p) = case.path_nos.first_mut() {
                *p = p.wrapping_add(1); // another path, there or not
            }
        }
        12 | 18 => case.refs.truncate(REF * rng.below(4) as usize),
        13 | 19 => case.old.paths = no_tiles(PATHS_MOST as usize + rng.range(0, 1) as usize),
        20 | 21 => {
            // one after the other, over the limit of lines or over the last word
            let first = rng.pick(&[LINES_MOST as u32, 0]).wrapping_sub(rng.below(6) as u32);
            for (k, l) in case.line_nos.iter_mut().enumerate() {
                *l = first.wrapping_add(k as u32);
            }
        }
        _ => boxes::spoil(rng, &mut case.old.paths, case.old.counts.len()),
    }
}

impl Stage for Recount {
    type Case = Case;
    const NAME: &'static str = "recount";
    const REACHED: &'static [u32] = &[0, 1, 2, 3, 4, 5, 6, 7, 9, 10];
    const LEAST: u64 = if ours::BRIDGED { 6_000 } else { 120_000 };

    fn make(&self, rng: &mut Rng) -> Case {
        let old = count::long_list(rng);
        let path = rng.below(paths_in(&old.paths) as u64) as u32;
        let (mut path_nos, mut coords) = (vec![], vec![]);
        for _ in 0..rng.range(0, 12) {
            let (family, line) = lines::any(rng, &box_of(&old.paths, path as usize));
            if family != lines::RANDOM_BITS && family != lines::LIMIT || rng.one_in(8) {
                path_nos.push(path);
                coords.extend(line.map(f32::to_bits));
            }
        }
        let among = of_path(&old.path_nos, path, false).len() + path_nos.len();
        let mut line_nos: Vec<u32> = (0..among as u32).collect();
        while line_nos.len() > path_nos.len() {
            line_nos.remove(rng.below(line_nos.len() as u64) as usize);
        }
        let kept = [tiles_of(&old.paths, path); 2];
        let refs = (0..old.refs.len()).map(|k| 0xfeed_0000 + k as u32).collect();
        let mut case = Case { old, path, line_nos, path_nos, coords, refs, kept, stale: rng.one_in(6) };
        if rng.one_in(3) {
            spoil(rng, &mut case);
        }
        case
    }

    fn check(&self, case: &Case, sides: Sides, table: &mut Table) -> Result<(), String> {
        let lent = [&case.line_nos, &case.path_nos, &case.coords, &case.old.paths].map(|words| Lent::new(words));
        let (tiles, counted) = before(case);
        let mut by_rules = Memory::of(case, &tiles);
        macro_rules! asked {
            ($side:ident, $memory:expr) => {{
                let m: &mut Memory = $memory;
                $side::recount(
                    case.path,
                    lent[0].u32s(),
                    lent[1].u32s(),
                    lent[2].f32s(),
                    lent[3].u32s(),
                    m.backdrops.i32s_mut(),
                    m.counts.u32s_mut(),
                    m.refs.u32s_mut(),
                    m.kept_backdrops.i32s_mut(),
                    m.kept_counts.u32s_mut(),
                    &mut m.made,
                    &mut m.item,
                )
            }};
        }
        let number = asked!(rules, &mut by_rules);
        table.answer(number);
        if sides.ours {
            let mut by_ours = Memory::of(case, &tiles);
            same("answer", asked!(ours, &mut by_ours), number)?;
            by_ours.same_as(&by_rules)?;
            if number != 0 {
                same_words("backdrops of a refused recount", by_ours.backdrops.u32s(), &tiles.0)?;
                same_words("counts of a refused recount", by_ours.counts.u32s(), &tiles.1)?;
            }
        }
        for (lent, held) in lent.iter().zip([&case.line_nos, &case.path_nos, &case.coords, &case.old.paths]) {
            same_words("what is lent to be read", lent.u32s(), held)?;
            same("guards of what is lent to be read", lent.guards_stand(), true)?;
        }
        if number == 0 && counted {
            afresh(case, &by_rules, sides, table)?;
        }
        Ok(())
    }

    fn smaller(&self, case: &Case) -> Vec<Case> {
        let mut out = vec![];
        for k in 0..case.line_nos.len().min(case.path_nos.len()).min(case.coords.len() / LINE) {
            let mut c = case.clone();
            c.line_nos.remove(k);
            c.path_nos.remove(k);
            c.coords.drain(LINE * k..LINE * k + LINE);
            out.push(c);
        }
        for k in 0..case.old.path_nos.len() {
            let mut c = case.clone();
            c.old.path_nos.remove(k);
            c.old.coords.drain(LINE * k..LINE * k + LINE);
            out.push(c);
        }
        out
    }

    fn show(&self, case: &Case) -> String {
        let c = case;
        if c.old.paths.len() > 200 {
            return format!("  path {}, {} paths, {} lines", c.path, paths_in(&c.old.paths), c.line_nos.len());
        }
        format!(
            "  path {}, line numbers {:?}, path numbers {:?}, coordinates {}\n  paths {:?}\n  the old list: path numbers {:?}, coordinates {}",
            c.path,
            c.line_nos,
            c.path_nos,
            hex(&c.coords),
            c.old.paths,
            c.old.path_nos,
            hex(&c.old.coords)
        )
    }

    /// That so many recounts were held against a fresh count.
    fn rows_wanted(&self) -> Vec<(String, u64)> {
        vec![(FRESH.into(), if ours::BRIDGED { 50 } else { 1_000 })]
    }
}

const FRESH: &str = "recounts as a fresh count";

/// Backdrops and counts before the recount, and whether an unrefused count left them.
fn before(case: &Case) -> ((Vec<u32>, Vec<u32>), bool) {
    let old = &case.old;
    let (mut backdrops, mut counts) = (vec![0i32; old.backdrops.len()], vec![0u32; old.counts.len()]);
    let (mut refs, mut lines, mut made, mut item) = (old.refs.clone(), 0, 0, 0);
    let end = old.path_nos.len() as u32;
    let coords = Lent::new(&old.coords);
    let no = rules::count(&old.path_nos, coords.f32s(), &old.paths, &mut backdrops, &mut counts, &mut refs, end, &mut lines, &mut made, &mut item);
    let mut backdrops: Vec<u32> = backdrops.into_iter().map(|b| b as u32).collect();
    if case.stale {
        backdrops.iter_mut().for_each(|b| *b ^= i32::MAX as u32);
        counts.iter_mut().for_each(|c| *c += COUNT_MOST as u32);
    }
    ((backdrops, counts), no == 0 && !case.stale)
}

/// The tiles beside those of a fresh count of the list with the path's lines replaced, where none of it is refused.
fn afresh(case: &Case, wanted: &Memory, sides: Sides, table: &mut Table) -> Result<(), String> {
    let Some(list) = replaced(case) else { return Ok(()) };
    let mut fresh = count::Memory::of(&list);
    let (path_nos, coords, end) = (&list.path_nos, Lent::new(&list.coords), list.path_nos.len() as u32);
    let mut item = 0;
    let mut counted = |by_ours: bool, memory: &mut count::Memory| {
        memory.lend(|b, c, r, lines, made| {
            let call = if by_ours { ours::count } else { rules::count };
            call(path_nos, coords.f32s(), &list.paths, b, c, r, end, lines, made, &mut item)
        })
    };
    if counted(false, &mut fresh) != 0 {
        return Ok(());
    }
    if sides.ours {
        let mut again = count::Memory::of(&list);
        same("answer of the fresh count", counted(true, &mut again), 0)?;
        again.same_as(&fresh)?;
    }
    same_words("backdrops beside a fresh count", wanted.backdrops.u32s(), fresh.backdrops.u32s())?;
    same_words("counts beside a fresh count", wanted.counts.u32s(), fresh.counts.u32s())?;
    let own = |refs: &[u32], made: u32| -> Vec<Vec<u32>> {
        let all = refs.chunks_exact(REF).take(made as usize);
        all.filter(|r| case.line_nos.contains(&named(r))).map(<[u32]>::to_vec).collect()
    };
    same("references beside a fresh count", own(wanted.refs.u32s(), wanted.made), own(fresh.refs.u32s(), fresh.made))?;
    table.add(FRESH, 1);
    if sides.rust {
        by_the_rust(&list, &fresh)?;
        table.add("references that the Rust's fresh count made too", wanted.made as u64);
    }
    Ok(())
}

/// What is lent to be changed, and what is told.
struct Memory {
    backdrops: Lent,
    counts: Lent,
    refs: Lent,
    kept_backdrops: Lent,
    kept_counts: Lent,
    made: u32,
    item: u32,
}

impl Memory {
    fn of(case: &Case, tiles: &(Vec<u32>, Vec<u32>)) -> Memory {
        Memory {
            backdrops: Lent::new(&tiles.0),
            counts: Lent::new(&tiles.1),
            refs: Lent::new(&case.refs),
            kept_backdrops: Lent::new(&vec![0xb0b0_b0b0; case.kept[0]]),
            kept_counts: Lent::new(&vec![0xc0c0_c0c0; case.kept[1]]),
            made: 0xabcd,
            item: 0xabcd,
        }
    }

    fn same_as(&self, wanted: &Memory) -> Result<(), String> {
        same("item", self.item, wanted.item)?;
        same("references made", self.made, wanted.made)?;
        same_words("backdrops", self.backdrops.u32s(), wanted.backdrops.u32s())?;
        same_words("counts", self.counts.u32s(), wanted.counts.u32s())?;
        same_words("references", self.refs.u32s(), wanted.refs.u32s())?;
        same_words("kept_backdrops", self.kept_backdrops.u32s(), wanted.kept_backdrops.u32s())?;
        same_words("kept_counts", self.kept_counts.u32s(), wanted.kept_counts.u32s())?;
        let all = [&self.backdrops, &self.counts, &self.refs, &self.kept_backdrops, &self.kept_counts];
        same("guards", all.iter().all(|l| l.guards_stand()), true)
    }
}
