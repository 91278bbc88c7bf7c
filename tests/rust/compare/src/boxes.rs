//! Boxes made from lines, beside the rules; then what holds of them: the paths' checks take them with as many tiles as were
//! told, and a count of the same lines over boxes with a margin, where every end lies a tile and more from 0 and from the last, is
//! refused for want of room alone.

use crate::count::spoil_line;
use crate::stage::{hex, same, same_words, Sides, Stage};
use crate::table::Table;
use cases::memory::Lent;
use cases::{boxes, lines, Rng};
use rules::boxes::{tile_at, work_words};
use rules::checks::check_paths;
use rules::limits::{COORD_MOST, EDGE_MOST, LINE, LINES_MOST, NO_ROOM, PATH, PATHS_MOST, REF, TILES_MOST};

#[derive(Clone, Debug)]
pub struct Case {
    path_nos: Vec<u32>,
    coords: Vec<u32>,
    beams: Vec<u32>,
    margin: u32,
    /// Words lent for paths, and for working room.
    paths: usize,
    work: usize,
}

pub struct Boxes;

const MARGIN: &str = "counts over boxes with a margin";

/// Lengths, numbers and words that a caller may get wrong, and lists at the limits.
fn spoil(rng: &mut Rng, case: &mut Case) {
    let n = case.beams.len();
    match rng.below(16) {
        0 => _ = case.coords.pop(),
        1 => _ = case.path_nos.pop(),
        2 => case.paths = case.paths.saturating_sub(1),
        3 => case.paths += PATH,
        4 | 5 => case.work = case.work.saturating_sub(1),
        6 => {
            let n = PATHS_MOST as usize + rng.range(0, 1) as usize;
            (case.beams, case.paths, case.work) = (vec![4; n], PATH * n, work_words(n));
        }
        7 if rng.one_in(3) => {
            let n = LINES_MOST as usize + rng.range(0, 1) as usize;
            (case.path_nos, case.coords) = (vec![0; n], vec![0; LINE * n]);
        }
        8 | 9 => case.margin = rng.pick(&[EDGE_MOST as u32, u32::MAX, TILES_MOST as u32]),
        10 | 11 if !case.coords.is_empty() => {
            let k = rng.below(case.coords.len() as u64) as usize;
            case.coords[k] = COORD_MOST.to_bits();
        }
        12 if !case.path_nos.is_empty() => {
            let k = rng.below(case.path_nos.len() as u64) as usize;
            case.path_nos[k] = rng.pick(&[n as u32, u32::MAX]);
        }
        _ => spoil_line(rng, &mut case.path_nos, &mut case.coords, &rules::records::no_tiles(n)),
    }
}

impl Stage for Boxes {
    type Case = Case;
    const NAME: &'static str = "boxes";
    const REACHED: &'static [u32] = &[0, 1, 2, 3, 6, 7, 9];
    const LEAST: u64 = if ours::BRIDGED { 6_000 } else { 120_000 };

    fn make(&self, rng: &mut Rng) -> Case {
        let n = rng.range(1, 5) as usize;
        let (mut path_nos, mut coords) = (vec![], vec![]);
        for _ in 0..rng.range(0, 14) {
            let b = boxes::any(rng, 24);
            let (family, line) = lines::any(rng, &b);
            if family != lines::RANDOM_BITS && family != lines::LIMIT || rng.one_in(8) {
                path_nos.push(rng.below(n as u64) as u32);
                coords.extend(line.map(f32::to_bits));
            }
        }
        let beams = (0..n).map(|_| rng.u32()).collect();
        let margin = rng.pick(&[0, 1, 1, 1, 2, 9]);
        let mut case = Case { path_nos, coords, beams, margin, paths: PATH * n, work: work_words(n) + rng.below(3) as usize };
        if rng.one_in(3) {
            spoil(rng, &mut case);
        }
        case
    }

    fn check(&self, case: &Case, sides: Sides, table: &mut Table) -> Result<(), String> {
        let lent = [&case.path_nos, &case.coords, &case.beams].map(|words| Lent::new(words));
        let mut wanted = Memory::of(case);
        macro_rules! asked {
            ($side:ident, $memory:expr) => {{
                let m: &mut Memory = $memory;
                let (nos, coords, beams) = (lent[0].u32s(), lent[1].f32s(), lent[2].u32s());
                $side::boxes(nos, coords, beams, case.margin, m.paths.u32s_mut(), m.work.u32s_mut(), &mut m.tiles, &mut m.item)
            }};
        }
        let number = asked!(rules, &mut wanted);
        table.answer(number);
        if sides.ours {
            let mut got = Memory::of(case);
            same("answer", asked!(ours, &mut got), number)?;
            got.same_as(&wanted)?;
        }
        for (lent, held) in lent.iter().zip([&case.path_nos, &case.coords, &case.beams]) {
            same_words("what is lent to be read", lent.u32s(), held)?;
            same("guards of what is lent to be read", lent.guards_stand(), true)?;
        }
        if number == 0 {
            same("the paths' checks", check_paths(wanted.paths.u32s(), wanted.tiles as usize), Ok(()))?;
            counted(case, &wanted, sides, table)?;
        }
        Ok(())
    }

    fn smaller(&self, case: &Case) -> Vec<Case> {
        let mut out = vec![];
        for k in 0..case.path_nos.len().min(case.coords.len() / LINE).min(40) {
            let mut c = case.clone();
            c.path_nos.remove(k);
            c.coords.drain(LINE * k..LINE * k + LINE);
            out.push(c);
        }
        out
    }

    fn show(&self, case: &Case) -> String {
        if case.path_nos.len() > 40 || case.beams.len() > 40 {
            return format!("  {} lines, {} paths, margin {}", case.path_nos.len(), case.beams.len(), case.margin);
        }
        format!(
            "  path numbers {:?}, coordinates {}, beam numbers {:?}, margin {}, {} words of paths, {} of room",
            case.path_nos,
            hex(&case.coords),
            case.beams,
            case.margin,
            case.paths,
            case.work
        )
    }

    /// That so many counts were made over boxes with a margin.
    fn rows_wanted(&self) -> Vec<(String, u64)> {
        vec![(MARGIN.into(), if ours::BRIDGED { 50 } else { 1_000 })]
    }
}

/// A count over the boxes, where each has a margin of a tile and more around its lines: done, or refused for want of room.
fn counted(case: &Case, made: &Memory, sides: Sides, table: &mut Table) -> Result<(), String> {
    let coords = Lent::new(&case.coords);
    let inner = |v: &f32| (1..EDGE_MOST - 1).contains(&tile_at(*v));
    if case.margin == 0 || made.tiles > 4_096 || !coords.f32s().iter().all(inner) {
        return Ok(());
    }
    let (tiles, room, end) = (made.tiles as usize, 4_096, case.path_nos.len() as u32);
    let (mut backdrops, mut counts, mut refs) = (vec![0; tiles], vec![0; tiles], vec![0; REF * room]);
    let (mut lines, mut references, mut item) = (0, 0, 0);
    let call = if sides.ours { ours::count } else { rules::count };
    let paths = made.paths.u32s();
    let got = call(&case.path_nos, coords.f32s(), paths, &mut backdrops, &mut counts, &mut refs, end, &mut lines, &mut references, &mut item);
    same("a count over boxes with a margin is done, or has no room", got == 0 || got == NO_ROOM, true)?;
    table.add(MARGIN, 1);
    Ok(())
}

/// What is lent to be changed, and what is told.
struct Memory {
    paths: Lent,
    work: Lent,
    tiles: u32,
    item: u32,
}

impl Memory {
    fn of(case: &Case) -> Memory {
        let words = |n: usize, base: u32| Lent::new(&(0..n).map(|k| base + k as u32).collect::<Vec<u32>>());
        Memory { paths: words(case.paths, 0xfeed_0000), work: words(case.work, 0xc0c0_0000), tiles: 0xabcd, item: 0xabcd }
    }

    fn same_as(&self, wanted: &Memory) -> Result<(), String> {
        same("item", self.item, wanted.item)?;
        same("tiles", self.tiles, wanted.tiles)?;
        same_words("paths", self.paths.u32s(), wanted.paths.u32s())?;
        same_words("working room", self.work.u32s(), wanted.work.u32s())?;
        same("guards", self.paths.guards_stand() && self.work.guards_stand(), true)
    }
}
