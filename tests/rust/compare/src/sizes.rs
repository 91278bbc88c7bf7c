//! What lines and paths need, beside the rules; and what it is worth: a frame, and lists, over just so much are never refused
//! with 9, a frame that is done makes as many references, one fewer is too few, and the unchanged Rust makes as many.

use crate::count::spoil_line;
use crate::frame::{self, CALM, ODD};
use crate::stage::{hex, same, Sides, Stage};
use crate::table::Table;
use crate::write_lists::{near_boxes, paints};
use cases::memory::{as_f32, Lent};
use cases::{boxes, Rng};
use rules::limits::{EDGE_MOST, LINE, PATHS_MOST, REF, SEGMENT};
use rules::records::{no_tiles, paths_in};

const NINE: u32 = rules::limits::NO_ROOM;

#[derive(Clone, Debug)]
pub struct Case {
    path_nos: Vec<u32>,
    coords: Vec<u32>,
    paths: Vec<u32>,
    paints: Vec<u32>,
    cols: u32,
    rows: u32,
}

pub struct Sizes;

fn spoil(rng: &mut Rng, case: &mut Case) {
    match rng.below(12) {
        0 => _ = case.coords.pop(),
        1 => _ = case.path_nos.pop(),
        2 => _ = case.paths.pop(),
        3 => [case.cols, case.rows] = [rng.pick(&[1 << 20, 1 << 10, u32::MAX]), rng.pick(&[1, (1 << 10) + 1, u32::MAX])],
        4 => case.paths = no_tiles(PATHS_MOST as usize + rng.below(3) as usize),
        5..=8 => spoil_line(rng, &mut case.path_nos, &mut case.coords, &case.paths),
        _ => boxes::spoil(rng, &mut case.paths, rules::limits::TILES_MOST as usize),
    }
}

/// The number, tiles, references, words, item.
type Told = [u32; 5];

macro_rules! told {
    ($side:ident, $case:expr) => {{
        let (path_nos, coords, paths) = (Lent::new(&$case.path_nos), Lent::new(&$case.coords), Lent::new(&$case.paths));
        let [mut tiles, mut made, mut words, mut item] = [0xabcd; 4];
        let (p, c, b) = (path_nos.u32s(), coords.f32s(), paths.u32s());
        let number = $side::sizes(p, c, b, $case.cols, $case.rows, &mut tiles, &mut made, &mut words, &mut item);
        let stand = path_nos.guards_stand() && coords.guards_stand() && paths.guards_stand();
        same("guards of what is lent", stand, true)?;
        [number, tiles, made, words, item]
    }};
}

/// A frame over so many tiles, references and slots: its number, the stage, the references, and what write_lists reads.
fn drawn(case: &Case, tiles: u32, refs: u32, slots: u32, ours: bool) -> ([u32; 3], frame::Case) {
    let (t, r, s) = (tiles as usize, refs as usize, slots as usize);
    let mut c = frame::Case {
        path_nos: case.path_nos.clone(),
        coords: case.coords.clone(),
        paths: case.paths.clone(),
        backdrops: vec![7; t],
        tiles: vec![7; t],
        tally: vec![7; t],
        refs: vec![7; REF * r],
        segments: vec![7; SEGMENT * s],
        tags: vec![7; s],
    };
    let mut memory = frame::Memory::of(&c);
    let [mut stage, mut item, mut lines, mut made] = [0; 4];
    let call = if ours { ours::frame } else { rules::frame };
    let number = memory.lend(|b, t, y, r, s, g| {
        call(&case.path_nos, as_f32(&case.coords), &case.paths, b, t, y, r, s, g, &mut stage, &mut item, &mut lines, &mut made)
    });
    [c.backdrops, c.tiles, c.tally] = [0, 1, 2].map(|k| memory.0[k].u32s().to_vec());
    ([number, stage, made], c)
}

/// Lists of a frame that is done, over so many words.
fn listed(case: &Case, f: &frame::Case, room: u32, words: u32, ours: bool) -> u32 {
    let (mut out, mut item) = (vec![7; words as usize], 0);
    let (backdrops, call) = (Lent::new(&f.backdrops), if ours { ours::write_lists } else { rules::write_lists });
    call(&case.paths, &case.paints, backdrops.i32s(), &f.tiles, &f.tally, case.cols, case.rows, room, &mut out, &mut item)
}

const WORTH: [&str; 4] = ["frames over just so much, done", "lists over just so much, done", "one reference fewer, 9", "as many as the Rust makes"];

/// What the numbers are worth, by ours or by the rules.
fn worth(case: &Case, told: Told, ours: bool, table: &mut Table) -> Result<(), String> {
    let [_, tiles, made, words, _] = told;
    let ([number, _, counted], f) = drawn(case, tiles, made, made, ours);
    same("a frame over just so much is refused with 9 or 4", number == NINE || number == rules::limits::BAD_FIRST, false)?;
    if number != 0 {
        return Ok(());
    }
    same("references of a frame that is done", counted, made)?;
    table.add(WORTH[0], 1);
    let listed = listed(case, &f, made, words, ours);
    same("lists over just so much are refused with 9", listed == NINE, false)?;
    table.add(WORTH[1], (listed == 0) as u64);
    if made > 0 {
        let ([number, stage, _], _) = drawn(case, tiles, made - 1, made, ours);
        same("a frame with room for one reference fewer: number, stage", [number, stage], [NINE, rules::frame::COUNTING])?;
        let ([number, stage, _], _) = drawn(case, tiles, made, made - 1, ours);
        same("a frame with one segment fewer: number, stage", [number, stage], [NINE, rules::frame::HAND_OUT])?;
        table.add(WORTH[2], 1);
    }
    if tiles > 0 {
        let ([number, ..], _) = drawn(case, tiles - 1, made, made, ours);
        same("a frame over one tile fewer", number, rules::limits::BAD_FIRST)?;
    }
    Ok(())
}

/// The references that the unchanged Rust makes of the lines, where the rules accept them.
fn by_the_rust(case: &Case, tiles: u32, made: u32, table: &mut Table) -> Result<(), String> {
    let (t, n) = (tiles as usize, case.path_nos.len());
    let (mut backdrops, mut counts, mut refs) = (vec![0; t], vec![0; t], vec![0; REF * made as usize]);
    let got = oracle::count(&case.path_nos, as_f32(&case.coords), &case.paths, &mut backdrops, &mut counts, &mut refs, 0, n, 0);
    same("the Rust panicked", got.is_err(), false)?;
    same("references that the Rust makes", got.unwrap_or(0), made)?;
    table.add(WORTH[3], 1);
    Ok(())
}

impl Stage for Sizes {
    type Case = Case;
    const NAME: &'static str = "sizes";
    /// 5 and 9 take more lines than are made here: the hostile runs have them.
    const REACHED: &'static [u32] = &[0, 1, 2, 3, 4, 6, 7];
    const LEAST: u64 = if ours::BRIDGED { 6_000 } else { 60_000 };

    fn make(&self, rng: &mut Rng) -> Case {
        let n_paths = if rng.one_in(20) { 0 } else { rng.range(1, 30) as usize };
        let most = if rng.one_in(60) { rng.pick(&[300, EDGE_MOST]) } else { rng.pick(&[2, 4, 8]) };
        let (paths, _) = if rng.coin() { near_boxes(rng, n_paths, most) } else { boxes::table(rng, n_paths, most) };
        let n = if n_paths == 0 { 0 } else { rng.range(0, 16) as usize };
        let families: &[usize] = rng.pick(&[&CALM[..], &CALM, &ODD]);
        let (path_nos, coords) = frame::lines_of(rng, families, &paths, n);
        let (cols, rows) = (rng.below(9) as u32, rng.below(9) as u32);
        let mut case = Case { path_nos, coords, paints: paints(rng, n_paths), paths, cols, rows };
        if rng.one_in(4) {
            spoil(rng, &mut case);
        }
        case
    }

    fn check(&self, case: &Case, sides: Sides, table: &mut Table) -> Result<(), String> {
        let told = told!(rules, case);
        table.answer(told[0]);
        if sides.ours {
            same("answer, tiles, references, words, item", told!(ours, case), told)?;
        }
        if told[0] != 0 {
            return same("tiles, references, words of a refusal", [told[1], told[2], told[3]], [0; 3]);
        }
        worth(case, told, sides.ours, table)?;
        if sides.rust {
            let ([number, ..], _) = drawn(case, told[1], told[2], told[2], false);
            if number == 0 {
                by_the_rust(case, told[1], told[2], table)?;
            }
        }
        Ok(())
    }

    fn smaller(&self, case: &Case) -> Vec<Case> {
        let mut out = vec![];
        for k in 0..case.path_nos.len().min(case.coords.len() / LINE) {
            let mut c = case.clone();
            c.path_nos.remove(k);
            c.coords.drain(LINE * k..LINE * (k + 1));
            out.push(c);
        }
        out
    }

    fn show(&self, case: &Case) -> String {
        if case.paths.len() > 400 {
            return format!("  {} paths, {} lines, screen {} by {}", paths_in(&case.paths), case.path_nos.len(), case.cols, case.rows);
        }
        let (nos, coords) = (&case.path_nos, hex(&case.coords));
        format!("  screen {} by {}\n  paths {:?}\n  path numbers {nos:?}, coordinates {coords}", case.cols, case.rows, case.paths)
    }

    fn rows_wanted(&self) -> Vec<(String, u64)> {
        let least = if ours::BRIDGED { 50 } else { 1_000 };
        let n = if oracle::AT_HAND { WORTH.len() } else { WORTH.len() - 1 };
        WORTH[..n].iter().map(|row| (row.to_string(), least)).collect()
    }
}
