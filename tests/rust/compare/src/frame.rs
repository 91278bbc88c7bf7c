//! A whole frame in one call: beside the rules, and beside the unchanged Rust's stages one after another.

use crate::count::{box_of, some_lines, spoil_line};
use crate::stage::{hex, same, same_words, Sides, Stage};
use crate::table::Table;
use crate::tiling::{other_length, tags_before};
use cases::memory::{as_f32, Lent};
use cases::{boxes, lines, Rng};
use rules::frame::{COUNTING, HAND_OUT, LENT, TILING};
use rules::limits::{EDGE_MOST, LINE, PATHS_MOST, REF, SEGMENT};
use rules::records::{beam_at, box_at, first_at, line_floats, no_tiles, path, paths_in, segment_floats, segments_in};

#[derive(Clone, Debug)]
pub struct Case {
    pub path_nos: Vec<u32>,
    pub coords: Vec<u32>,
    pub paths: Vec<u32>,
    pub backdrops: Vec<u32>,
    pub tiles: Vec<u32>,
    pub tally: Vec<u32>,
    pub refs: Vec<u32>,
    pub segments: Vec<u32>,
    pub tags: Vec<u32>,
}

pub struct Frame;

/// Families of which lines are rarely refused, so that most frames are drawn whole.
pub const CALM: [usize; 9] = [0, 3, 6, 7, 8, 12, 13, 14, 15];
/// Families of which many are refused with 10 or 12.
pub const ODD: [usize; 4] = [17, 19, 20, 21];
/// A line so short that its steps are refused with 10, in a box of six tiles.
const SHORT: [u32; 4] = [0x42a0_0000, 0, 0x42a0_0000, 1_000];

pub fn lines_of(rng: &mut Rng, families: &[usize], paths: &[u32], n: usize) -> (Vec<u32>, Vec<u32>) {
    let (mut path_nos, mut coords) = (vec![], vec![]);
    for _ in 0..n {
        let path = rng.below(paths_in(&paths) as u64) as usize;
        let family = rng.pick(families);
        path_nos.push(path as u32);
        coords.extend(lines::of_family(rng, family, &box_of(paths, path)).map(f32::to_bits));
    }
    (path_nos, coords)
}

/// A frame over the paths, of lines of these families, or of all: what the tables hold beforehand is anything, and there is
/// room for all or nearly all.
pub fn over(rng: &mut Rng, paths: Vec<u32>, tiles: usize, n: usize, families: &[usize]) -> Case {
    let lines = if families.is_empty() { some_lines(rng, &paths, n) } else { lines_of(rng, families, &paths, n) };
    of_lines(rng, lines, paths, tiles)
}

/// The same of lines that are there: path numbers and coordinates.
pub fn of_lines(rng: &mut Rng, (path_nos, coords): (Vec<u32>, Vec<u32>), paths: Vec<u32>, tiles: usize) -> Case {
    let n = path_nos.len();
    let reach = (0..paths_in(&paths)).map(|k| box_at(&paths, k)).map(|[x0, y0, x1, y1]| (x1 - x0 + y1 - y0) as usize).max().unwrap_or(0);
    let (mut b, mut c, mut r) = (vec![0; tiles], vec![0; tiles], vec![0; REF * n * (120 + reach)]);
    let (mut lines, mut made) = (0, 0);
    rules::count(&path_nos, as_f32(&coords), &paths, &mut b, &mut c, &mut r, n as u32, &mut lines, &mut made, &mut 0);
    let room = |rng: &mut Rng| match rng.below(10) {
        0 => rng.below(made as u64 + 1) as usize,
        1 => made as usize + 3,
        _ => made as usize,
    };
    let (refs, slots) = (room(rng), room(rng));
    let mut any = |n: usize| (0..n).map(|_| rng.u32()).collect::<Vec<u32>>();
    let (backdrops, counts, tally, refs) = (any(tiles), any(tiles), any(tiles), any(REF * refs));
    // NaNs with payloads, so that a word left alone is seen to be
    let segments = (0..SEGMENT * slots).map(|k| 0x7fb0_0000 + k as u32).collect();
    let tags = tags_before(rng, &paths, slots);
    Case { path_nos, coords, paths, backdrops, tiles: counts, tally, refs, segments, tags }
}

pub fn spoil(rng: &mut Rng, case: &mut Case) {
    match rng.below(17) {
        0 => _ = case.coords.pop(),
        1 => _ = case.path_nos.pop(),
        2 => _ = case.paths.pop(),
        3 => _ = case.backdrops.pop(),
        4 => case.tiles.push(3),
        5 => _ = case.tally.pop(),
        6 => _ = case.refs.pop(),
        7 => case.segments.push(1),
        16 => other_length(rng, &mut case.tags),
        8..=10 => spoil_line(rng, &mut case.path_nos, &mut case.coords, &case.paths),
        11 => case.paths = no_tiles(PATHS_MOST as usize + rng.below(3) as usize),
        _ => boxes::spoil(rng, &mut case.paths, case.tiles.len()),
    }
}

impl Stage for Frame {
    type Case = Case;
    const NAME: &'static str = "frame";
    /// 8 and 11 can't be met over cleared tiles, and 5 takes a line over the limit (`limits` has it).
    const REACHED: &'static [u32] = &[0, 1, 2, 3, 4, 6, 7, 9, 10, 12];
    const LEAST: u64 = 130_000;

    fn make(&self, rng: &mut Rng) -> Case {
        let most = if rng.one_in(60) { rng.pick(&[300, EDGE_MOST]) } else { rng.pick(&[4, 8, 24]) };
        let n_paths = rng.range(1, 4) as usize;
        let (paths, tiles) = boxes::table(rng, n_paths, most);
        let tiles = tiles + rng.below(3) as usize;
        let n = if rng.one_in(30) { 0 } else { rng.range(1, 16) as usize };
        let families: &[usize] = rng.pick(&[&CALM[..], &CALM, &CALM, &ODD, &[]]);
        let mut case = over(rng, paths, tiles, n, families);
        if rng.one_in(40) {
            case = over(rng, path([0, 0, 6, 1], 0).to_vec(), 6, n + 1, &CALM);
            let k = rng.below(n as u64 + 1) as usize;
            case.coords[line_floats(k)].copy_from_slice(&SHORT);
        }
        if rng.one_in(5) {
            spoil(rng, &mut case);
        }
        case
    }

    fn check(&self, case: &Case, sides: Sides, table: &mut Table) -> Result<(), String> {
        let (path_nos, coords, paths) = (Lent::new(&case.path_nos), Lent::new(&case.coords), Lent::new(&case.paths));
        let mut by_rules = Memory::of(case);
        let mut told = [0xabcd; 4];
        let number = by_rules.lend(|b, t, y, r, s, g| {
            let [stage, item, lines, made] = &mut told;
            rules::frame(path_nos.u32s(), coords.f32s(), paths.u32s(), b, t, y, r, s, g, stage, item, lines, made)
        });
        table.answer(number);
        table.add(
            ["done", "refused by the checks", "refused in counting", "refused in the sums", "refused in hand-out", "refused in tiling"]
                [told[0] as usize],
            1,
        );
        if sides.ours {
            let mut by_ours = Memory::of(case);
            let mut ours_told = [0xabcd; 4];
            let ours_number = by_ours.lend(|b, t, y, r, s, g| {
                let [stage, item, lines, made] = &mut ours_told;
                ours::frame(path_nos.u32s(), coords.f32s(), paths.u32s(), b, t, y, r, s, g, stage, item, lines, made)
            });
            same("answer", ours_number, number)?;
            same("stage, item, lines, references", ours_told, told)?;
            by_ours.same_as(&by_rules)?;
            for (l, words) in [(&path_nos, &case.path_nos), (&coords, &case.coords), (&paths, &case.paths)] {
                same_words("lent to be read", l.u32s(), words)?;
                same("guards", l.guards_stand(), true)?;
            }
        }
        if sides.rust && told[0] != LENT {
            by_the_rust(case, told, &by_rules)?;
            table.add("lines the Rust counted too", told[2] as u64);
            table.add("frames the Rust drew too", (number == 0) as u64);
        }
        Ok(())
    }

    fn smaller(&self, case: &Case) -> Vec<Case> {
        let n = case.path_nos.len();
        if case.coords.len() != LINE * n {
            return vec![];
        }
        (0..n)
            .map(|k| {
                let mut c = case.clone();
                c.path_nos.remove(k);
                c.coords.drain(line_floats(k));
                c
            })
            .collect()
    }

    fn show(&self, case: &Case) -> String {
        if case.paths.len() > 200 {
            return format!("  {} paths", paths_in(&case.paths));
        }
        format!(
            "  paths {:?}\n  path numbers {:?}\n  coordinates {}\n  tiles {}, {} and {}, words of references {}, of segments {}, tags {}",
            case.paths,
            case.path_nos,
            hex(&case.coords),
            case.backdrops.len(),
            case.tiles.len(),
            case.tally.len(),
            case.refs.len(),
            case.segments.len(),
            case.tags.len()
        )
    }
}

/// What is lent to be changed: backdrops, tiles, tally, references, segments, tags.
pub struct Memory(pub [Lent; 6]);

impl Memory {
    pub fn of(case: &Case) -> Memory {
        Memory([&case.backdrops, &case.tiles, &case.tally, &case.refs, &case.segments, &case.tags].map(|w| Lent::new(w)))
    }

    pub fn lend<T>(&mut self, call: impl FnOnce(&mut [i32], &mut [u32], &mut [u32], &mut [u32], &mut [f32], &mut [u32]) -> T) -> T {
        let [b, t, y, r, s, g] = &mut self.0;
        call(b.i32s_mut(), t.u32s_mut(), y.u32s_mut(), r.u32s_mut(), s.f32s_mut(), g.u32s_mut())
    }

    pub fn same_as(&self, wanted: &Memory) -> Result<(), String> {
        let names = ["backdrops", "stored", "tally", "references", "segments", "tags"];
        for ((got, wanted), name) in self.0.iter().zip(&wanted.0).zip(names) {
            same_words(name, got.u32s(), wanted.u32s())?;
            same(name, got.guards_stand(), true)?;
        }
        Ok(())
    }
}

/// Tags, which the Rust lacks, from the tables alone: wherever the Rust has written a segment, the number of the path whose tile has the slot.
fn tag_by_tiles(case: &Case, stored: &[u32], tally: &[u32], segments: &[f32], tags: &mut [u32]) {
    for p in 0..paths_in(&case.paths) {
        let ([x0, y0, x1, y1], first) = (box_at(&case.paths, p), first_at(&case.paths, p));
        for tile in (first..first + (x1 - x0) * (y1 - y0)).map(|t| t as usize).filter(|&t| tally[t] > 0) {
            for slot in (!stored[tile]..!stored[tile] + tally[tile]).map(|s| s as usize) {
                let written = segments[segment_floats(slot)].iter().zip(&case.segments[segment_floats(slot)]).any(|(v, w)| v.to_bits() != *w);
                if written {
                    tags[slot] = beam_at(&case.paths, p);
                }
            }
        }
    }
}

/// The Rust's stages on what the rules accepted, tiles cleared; hand-out, which the Rust lacks, by its rule.
fn by_the_rust(case: &Case, told: [u32; 4], wanted: &Memory) -> Result<(), String> {
    let [stage, item, lines, _] = told;
    let mut memory = Memory::of(case);
    let coords = as_f32(&case.coords);
    let ran = memory.lend(|b, t, tally, r, s, tags| -> Result<u32, oracle::Stopped> {
        b.fill(0);
        t.fill(0);
        let made = oracle::count(&case.path_nos, coords, &case.paths, b, t, r, 0, lines as usize, 0)?;
        if stage == COUNTING {
            return Ok(made);
        }
        oracle::backdrop(&case.paths, b)?;
        if stage == HAND_OUT {
            return Ok(made);
        }
        rules::hand_out(t, tally, segments_in(s) as u32);
        let to = if stage == TILING { item } else { made };
        oracle::tile(&case.path_nos, coords, &case.paths, t, r, 0, to as usize, s)?;
        tag_by_tiles(case, t, tally, s, tags);
        Ok(made)
    });
    let made = ran.map_err(|_| "the Rust panicked".to_string())?;
    same("references the Rust made", made, told[3])?;
    wanted.same_as(&memory).map_err(|e| format!("beside the Rust: {e}"))
}
