//! Fine: lists of commands made for both sides, and any words; beside the rules and the unchanged Rust.

use crate::stage::{hex, same, same_words, Sides, Stage};
use crate::table::Table;
use cases::commands::{color, fill, Command, Lists, OURS};
use cases::memory::{as_f32, Lent};
use cases::{segments, Rng};
use rules::limits::{COMMANDS_MOST, EDGE_MOST, REGION, TILES_MOST};

const TILES: u32 = TILES_MOST as u32;
const EDGE: u32 = EDGE_MOST as u32;

/// Columns and rows of screens with more tiles than there may be.
pub const OVER: [(u32, u32); 5] = [(TILES + 1, 1), (EDGE, TILES / EDGE + 1), (u32::MAX, u32::MAX), (1, TILES + 1), (2, 1 << 31)];

#[derive(Clone, Debug)]
pub struct Case {
    pub lists: Lists,
    pub segments: Vec<u32>,
    pub width: u32,
    pub cols: u32,
    pub rows: u32,
    pub ranges: Vec<(u32, u32)>,
    pub pixels: usize,
    /// Whether the two lists say the same, so that the Rust can be run.
    pub paired: bool,
}

pub struct Fine;

fn one(rng: &mut Rng, n_segments: u32, words: u32, wild: u64) -> Command {
    match rng.below(8) {
        0..=2 => {
            let off = rng.below(wild) == 0;
            fill(rng, n_segments, off)
        }
        3 => Command::Solid,
        4..=6 => Command::Color(color(rng)),
        _ if rng.below(wild) == 0 => Command::Unknown(rng.pick(&[6, 7, 8, 9, 10, 11, 13, 99, u32::MAX, 1 << 31])),
        _ if rng.below(wild) == 0 => Command::Jump(rng.pick(&[words, words + 1, u32::MAX, u32::MAX - 3, words - 1])),
        _ => Command::Solid,
    }
}

/// A list for a tile in its region of 64 words, now and then with a jump past all regions, or at its end into the middle of
/// an earlier tile's list. `starts` has the commands' places.
fn put_list(rng: &mut Rng, lists: &mut Lists, tile: usize, fresh: &mut usize, starts: &mut Vec<usize>, n_segments: u32, wild: u64) {
    let earlier = starts.len();
    let words = lists.ours.len();
    let mut at = REGION * tile + 1;
    let mut end = REGION * (tile + 1);
    let mut idle_from = at; // from here to `at` nothing is filled or painted, so a loop costs little
    for _ in 0..rng.range(0, 12) {
        let command = one(rng, n_segments, words as u32, wild);
        if end < at + OURS.size(command) + 3 || rng.one_in(12) {
            lists.put(at, Command::Jump(*fresh as u32), 0);
            (at, idle_from) = (*fresh, *fresh);
            *fresh += REGION;
            end = *fresh;
        }
        starts.push(at);
        at = lists.put(at, command, rng.u32());
        if let Command::Jump(_) | Command::Unknown(_) = command {
            return;
        }
        if command != Command::Solid {
            idle_from = at;
        }
    }
    let last = match rng.below(4 * wild) {
        0 => Command::Jump(at as u32),
        1 => Command::Jump(idle_from as u32),
        2..=4 if earlier > 0 => Command::Jump(starts[rng.below(earlier as u64) as usize] as u32),
        _ => Command::End,
    };
    lists.put(at, last, 0);
}

/// A chain of exactly `n` commands: jumps to and fro, then `last`.
fn chain(rng: &mut Rng, n: usize, last: Command) -> Lists {
    let mut lists = Lists::new(2 * n + 8, 77);
    let mut at = 1;
    for k in 0..n {
        let command = match k {
            k if k % 97 == 0 => Command::Color(rng.u32()),
            _ if rng.one_in(3) => Command::Solid,
            _ => Command::Jump((at + OURS.size(Command::Jump(0))) as u32),
        };
        at = lists.put(at, command, 5);
    }
    lists.put(at, last, 0);
    lists
}

fn any_words(rng: &mut Rng, n: usize) -> Vec<u32> {
    let most = n as u64 + 2;
    (0..n)
        .map(|_| match rng.below(8) {
            0 => rng.u32(),
            1 => rng.below(most) as u32,
            2 => 0,
            _ => rng.below(6) as u32,
        })
        .collect()
}

/// A screen of at most so many tile rows, with its lists, as a good caller lends it; no range is named yet.
pub fn made(rng: &mut Rng, rows_most: i64) -> Case {
    let n_segments = rng.pick(&[0, 1, 4, 9]) as u32;
    let list: Vec<u32> = segments::list(rng, n_segments as usize).into_iter().map(f32::to_bits).collect();
    let (cols, rows) = (rng.range(0, 3) as u32, rng.range(0, rows_most) as u32);
    let tiles = (cols * rows) as usize;
    let mut case =
        Case { lists: Lists::default(), segments: list, width: 16 * cols + rng.below(4) as u32, cols, rows, ranges: vec![], pixels: 0, paired: true };
    let wild = rng.pick(&[3, 12, 100]);
    case.lists = Lists::new(REGION * (tiles + 1), 77);
    match rng.below(16) {
        0 => {
            let n = COMMANDS_MOST as usize + rng.pick(&[0, 1, 1, 2, 3]) - 1;
            let last = rng.pick(&[Command::End, Command::End, Command::Unknown(99), Command::Solid]);
            case.lists = chain(rng, n, last);
            (case.cols, case.rows, case.width) = (1, 1, 16);
        }
        1 => {
            let n = rng.below(70) as usize;
            case.lists = Lists::of_words(any_words(rng, n));
            case.paired = false;
        }
        _ => {
            let mut fresh = REGION * tiles;
            let grown = REGION * (tiles + 12 * tiles.max(1));
            case.lists = Lists::new(grown, 77);
            let mut starts = vec![];
            for t in 0..tiles {
                put_list(rng, &mut case.lists, t, &mut fresh, &mut starts, n_segments, wild);
            }
            if rng.one_in(6) {
                case.lists.cut(rng.below(fresh as u64 + 1) as usize);
            }
        }
    }
    case.pixels = (case.width * 16 * case.rows) as usize + rng.below(3) as usize;
    case
}

impl Stage for Fine {
    type Case = Case;
    const NAME: &'static str = "fine";
    const REACHED: &'static [u32] = &[0, 1, 2, 13, 14, 15, 16, 20];
    const LEAST: u64 = 25_000;

    fn make(&self, rng: &mut Rng) -> Case {
        let mut case = made(rng, 2);
        let tiles = case.cols * case.rows;
        let mut from = 0;
        while rng.one_in(3) {
            let to = rng.range(from as i64, tiles as i64) as u32;
            case.ranges.push((from, to));
            from = to;
        }
        case.ranges.push((from, tiles));
        if rng.one_in(5) {
            hostile(rng, &mut case);
        }
        case
    }

    fn check(&self, case: &Case, sides: Sides, table: &mut Table) -> Result<(), String> {
        let (words, segments) = (Lent::new(&case.lists.ours), Lent::new(&case.segments));
        let before: Vec<u32> = (0..case.pixels).map(|k| 0x5000_0000 + k as u32).collect();
        let mut by_rules = Lent::new(&before);
        let mut by_ours = Lent::new(&before);
        let c = case;
        for &(from, to) in &case.ranges {
            let was = by_rules.clone();
            let mut item = 0xabcd;
            let number = rules::fine(words.u32s(), segments.f32s(), c.width, c.cols, c.rows, from, to, by_rules.u32s_mut(), &mut item);
            table.answer(number);
            if sides.ours {
                let mut our_item = 0xabcd;
                let our_number = ours::fine(words.u32s(), segments.f32s(), c.width, c.cols, c.rows, from, to, by_ours.u32s_mut(), &mut our_item);
                same("answer", our_number, number)?;
                same("item", our_item, item)?;
                same_words("pixels", by_ours.u32s(), by_rules.u32s())?;
                same_words("words lent", words.u32s(), &case.lists.ours)?;
                same_words("segments lent", segments.u32s(), &case.segments)?;
                same("guards", by_ours.guards_stand() && words.guards_stand() && segments.guards_stand(), true)?;
            }
            let early = [1, 2, 16].contains(&number);
            if sides.rust && !early && case.paired {
                let stop = if number == 0 { to } else { item };
                by_the_rust(case, was, from, stop, &by_rules)?;
                table.add("tiles the Rust painted too", (stop - from) as u64);
            }
            if number != 0 {
                break;
            }
        }
        Ok(())
    }

    fn smaller(&self, case: &Case) -> Vec<Case> {
        let mut out = vec![];
        let tiles = case.cols.saturating_mul(case.rows);
        if case.ranges.len() > 1 || case.ranges.first().is_some_and(|r| r.1 - r.0.min(r.1) > 1) {
            for t in 0..tiles.min(8) {
                let mut c = case.clone();
                c.ranges = vec![(t, t + 1)];
                out.push(c);
            }
        }
        out
    }

    fn show(&self, case: &Case) -> String {
        format!(
            "  words {}\n  segments {}\n  width {}, columns {}, rows {}, ranges {:?}, pixels {}",
            hex(&case.lists.ours),
            hex(&case.segments),
            case.width,
            case.cols,
            case.rows,
            case.ranges,
            case.pixels
        )
    }
}

/// Sizes, ranges and lengths that a caller may get wrong.
pub fn hostile(rng: &mut Rng, case: &mut Case) {
    match rng.below(14) {
        0 => _ = case.segments.pop(),
        1 => case.segments.push(3),
        2 => case.ranges.insert(0, (1, 0)),
        3 => case.ranges = vec![(0, case.cols * case.rows + 1)],
        4 | 10..=12 => {
            (case.cols, case.rows) = rng.pick(&OVER);
            case.ranges = vec![(0, 0)];
        }
        5 => case.width = case.width.saturating_sub(rng.below(20) as u32),
        6 => case.pixels = case.pixels.saturating_sub(rng.below(40) as usize),
        7 => {
            (case.cols, case.rows) = (0, rng.pick(&[1, TILES, u32::MAX]));
            case.ranges = vec![(0, 0)];
        }
        8 => case.width = rng.pick(&[u32::MAX, 1 << 28, case.width + 1]),
        _ => {
            (case.cols, case.rows) = rng.pick(&[(TILES, 1), (1, TILES)]);
            case.ranges = vec![(0, 0)];
        }
    }
}

/// Each tile as a screen of one tile, entered by a JUMP at word 1.
pub fn by_the_rust(case: &Case, mut was: Lent, from: u32, stop: u32, wanted: &Lent) -> Result<(), String> {
    let segments = oracle::segments_of(as_f32(&case.segments));
    let mut theirs = case.lists.theirs();
    for t in from..stop {
        let Ok(made) = oracle::fine_tile(theirs.for_tile(REGION as u32 * t + 1), &segments) else {
            return Err(format!("the Rust panicked on tile {t}"));
        };
        let (x, y) = (16 * (t % case.cols) as usize, 16 * (t / case.cols) as usize);
        for (row, sixteen) in made.chunks_exact(16).enumerate() {
            let base = case.width as usize * (y + row) + x;
            was.u32s_mut()[base..base + 16].copy_from_slice(sixteen);
        }
    }
    same_words("beside the Rust: pixels", wanted.u32s(), was.u32s())
}
