//! From lines to pixels in one call: beside the rules, beside our own three calls one after another, and beside the page.

use crate::count::spoil_line;
use crate::fine::OVER;
use crate::frame::{self, Memory};
use crate::picture;
use crate::stage::{hex, same, same_words, Sides, Stage};
use crate::table::Table;
use cases::memory::{as_f32, Lent};
use cases::{boxes, Rng};
use rules::limits::PAINT;
use rules::records::segments_in;

type Case = picture::Case;

pub struct Draw;

/// Words, paints, a screen or pixels that a caller may get wrong, or what a frame is lent.
fn spoil(rng: &mut Rng, case: &mut Case) {
    match rng.below(20) {
        0 => _ = case.paints.pop(),
        1 => case.paints.extend([0; PAINT]),
        2 => (case.cols, case.rows) = rng.pick(&OVER),
        3 => case.width = case.width.saturating_sub(rng.range(1, 20) as u32),
        4 => {
            let n = rng.range(1, 60) as usize;
            case.pixels.truncate(case.pixels.len().saturating_sub(n));
        }
        5 => case.words = case.words.saturating_sub(rng.range(1, 60) as usize),
        6..=10 => spoil_line(rng, &mut case.frame.path_nos, &mut case.frame.coords, &case.frame.paths),
        11..=14 => boxes::spoil(rng, &mut case.frame.paths, case.frame.tiles.len()),
        _ => frame::spoil(rng, &mut case.frame),
    }
}

/// What is told (stage, item, lines, references), and the words and pixels besides a frame's memory.
struct Left {
    number: u32,
    told: [u32; 4],
    memory: Memory,
    words: Lent,
    pixels: Lent,
}

fn before(case: &Case) -> Vec<u32> {
    (0..case.words).map(|k| 0x6000_0000 + k as u32).collect()
}

macro_rules! drawn {
    ($side:ident, $case:expr) => {{
        let (c, f) = ($case, &$case.frame);
        let (mut memory, mut words, mut pixels) = (Memory::of(f), Lent::new(&before(c)), Lent::new(&c.pixels));
        let mut told = [0xabcd; 4];
        let number = memory.lend(|b, t, y, r, s, g| {
            let ([stage, item, lines, made], words, pixels) = (&mut told, words.u32s_mut(), pixels.u32s_mut());
            let (coords, paints) = (as_f32(&f.coords), &c.paints);
            $side::draw(&f.path_nos, coords, &f.paths, paints, b, t, y, r, s, g, c.width, c.cols, c.rows, words, pixels, stage, item, lines, made)
        });
        Left { number, told, memory, words, pixels }
    }};
}

impl Left {
    fn same_as(&self, wanted: &Left) -> Result<(), String> {
        same("answer", self.number, wanted.number)?;
        same("stage, item, lines, references", self.told, wanted.told)?;
        self.memory.same_as(&wanted.memory)?;
        same_words("words", self.words.u32s(), wanted.words.u32s())?;
        same_words("pixels", self.pixels.u32s(), wanted.pixels.u32s())?;
        same("guards", self.words.guards_stand() && self.pixels.guards_stand(), true)
    }
}

/// Frame, lists and fine one after another, over the same.
fn by_three(case: &Case) -> Left {
    let f = &case.frame;
    let (mut memory, mut words, mut pixels) = (Memory::of(f), Lent::new(&before(case)), Lent::new(&case.pixels));
    let mut told = [0; 4];
    let number = memory.lend(|b, t, y, r, s, g| {
        let [stage, item, lines, made] = &mut told;
        let no = ours::frame(&f.path_nos, as_f32(&f.coords), &f.paths, b, t, y, r, s, g, stage, item, lines, made);
        if no != 0 {
            return no;
        }
        let no = ours::write_lists(&f.paths, &case.paints, b, t, y, case.cols, case.rows, segments_in(s) as u32, words.u32s_mut(), item);
        if no != 0 {
            *stage = rules::draw::LISTS;
            return no;
        }
        ours::fine(words.u32s(), s, case.width, case.cols, case.rows, 0, case.cols * case.rows, pixels.u32s_mut(), item)
    });
    Left { number, told, memory, words, pixels }
}

impl Stage for Draw {
    type Case = Case;
    const NAME: &'static str = "draw";
    /// 5 takes a line over the limit, and 15 paths over one tile: the hostile runs have them.
    const REACHED: &'static [u32] = &[0, 1, 2, 3, 4, 6, 7, 9, 16];
    const LEAST: u64 = if ours::BRIDGED { 1_500 } else { 40_000 };

    fn make(&self, rng: &mut Rng) -> Case {
        let mut case = picture::Picture.make(rng);
        if !rng.one_in(3) {
            spoil(rng, &mut case);
        }
        case
    }

    fn check(&self, case: &Case, sides: Sides, table: &mut Table) -> Result<(), String> {
        let by_rules = drawn!(rules, case);
        table.answer(by_rules.number);
        let parts = ["done", "the checks", "counting", "sums", "hand-out", "tiling", "lists", "fine"];
        table.add(parts[by_rules.told[0] as usize], 1);
        same("a drawing refused by fine", by_rules.told[0] == rules::draw::FINE, false)?;
        if sides.ours {
            drawn!(ours, case).same_as(&by_rules)?;
            if by_rules.told[0] != rules::frame::LENT {
                by_three(case).same_as(&by_rules).map_err(|e| format!("beside the three calls: {e}"))?;
            }
        }
        if by_rules.number == 0 {
            same_words("pixels beside the page", by_rules.pixels.u32s(), &case.page())?;
        }
        Ok(())
    }

    fn smaller(&self, _: &Case) -> Vec<Case> {
        vec![]
    }

    fn show(&self, case: &Case) -> String {
        let f = &case.frame;
        format!(
            "  paths {:?}\n  path numbers {:?}\n  coordinates {}\n  paints {}\n  columns {}, rows {}, width {}, words {}, pixels {}",
            f.paths,
            f.path_nos,
            hex(&f.coords),
            hex(&case.paints),
            case.cols,
            case.rows,
            case.width,
            case.words,
            case.pixels.len()
        )
    }
}
