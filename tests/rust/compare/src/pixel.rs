//! One pixel: every pixel of random tiles, its coverage and its colour, beside our fill and fine, the rules and the unchanged
//! Rust; and places off the tile, tiles past the words, slices of any length. Any NaN equals any NaN.

use crate::stage::{same, same_words, Sides, Stage};
use crate::table::Table;
use crate::{fill, fine};
use cases::memory::{as_f32, one_nan, Lent};
use cases::Rng;

const SIDE: u32 = 16;
const TILE: usize = 256;

/// What a pixel holds before the call: no coverage and no packed pixel that a call makes.
const HELD: u32 = 0xffb1_abcd;

#[derive(Clone, Debug)]
pub struct Case {
    fill: fill::Case,
    fine: fine::Case,
    tile: u32,
    column: u32,
    row: u32,
}

pub struct Pixel;

fn place(k: usize) -> (u32, u32) {
    (k as u32 % SIDE, k as u32 / SIDE)
}

fn seen(bits: u32, number: u32) -> u32 {
    if number == 0 {
        one_nan(bits)
    } else {
        bits
    }
}

/// The answer, and what stands behind the pointer.
fn same_both(what: &str, got: (u32, u32), wanted: (u32, u32)) -> Result<(), String> {
    if got == wanted {
        return Ok(());
    }
    same(&format!("{what}: answer"), got.0, wanted.0)?;
    same(&format!("{what}: what it leaves"), got.1, wanted.1)
}

impl Stage for Pixel {
    type Case = Case;
    const NAME: &'static str = "pixel";
    const REACHED: &'static [u32] = &[0, 1, 13, 14, 15, 19, 20];
    const LEAST: u64 = if ours::BRIDGED { 2_000 } else { 32_000 };

    fn make(&self, rng: &mut Rng) -> Case {
        let fine = fine::Fine.make(rng);
        let tiles = fine.cols.saturating_mul(fine.rows).max(1);
        let tile = if rng.one_in(12) { rng.pick(&[tiles, 1 << 26, (1 << 26) - 1, u32::MAX]) } else { rng.below(tiles.min(6) as u64) as u32 };
        let mut at = || if rng.one_in(10) { rng.pick(&[16, 17, 255, 1 << 28, u32::MAX]) } else { rng.below(16) as u32 };
        let (column, row) = (at(), at());
        Case { fill: fill::Fill.make(rng), fine, tile, column, row }
    }

    fn check(&self, case: &Case, sides: Sides, table: &mut Table) -> Result<(), String> {
        areas(case, sides, table)?;
        colours(case, sides, table)
    }

    fn smaller(&self, case: &Case) -> Vec<Case> {
        fill::Fill.smaller(&case.fill).into_iter().map(|fill| Case { fill, ..case.clone() }).collect()
    }

    fn show(&self, case: &Case) -> String {
        let (c, f) = (case, fill::Fill.show(&case.fill));
        format!("{f}\n{}\n  tile {}, column {}, row {}", fine::Fine.show(&c.fine), c.tile, c.column, c.row)
    }
}

/// Coverage: the case's own place, then each of the tile's.
fn areas(case: &Case, sides: Sides, table: &mut Table) -> Result<(), String> {
    let c = &case.fill;
    let segments = Lent::new(&c.segments);
    macro_rules! asked {
        ($side:ident, $column:expr, $row:expr) => {{
            let mut held = f32::from_bits(HELD);
            let number = $side::pixel_area(segments.f32s(), c.first, c.number, c.even_odd, c.backdrop, c.x_tile, c.y_tile, $column, $row, &mut held);
            (number, seen(held.to_bits(), number))
        }};
    }
    let wanted = asked!(rules, case.column, case.row);
    table.answer(wanted.0);
    if sides.ours {
        same_both("coverage at the place given", asked!(ours, case.column, case.row), wanted)?;
    }
    let mut area = Lent::new(&[HELD; TILE]);
    let number = rules::fill(segments.f32s(), c.first, c.number, c.even_odd, c.backdrop, c.x_tile, c.y_tile, area.f32s_mut());
    if sides.ours {
        let mut by_fill = Lent::new(&[HELD; TILE]);
        let same_number = ours::fill(segments.f32s(), c.first, c.number, c.even_odd, c.backdrop, c.x_tile, c.y_tile, by_fill.f32s_mut());
        same("our fill's answer", same_number, number)?;
        for k in 0..TILE {
            let (column, row) = place(k);
            let got = asked!(ours, column, row);
            same_both("coverage beside our fill", got, (number, seen(by_fill.u32s()[k], number)))?;
            same_both("coverage beside the rules", got, (number, seen(area.u32s()[k], number)))?;
        }
        table.add("coverages beside fill", TILE as u64);
        same_words("segments lent", segments.u32s(), &c.segments)?;
        same("guards", segments.guards_stand(), true)?;
    }
    if sides.rust && number == 0 {
        let mut by_rust = Lent::new(&[HELD; TILE]);
        let words = [c.number << 1 | (c.even_odd != 0) as u32, c.first, c.backdrop as u32];
        let ran = oracle::fill(as_f32(&c.segments), words, c.x_tile, c.y_tile, by_rust.f32s_mut());
        same("the Rust panicked", ran.is_err(), false)?;
        for k in 0..TILE {
            same("beside the Rust: coverage", one_nan(area.u32s()[k]), one_nan(by_rust.u32s()[k]))?;
        }
        table.add("coverages beside the Rust", TILE as u64);
    }
    Ok(())
}

/// Colours: the case's own place, then each of the tile's, under the tile's list.
fn colours(case: &Case, sides: Sides, table: &mut Table) -> Result<(), String> {
    let c = &case.fine;
    let (words, segments) = (Lent::new(&c.lists.ours), Lent::new(&c.segments));
    macro_rules! asked {
        ($side:ident, $column:expr, $row:expr) => {{
            let mut held = HELD;
            let number = $side::pixel(words.u32s(), segments.f32s(), case.tile, $column, $row, &mut held);
            (number, held)
        }};
    }
    let wanted = asked!(rules, case.column, case.row);
    table.answer(wanted.0);
    if sides.ours {
        same_both("pixel at the place given", asked!(ours, case.column, case.row), wanted)?;
    }
    let whole = c.segments.len() % rules::limits::SEGMENT == 0;
    let made =
        if whole { rules::fine::tile_pixels(words.u32s(), segments.f32s(), rules::limits::REGION as u64 * case.tile as u64 + 1) } else { Err(1) };
    if sides.ours {
        // a tile that is refused is refused at every pixel: its diagonal stands for all
        let each = if made.is_ok() { 1 } else { SIDE as usize + 1 };
        for k in (0..TILE).step_by(each) {
            let (column, row) = place(k);
            let wanted = made.map_or_else(|no| (no, HELD), |pixels| (0, pixels[k]));
            same_both("pixel beside the rules", asked!(ours, column, row), wanted)?;
        }
        table.add("pixels beside the rules", TILE.div_ceil(each) as u64);
        if whole && case.tile < 64 {
            beside_fine(case, &words, &segments, made)?;
            table.add("pixels beside fine", TILE as u64);
        }
        same_words("words lent", words.u32s(), &c.lists.ours)?;
        same_words("segments lent", segments.u32s(), &c.segments)?;
        same("guards", words.guards_stand() && segments.guards_stand(), true)?;
    }
    // a tile may begin in the midst of another's command, where the two lists don't say the same
    let paired = c.paired && c.lists.begins(rules::limits::REGION * case.tile as usize + 1);
    if let (true, true, Ok(pixels)) = (sides.rust, paired, made) {
        let mut theirs = c.lists.theirs();
        let Ok(by_rust) = oracle::fine_tile(theirs.for_tile(rules::limits::REGION as u32 * case.tile + 1), &oracle::segments_of(as_f32(&c.segments)))
        else {
            return Err("the Rust panicked".into());
        };
        same_words("beside the Rust: pixels", &pixels, &by_rust)?;
        table.add("pixels beside the Rust", TILE as u64);
    }
    Ok(())
}

/// The same tile by our fine, on a screen of one row of tiles that ends with it.
fn beside_fine(case: &Case, words: &Lent, segments: &Lent, made: Result<[u32; TILE], u32>) -> Result<(), String> {
    let (cols, mut item) = (case.tile + 1, HELD);
    let width = SIDE * cols;
    let mut pixels = Lent::new(&vec![HELD; TILE * cols as usize]);
    let number = ours::fine(words.u32s(), segments.f32s(), width, cols, 1, case.tile, cols, pixels.u32s_mut(), &mut item);
    same("fine's answer", number, made.err().unwrap_or(0))?;
    let Ok(made) = made else { return Ok(()) };
    for (k, &wanted) in made.iter().enumerate() {
        let (column, row) = place(k);
        same("fine's pixel", pixels.u32s()[(width * row + SIDE * case.tile + column) as usize], wanted)?;
    }
    Ok(())
}
