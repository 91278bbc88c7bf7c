//! Bands of the screen, each in pixels of its own: beside the rules; all of them together beside fine over the whole screen, and
//! beside the unchanged Rust.

use crate::fine;
use crate::stage::{hex, same, same_words, Sides, Stage};
use crate::table::Table;
use cases::memory::Lent;
use cases::Rng;

/// A band: its first row of tiles, the row that it ends before, and how many pixels it is lent.
type Band = (u32, u32, usize);

#[derive(Clone, Debug)]
pub struct Case {
    of: fine::Case,
    bands: Vec<Band>,
    /// Whether the bands are the whole screen, one below the other, each with its own pixels and no more.
    cut: bool,
}

pub struct FineRows;

fn before(pixels: usize) -> Vec<u32> {
    (0..pixels).map(|k| 0x5000_0000 + k as u32).collect()
}

/// Bands and sizes that a caller may get wrong.
fn spoil(rng: &mut Rng, case: &mut Case) {
    let k = rng.below(case.bands.len() as u64) as usize;
    let (first, end, pixels) = &mut case.bands[k];
    match rng.below(8) {
        0 => (*first, *end) = (*end + 1, *first),
        1 => *end = case.of.rows + rng.range(1, 3) as u32,
        2 => (*first, *end) = (u32::MAX, u32::MAX),
        3 => *pixels = pixels.saturating_sub(rng.range(1, 40) as usize),
        4 => *pixels += rng.below(40) as usize,
        _ => fine::hostile(rng, &mut case.of),
    }
    case.cut = false;
}

impl Stage for FineRows {
    type Case = Case;
    const NAME: &'static str = "fine_rows";
    const REACHED: &'static [u32] = &[0, 1, 2, 13, 14, 15, 16, 20];
    const LEAST: u64 = 32_000;

    fn make(&self, rng: &mut Rng) -> Case {
        let of = fine::made(rng, 4);
        let mut bands = vec![];
        let mut first = 0;
        let mut add = |first: u32, end: u32| bands.push((first, end, of.width as usize * 16 * (end - first) as usize));
        while rng.coin() {
            let end = rng.range(first as i64, of.rows as i64) as u32;
            add(first, end);
            first = end;
        }
        add(first, of.rows);
        let mut case = Case { of, bands, cut: true };
        if rng.one_in(5) {
            spoil(rng, &mut case);
        }
        case
    }

    fn check(&self, case: &Case, sides: Sides, table: &mut Table) -> Result<(), String> {
        let c = &case.of;
        let (words, segments) = (Lent::new(&c.lists.ours), Lent::new(&c.segments));
        let was = before(case.bands.iter().map(|b| b.2).sum());
        let (mut pasted, mut told) = (vec![], vec![]);
        for &(first, end, pixels) in &case.bands {
            let mine = &was[pasted.len()..pasted.len() + pixels];
            let (mut by_rules, mut by_ours) = (Lent::new(mine), Lent::new(mine));
            let mut item = 0xabcd;
            let number = rules::fine_rows(words.u32s(), segments.f32s(), c.width, c.cols, c.rows, first, end, by_rules.u32s_mut(), &mut item);
            table.answer(number);
            if sides.ours {
                let mut our_item = 0xabcd;
                let pixels = by_ours.u32s_mut();
                let our_number = ours::fine_rows(words.u32s(), segments.f32s(), c.width, c.cols, c.rows, first, end, pixels, &mut our_item);
                same("answer", our_number, number)?;
                same("item", our_item, item)?;
                same_words("pixels", by_ours.u32s(), by_rules.u32s())?;
                same_words("words lent", words.u32s(), &c.lists.ours)?;
                same_words("segments lent", segments.u32s(), &c.segments)?;
                same("guards", by_ours.guards_stand() && words.guards_stand() && segments.guards_stand(), true)?;
            }
            pasted.extend_from_slice(by_rules.u32s());
            told.push((number, item));
        }
        if case.cut {
            whole(case, sides, table, &was, &pasted, &told)?;
        }
        Ok(())
    }

    fn smaller(&self, case: &Case) -> Vec<Case> {
        let alone = |k: usize| Case { of: case.of.clone(), bands: vec![case.bands[k]], cut: false };
        if case.bands.len() < 2 {
            return vec![];
        }
        (0..case.bands.len()).map(alone).collect()
    }

    fn show(&self, case: &Case) -> String {
        let c = &case.of;
        format!(
            "  words {}\n  segments {}\n  width {}, columns {}, rows {}, bands (from, to, pixels) {:?}",
            hex(&c.lists.ours),
            hex(&c.segments),
            c.width,
            c.cols,
            c.rows,
            case.bands
        )
    }
}

/// The bands together beside fine over the whole screen: its answer and item are the first band's that refuses, and its pixels the bands'
/// down to there; below it fine draws nothing. Where all are done the Rust has painted the same.
fn whole(case: &Case, sides: Sides, table: &mut Table, was: &[u32], pasted: &[u32], told: &[(u32, u32)]) -> Result<(), String> {
    let c = &case.of;
    let (words, segments) = (Lent::new(&c.lists.ours), Lent::new(&c.segments));
    let mut screen = Lent::new(was);
    let mut item = 0xabcd;
    let (pixels, tiles) = (screen.u32s_mut(), c.cols * c.rows);
    let number = if sides.ours {
        ours::fine(words.u32s(), segments.f32s(), c.width, c.cols, c.rows, 0, tiles, pixels, &mut item)
    } else {
        rules::fine(words.u32s(), segments.f32s(), c.width, c.cols, c.rows, 0, tiles, pixels, &mut item)
    };
    let no = told.iter().position(|t| t.0 != 0);
    same("the screen's answer and item", (number, item), no.map_or((0, 0), |k| told[k]))?;
    let drawn = no.map_or(case.bands.len(), |k| k + 1);
    let upper: usize = case.bands[..drawn].iter().map(|b| b.2).sum();
    same_words("pixels of the screen and of its bands", screen.u32s(), &[&pasted[..upper], &was[upper..]].concat())?;
    table.add("screens drawn in bands", (number == 0 && case.bands.len() > 1) as u64);
    if sides.rust && c.paired && number == 0 {
        fine::by_the_rust(c, Lent::new(was), 0, tiles, &Lent::new(pasted))?;
        table.add("tiles the Rust painted too", tiles as u64);
    }
    Ok(())
}
