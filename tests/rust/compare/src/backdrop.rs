//! Backdrop: running sums beside the rules and the unchanged Rust.

use crate::stage::{hex, same, same_words, Sides, Stage};
use crate::table::Table;
use cases::memory::Lent;
use cases::{boxes, Rng};
use rules::limits::{EDGE_MOST, PATH, PATHS_MOST};
use rules::records::{no_tiles, paths_in, words_of};

#[derive(Clone, Debug)]
pub struct Case {
    pub paths: Vec<u32>,
    pub backdrops: Vec<u32>,
}

pub struct Backdrop;

/// Backdrops whose sums often come near, and now and then leave, both ends of i32.
fn value(rng: &mut Rng, wild: u64) -> u32 {
    match rng.below(wild) {
        0 => i32::MAX as u32,
        1 => i32::MIN as u32,
        2 => rng.u32(),
        3 => i32::MAX as u32 / 2 + rng.below(3) as u32,
        4 => (i32::MIN / 2) as u32,
        _ => rng.range(-3, 3) as u32,
    }
}

impl Stage for Backdrop {
    type Case = Case;
    const NAME: &'static str = "backdrop";
    const REACHED: &'static [u32] = &[0, 1, 2, 3, 4, 11];
    const LEAST: u64 = 60_000;

    fn make(&self, rng: &mut Rng) -> Case {
        if rng.one_in(30) {
            let n = PATHS_MOST + rng.range(-1, 3);
            return Case { paths: no_tiles(n as usize), backdrops: vec![1; rng.below(4) as usize] };
        }
        let n = rng.range(0, 5) as usize;
        let most = if rng.one_in(60) { EDGE_MOST } else { rng.pick(&[2, 4, 24]) };
        let (mut paths, tiles) = boxes::table(rng, n, most);
        let wild = rng.pick(&[6, 20, 200, 10_000]);
        let mut backdrops: Vec<u32> = (0..tiles + rng.below(4) as usize).map(|_| value(rng, wild)).collect();
        if rng.one_in(6) {
            match rng.below(8) {
                0 => _ = paths.pop(),
                1 => paths.push(1),
                2 => _ = backdrops.pop(),
                _ => boxes::spoil(rng, &mut paths, tiles),
            }
        }
        Case { paths, backdrops }
    }

    fn check(&self, case: &Case, sides: Sides, table: &mut Table) -> Result<(), String> {
        let paths = Lent::new(&case.paths);
        let mut by_rules = Lent::new(&case.backdrops);
        let mut item = 0xabcd;
        let number = rules::backdrop(paths.u32s(), by_rules.i32s_mut(), &mut item);
        table.answer(number);
        if sides.ours {
            let mut by_ours = Lent::new(&case.backdrops);
            let mut our_item = 0xabcd;
            let our_number = ours::backdrop(paths.u32s(), by_ours.i32s_mut(), &mut our_item);
            same("answer", our_number, number)?;
            same("item", our_item, item)?;
            same_words("backdrops", by_ours.u32s(), by_rules.u32s())?;
            same_words("paths lent", paths.u32s(), &case.paths)?;
            same("guards", by_ours.guards_stand() && paths.guards_stand(), true)?;
        }
        if sides.rust && (number == 0 || number == 11) {
            let summed = if number == 0 { paths_in(&case.paths) } else { item as usize };
            let mut by_rust = Lent::new(&case.backdrops);
            let ran = oracle::backdrop(&case.paths[..PATH * summed], by_rust.i32s_mut());
            same("the Rust panicked", ran.is_err(), false)?;
            same_words("beside the Rust: backdrops", by_rules.u32s(), by_rust.u32s())?;
            table.add("paths the Rust summed too", summed as u64);
        }
        Ok(())
    }

    fn smaller(&self, case: &Case) -> Vec<Case> {
        let mut out = vec![];
        for k in 0..(paths_in(&case.paths)).min(8) {
            let mut c = case.clone();
            c.paths.drain(words_of(k));
            out.push(c);
        }
        if case.backdrops.iter().any(|&b| b > 1) {
            let mut c = case.clone();
            c.backdrops.fill(1);
            out.push(c);
        }
        out
    }

    fn show(&self, case: &Case) -> String {
        format!("  paths {:?}\n  backdrops {}", case.paths, hex(&case.backdrops))
    }
}
