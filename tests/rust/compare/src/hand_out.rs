//! Hand-out beside the rules (there is no such file in the Rust).

use crate::stage::{hex, same, same_words, Sides, Stage};
use crate::table::Table;
use cases::memory::Lent;
use cases::Rng;
use rules::limits::{COUNT_MOST, ROOM_MOST, TILES_MOST};

#[derive(Clone, Debug)]
pub struct Case {
    pub counts: Vec<u32>,
    pub tally: Vec<u32>,
    pub room: u32,
}

pub struct HandOut;

impl Stage for HandOut {
    type Case = Case;
    const NAME: &'static str = "hand_out";
    const REACHED: &'static [u32] = &[0, 1, 2, 9];
    const LEAST: u64 = 60_000;

    fn make(&self, rng: &mut Rng) -> Case {
        if rng.one_in(55) {
            // a tile too many: nothing is read of it
            let n = TILES_MOST as usize + 1;
            return Case { counts: vec![0; n], tally: vec![7; n], room: rng.u32() };
        }
        let n = if rng.one_in(8) { 0 } else { rng.below(40) };
        let kind = rng.below(4);
        let counts: Vec<u32> = (0..n)
            .map(|_| match (kind, rng.below(6)) {
                (0, 0) => u32::MAX,
                (0, 1) => 1 << 31,
                (1, 0) => ROOM_MOST as u32 - rng.below(4) as u32,
                (1, 1) => COUNT_MOST as u32 + 1,
                (_, 0..=2) => 0,
                _ => rng.below(9) as u32,
            })
            .collect();
        let mut tally: Vec<u32> = (0..n).map(|_| rng.u32()).collect();
        if rng.one_in(8) {
            if rng.coin() {
                tally.push(1);
            } else {
                tally.pop();
            }
        }
        let sum: u64 = counts.iter().map(|&c| c as u64).sum();
        let room = match rng.below(6) {
            0 => sum as u32,
            1 => (sum as u32).wrapping_sub(1),
            2 => (sum as u32).wrapping_add(1),
            3 => u32::MAX,
            4 => ROOM_MOST as u32 + rng.below(3) as u32 - 1,
            _ => rng.below(200) as u32,
        };
        Case { counts, tally, room }
    }

    fn check(&self, case: &Case, sides: Sides, table: &mut Table) -> Result<(), String> {
        let (mut counts, mut tally) = (Lent::new(&case.counts), Lent::new(&case.tally));
        let number = rules::hand_out(counts.u32s_mut(), tally.u32s_mut(), case.room);
        table.answer(number);
        if sides.ours {
            let (mut our_counts, mut our_tally) = (Lent::new(&case.counts), Lent::new(&case.tally));
            let our_number = ours::hand_out(our_counts.u32s_mut(), our_tally.u32s_mut(), case.room);
            same("answer", our_number, number)?;
            same_words("counts", our_counts.u32s(), counts.u32s())?;
            same_words("tally", our_tally.u32s(), tally.u32s())?;
            same("guards", our_counts.guards_stand() && our_tally.guards_stand(), true)?;
        }
        Ok(())
    }

    fn smaller(&self, case: &Case) -> Vec<Case> {
        let mut out = vec![];
        for k in 0..case.counts.len().min(case.tally.len()) {
            let mut c = case.clone();
            c.counts.remove(k);
            c.tally.remove(k);
            out.push(c);
        }
        out
    }

    fn show(&self, case: &Case) -> String {
        format!("  counts {}\n  tally {}\n  room {}", hex(&case.counts), hex(&case.tally), case.room)
    }
}
