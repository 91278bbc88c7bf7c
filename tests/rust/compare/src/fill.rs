//! Coverage of a tile, beside the rules and the unchanged Rust; any NaN equals any NaN, and beside the Rust any zero
//! any zero.

use crate::stage::{hex, same, same_words, Sides, Stage};
use crate::table::Table;
use cases::memory::{as_f32, one_nan, one_zero, Lent};
use cases::{floats, segments, Rng};
use rules::limits::SEGMENT;

#[derive(Clone, Debug)]
pub struct Case {
    pub segments: Vec<u32>,
    pub first: u32,
    pub number: u32,
    pub even_odd: u32,
    pub backdrop: i32,
    pub x_tile: f32,
    pub y_tile: f32,
    pub area: usize,
}

pub struct Fill;

fn origin(rng: &mut Rng) -> f32 {
    match rng.below(6) {
        0 => 16.0 * rng.range(-4, 64) as f32,
        1 => rng.between(-20.0, 20.0),
        2 => f32::from_bits(floats::any_bits(rng)),
        _ => 0.0,
    }
}

/// What the area holds before: NaNs with payloads.
fn held(words: usize) -> Vec<u32> {
    (0..words).map(|k| 0xffb1_0000 + k as u32).collect()
}

impl Stage for Fill {
    type Case = Case;
    const NAME: &'static str = "fill";
    const REACHED: &'static [u32] = &[0, 1, 13, 20];
    const LEAST: u64 = 20_000;

    fn make(&self, rng: &mut Rng) -> Case {
        let n = rng.pick(&[0, 1, 1, 1, 2, 3, 5, 8]);
        let mut list: Vec<u32> = segments::list(rng, n).into_iter().map(f32::to_bits).collect();
        let mut area = 256;
        let first = rng.below(n as u64 + 1) as u32;
        let mut case = Case {
            segments: vec![],
            first,
            number: n as u32 - first,
            even_odd: rng.pick(&[0, 0, 1, 1, 2, u32::MAX]),
            backdrop: rng.pick(&[0, 0, 1, -1, 2, -3, i32::MIN, i32::MAX, 16_777_217]),
            x_tile: origin(rng),
            y_tile: origin(rng),
            area: 0,
        };
        if rng.one_in(5) {
            match rng.below(6) {
                0 => _ = list.pop(),
                1 => list.push(7),
                2 => area = rng.pick(&[0, 255, 257, 256]),
                3 => case.number = rng.pick(&[case.number + 1, u32::MAX, 1 << 31]),
                4 => case.first = rng.pick(&[n as u32 + 1, u32::MAX, n as u32]),
                _ => (case.first, case.number) = (u32::MAX, u32::MAX),
            }
        }
        case.segments = list;
        case.area = area;
        case
    }

    fn check(&self, case: &Case, sides: Sides, table: &mut Table) -> Result<(), String> {
        let segments = Lent::new(&case.segments);
        let before = held(case.area);
        let mut by_rules = Lent::new(&before);
        let c = case;
        let number = rules::fill(segments.f32s(), c.first, c.number, c.even_odd, c.backdrop, c.x_tile, c.y_tile, by_rules.f32s_mut());
        table.answer(number);
        // a refusal leaves the bits; an answer is compared with one NaN
        let seen = |l: &Lent| -> Vec<u32> {
            if number == 0 {
                l.u32s().iter().map(|&w| one_nan(w)).collect()
            } else {
                l.u32s().to_vec()
            }
        };
        if sides.ours {
            let mut by_ours = Lent::new(&before);
            let our_number = ours::fill(segments.f32s(), c.first, c.number, c.even_odd, c.backdrop, c.x_tile, c.y_tile, by_ours.f32s_mut());
            same("answer", our_number, number)?;
            same_words("area", &seen(&by_ours), &seen(&by_rules))?;
            same_words("segments lent", segments.u32s(), &case.segments)?;
            same("guards", by_ours.guards_stand() && segments.guards_stand(), true)?;
        }
        if number == 0 {
            in_bounds(case, by_rules.f32s(), table)?;
            if sides.rust {
                let mut by_rust = Lent::new(&before);
                let words = [c.number << 1 | (c.even_odd != 0) as u32, c.first, c.backdrop as u32];
                let ran = oracle::fill(as_f32(&case.segments), words, c.x_tile, c.y_tile, by_rust.f32s_mut());
                same("the Rust panicked", ran.is_err(), false)?;
                let numbers = |l: &Lent| -> Vec<u32> { seen(l).into_iter().map(one_zero).collect() };
                same_words("beside the Rust: area", &numbers(&by_rules), &numbers(&by_rust))?;
                table.add("segments the Rust filled too", c.number as u64);
            }
        }
        Ok(())
    }

    fn smaller(&self, case: &Case) -> Vec<Case> {
        let mut out = vec![];
        if case.segments.len() % SEGMENT == 0 && case.first == 0 && case.number as usize == case.segments.len() / SEGMENT {
            for k in 0..case.number as usize {
                let mut c = case.clone();
                c.segments.drain(SEGMENT * k..SEGMENT * (k + 1));
                c.number -= 1;
                out.push(c);
            }
        } else if case.first > 0 && (case.first as usize) <= case.segments.len() / SEGMENT {
            let mut c = case.clone();
            c.segments.drain(..SEGMENT * c.first as usize);
            c.first = 0;
            out.push(c);
        }
        out
    }

    fn show(&self, case: &Case) -> String {
        format!(
            "  segments {}\n  first {}, number {}, even-odd {}, backdrop {}, x_tile {:?}, y_tile {:?}, area of {}",
            hex(&case.segments),
            case.first,
            case.number,
            case.even_odd,
            case.backdrop,
            case.x_tile,
            case.y_tile,
            case.area
        )
    }
}

/// Non-zero coverage lies in 0..1 always; even-odd where it isn't NaN.
fn in_bounds(case: &Case, area: &[f32], table: &mut Table) -> Result<(), String> {
    for &a in area {
        let lies = (0.0..=1.0).contains(&a);
        if !lies && (case.even_odd == 0 || !a.is_nan()) {
            return Err(format!("coverage {a:?} outside 0..1"));
        }
    }
    let nans = area.iter().filter(|a| a.is_nan()).count();
    table.add("even-odd pixels NaN", nans as u64);
    Ok(())
}
