//! The float helpers beside Rust's std: bit for bit, any NaN equal to any NaN. Of two zeros std leaves open which its
//! min and max give, so there a zero equals a zero beside std, and beside the rules the sign counts too.

use crate::stage::{hex, Sides, Stage};
use crate::table::{spaced, Table};
use cases::memory::{one_nan, one_zero};
use cases::{floats, Rng};
use std::sync::atomic::{AtomicBool, AtomicU64, Ordering};

fn f(bits: u32) -> f32 {
    f32::from_bits(bits)
}

/// A helper: its number in the list of floats, its name, whether it gives a float, what Rust's std answers over bits,
/// and what the rules do, where std leaves the sign of a zero open.
pub struct Helper {
    number: u32,
    name: &'static str,
    float: bool,
    std: fn(u32, u32, u32) -> u32,
    rule: Option<fn(f32, f32) -> f32>,
}

const fn helper(number: u32, name: &'static str, float: bool, std: fn(u32, u32, u32) -> u32) -> Helper {
    Helper { number, name, float, std, rule: None }
}

const fn chosen(number: u32, name: &'static str, std: fn(u32, u32, u32) -> u32, rule: fn(f32, f32) -> f32) -> Helper {
    Helper { number, name, float: true, std, rule: Some(rule) }
}

/// How many of the helpers take one argument, and how many two; they stand in this order.
const ONE: usize = 11;
const TWO: usize = 3;

/// A NaN made quiet. On Arm, std's min and max give NaN where one operand is a signalling NaN, against their own
/// document ("handles all NaNs the same way"); ours is held to the document.
fn quiet(bits: u32) -> f32 {
    f(if f(bits).is_nan() { bits | 0x0040_0000 } else { bits })
}

/// Clamp with bad ends gives the value, by our rules.
pub const HELPERS: [Helper; 15] = [
    helper(0x01, "floor", true, |x, _, _| f(x).floor().to_bits()),
    helper(0x02, "ceil", true, |x, _, _| f(x).ceil().to_bits()),
    helper(0x03, "round", true, |x, _, _| f(x).round().to_bits()),
    helper(0x04, "trunc", true, |x, _, _| f(x).trunc().to_bits()),
    helper(0x05, "abs", true, |x, _, _| f(x).abs().to_bits()),
    helper(0x06, "signum", true, |x, _, _| f(x).signum().to_bits()),
    helper(0x07, "to_u32", false, |x, _, _| f(x) as u32),
    helper(0x08, "to_i32", false, |x, _, _| f(x) as i32 as u32),
    helper(0x09, "of_u32", true, |x, _, _| (x as f32).to_bits()),
    helper(0x0a, "of_i32", true, |x, _, _| (x as i32 as f32).to_bits()),
    helper(0x0b, "is_finite", false, |x, _, _| f(x).is_finite() as u32),
    chosen(0x10, "min", |x, y, _| quiet(x).min(quiet(y)).to_bits(), rules::floats::min),
    chosen(0x11, "max", |x, y, _| quiet(x).max(quiet(y)).to_bits(), rules::floats::max),
    helper(0x12, "copysign", true, |x, y, _| f(x).copysign(f(y)).to_bits()),
    helper(0x20, "clamp", true, |x, y, z| if f(y) <= f(z) { f(x).clamp(f(y), f(z)).to_bits() } else { x }),
];

/// Our answers over many operands held against std's, and against the rules'.
fn check(h: &Helper, xs: [&[u32]; 3], out: &mut [u32]) -> Result<(), String> {
    ours::many(h.number, xs, out);
    for (k, &got) in out.iter().enumerate() {
        let (x, y, z) = (xs[0][k], xs[1][k], xs[2][k]);
        if h.number == 0x12 && f(y).is_nan() {
            continue; // copysign's sign taken from a NaN is left open
        }
        let zero = |bits| if h.rule.is_some() { one_zero(bits) } else { bits };
        let wanted = (h.std)(x, y, z);
        let equal = zero(got) == zero(wanted) || (h.float && one_nan(got) == one_nan(wanted));
        if !equal {
            return Err(format!("{}({x:08x}, {y:08x}, {z:08x}) is {got:08x}, not {wanted:08x}", h.name));
        }
        let ruled = h.rule.map_or(got, |rule| rule(f(x), f(y)).to_bits());
        if one_nan(got) != one_nan(ruled) {
            return Err(format!("{}({x:08x}, {y:08x}) is {got:08x}, and by the rules {ruled:08x}", h.name));
        }
    }
    Ok(())
}

/// A helper's name, by its place among them.
pub fn name(place: u32) -> &'static str {
    HELPERS[place as usize].name
}

/// Our answers held against std's, for one helper by its place.
pub fn held(place: u32, xs: [&[u32]; 3]) -> Result<(), String> {
    check(&HELPERS[place as usize], xs, &mut vec![0; xs[0].len()])
}

pub struct Floats;

/// Patterns checked in one case.
const MANY: u64 = 1_024;

impl Stage for Floats {
    type Case = [Vec<u32>; 3];
    const NAME: &'static str = "floats";
    const REACHED: &'static [u32] = &[];
    const LEAST: u64 = 500;

    fn make(&self, rng: &mut Rng) -> Self::Case {
        let mut case = [vec![], vec![], vec![]];
        for _ in 0..MANY {
            let x = floats::any_bits(rng);
            let near = floats::ulps(f(x), rng.range(-2, 2)).to_bits();
            case[0].push(x);
            case[1].push(if rng.coin() { floats::any_bits(rng) } else { near });
            case[2].push(floats::any_bits(rng));
        }
        case
    }

    fn check(&self, case: &Self::Case, sides: Sides, table: &mut Table) -> Result<(), String> {
        if !sides.ours {
            return Ok(());
        }
        let mut out = vec![0; case[0].len()];
        for h in &HELPERS {
            check(h, [&case[0], &case[1], &case[2]], &mut out)?;
        }
        table.add("calls", (case[0].len() * HELPERS.len()) as u64);
        Ok(())
    }

    fn smaller(&self, case: &Self::Case) -> Vec<Self::Case> {
        let n = case[0].len();
        if n == 1 {
            return vec![];
        }
        (0..n).map(|k| [vec![case[0][k]], vec![case[1][k]], vec![case[2][k]]]).collect()
    }

    fn show(&self, case: &Self::Case) -> String {
        case.iter().map(|c| format!("  {}", hex(c))).collect::<Vec<_>>().join("\n")
    }
}

/// Every pair of corners through the two-argument helpers.
pub fn pairs() -> bool {
    let corners = floats::corners();
    let xs: Vec<u32> = corners.iter().flat_map(|&x| corners.iter().map(move |_| x)).collect();
    let ys: Vec<u32> = corners.iter().flat_map(|_| corners.iter().copied()).collect();
    let (zs, mut out) = (vec![0; xs.len()], vec![0; xs.len()]);
    for h in &HELPERS[ONE..ONE + TWO] {
        if let Err(said) = check(h, [&xs, &ys, &zs], &mut out) {
            println!("DIFFERENT: {said}");
            return false;
        }
    }
    println!("floats: {} pairs of corners through {TWO} helpers equal", spaced(xs.len() as u64));
    true
}

/// Every bit pattern of the one-argument helpers.
pub fn all_patterns(threads: u64) -> bool {
    const CHUNK: u64 = 1 << 16;
    let next = AtomicU64::new(0);
    let well = AtomicBool::new(true);
    std::thread::scope(|scope| {
        for _ in 0..threads {
            scope.spawn(|| {
                let zeros = vec![0; CHUNK as usize];
                let mut out = vec![0; CHUNK as usize];
                while well.load(Ordering::Relaxed) {
                    let from = next.fetch_add(CHUNK, Ordering::Relaxed);
                    if from >= 1 << 32 {
                        break;
                    }
                    let xs: Vec<u32> = (from..from + CHUNK).map(|x| x as u32).collect();
                    for h in &HELPERS[..ONE] {
                        if let Err(said) = check(h, [&xs, &zeros, &zeros], &mut out) {
                            println!("DIFFERENT: {said}");
                            well.store(false, Ordering::Relaxed);
                        }
                    }
                    if from % (1 << 28) == 0 {
                        println!("all floats: at {from:08x}");
                    }
                }
            });
        }
    });
    let well = well.into_inner();
    if well {
        println!("all floats: {} patterns of {ONE} helpers equal", spaced(1 << 32));
    }
    well
}
