//! The float helpers at every class of value.
//!
//! A line for each entry: the helper's number in two hex digits, its operands and the answer in eight each, with
//! single spaces. Lines that begin with `#` are comments. A NaN is written 7fc00000.

use crate::SEED;
use cases::floats::{any_bits, corners, ulps};
use cases::Rng;
use rules::limits::{COORD_MOST, EDGE_MOST};
use std::fmt::Write;

const HEAD: &str = "\
# Float helpers: the answers of Rust's std, written by tests/rust/gen.
# A line: helper, operands, answer. 01 floor, 02 ceil, 03 round, 04 trunc, 05 abs, 06 signum, 07 to_u32,
# 08 to_i32, 09 of_u32, 0a of_i32, 0b is_finite (0 or 1), 10 min, 11 max, 12 copysign, 20 clamp (value, low, high).
# Every NaN is written 7fc00000. Left out: copysign's sign taken from a NaN.
# By our own rule, not Rust's: of two zeros of different sign min gives -0 and max +0 (Rust leaves the sign open), and
# clamp with bad ends (a NaN, or low over high) gives the value (Rust panics).
";

type One = (u32, fn(u32) -> u32);

fn f(bits: u32) -> f32 {
    f32::from_bits(bits)
}

fn b(x: f32) -> u32 {
    if x.is_nan() {
        0x7fc0_0000
    } else {
        x.to_bits()
    }
}

const ONE: [One; 9] = [
    (0x01, |x| b(f(x).floor())),
    (0x02, |x| b(f(x).ceil())),
    (0x03, |x| b(f(x).round())),
    (0x04, |x| b(f(x).trunc())),
    (0x05, |x| b(f(x).abs())),
    (0x06, |x| b(f(x).signum())),
    (0x07, |x| f(x) as u32),
    (0x08, |x| f(x) as i32 as u32),
    (0x0b, |x| f(x).is_finite() as u32),
];

const OF: [One; 2] = [(0x09, |n| b(n as f32)), (0x0a, |n| b(n as i32 as f32))];

/// Std's answer, and the rules' where that is a zero; the two are one number.
fn chosen(by_std: f32, by_rules: f32) -> u32 {
    assert!(by_std == by_rules || (by_std.is_nan() && by_rules.is_nan()));
    b(if by_std == 0.0 { by_rules } else { by_std })
}

fn min(x: u32, y: u32) -> u32 {
    chosen(f(x).min(f(y)), rules::floats::min(f(x), f(y)))
}

fn max(x: u32, y: u32) -> u32 {
    chosen(f(x).max(f(y)), rules::floats::max(f(x), f(y)))
}

fn clamp(x: u32, low: u32, high: u32) -> u32 {
    if f(low) <= f(high) {
        b(f(x).clamp(f(low), f(high)))
    } else {
        x
    }
}

/// Zeros, halves, denormals, whole numbers and powers of two an ulp off, the ends of every cast, infinities, NaN.
fn classes() -> Vec<u32> {
    let mut out = vec![0u32, 1, 2, 0x0040_0000, 0x007f_fffe, 0x007f_ffff, 0x0080_0000, 0x0080_0001];
    out.extend([0x7f7f_fffe, 0x7f7f_ffff, 0x7f80_0000, 0x7fc0_0000]);
    let whole = [0.5, 1.0, 1.5, 2.0, 2.5, 3.0, 3.5, 4.0, 15.0, 15.5, 16.0, 255.0, 255.5, EDGE_MOST as f32 - 0.5, EDGE_MOST as f32, COORD_MOST];
    let powers = [22, 23, 24, 30, 31, 32, 33, 62, 63, 64, 127].map(|p| 2f32.powi(p));
    let odd = [8_388_607.5, 4_194_303.5, 8_388_609.0, 16_777_215.0, 2_147_483_520.0, 4_294_967_040.0, 0.99999994, 2e-7, 1e-6, 1e-3, 1e9];
    for x in whole.into_iter().chain(powers).chain(odd) {
        out.extend([-1, 0, 1].map(|k| ulps(x, k).to_bits()));
    }
    for exponent in (1..=254).step_by(11) {
        out.extend([-1, 0, 1].map(|k| ulps(f(exponent << 23), k).to_bits()));
    }
    let minus: Vec<u32> = out.iter().filter(|&&x| !f(x).is_nan()).map(|x| x | 0x8000_0000).collect();
    out.extend(minus);
    out
}

fn wholes() -> Vec<u32> {
    let mut out = vec![];
    for power in 0..32 {
        for off in [-2i64, -1, 0, 1, 2] {
            out.push(((1i64 << power) + off) as u32);
        }
    }
    // halfway between two floats, and one off, at every size that rounds
    for power in 24..32u32 {
        let half = 1u32 << (power - 24);
        for odd in [1u32, 3, 5, 0xff_ffff] {
            let middle = (1u32 << power) | (half.wrapping_mul(odd) & ((1 << power) - 1));
            out.extend([middle - 1, middle, middle + 1]);
        }
    }
    out.extend([u32::MAX, u32::MAX - 127, u32::MAX - 128, u32::MAX - 129, 0x7fff_ffff, 0x8000_0000, 0x8000_0001]);
    out.sort();
    out.dedup();
    out
}

fn any(rng: &mut Rng) -> u32 {
    b(f(any_bits(rng)))
}

pub fn list() -> String {
    let mut lines: Vec<String> = vec![];
    let mut rng = Rng::new(SEED);
    let classes = classes();
    for (number, answer) in ONE {
        let randoms: Vec<u32> = (0..100).map(|_| any(&mut rng)).collect();
        for x in classes.iter().copied().chain(randoms) {
            lines.push(format!("{number:02x} {x:08x} {:08x}", answer(x)));
        }
    }
    for (number, answer) in OF {
        let randoms: Vec<u32> = (0..200).map(|_| rng.u32() >> rng.below(31)).collect();
        for n in wholes().into_iter().chain(randoms) {
            lines.push(format!("{number:02x} {n:08x} {:08x}", answer(n)));
        }
    }
    let few: Vec<u32> = [0.0, 1.0, 16.0, 2.5, 1e-45, 3.4e38, f32::INFINITY, f32::NAN]
        .iter()
        .flat_map(|&x| if x.is_nan() { vec![b(x)] } else { vec![b(x), b(-x)] })
        .collect();
    let mut pairs: Vec<(u32, u32)> = few.iter().flat_map(|&x| few.iter().map(move |&y| (x, y))).collect();
    for _ in 0..200 {
        let x = any(&mut rng);
        let y = if rng.coin() { any(&mut rng) } else { b(ulps(f(x), rng.range(-2, 2))) };
        pairs.push((x, y));
    }
    for (x, y) in pairs {
        lines.push(format!("10 {x:08x} {y:08x} {:08x}", min(x, y)));
        lines.push(format!("11 {x:08x} {y:08x} {:08x}", max(x, y)));
        if !f(y).is_nan() {
            lines.push(format!("12 {x:08x} {y:08x} {:08x}", b(f(x).copysign(f(y)))));
        }
    }
    let mut all: Vec<u32> = corners().into_iter().map(|x| b(f(x))).collect();
    all.dedup();
    for &x in &all {
        for &y in &all {
            lines.push(format!("10 {x:08x} {y:08x} {:08x}", min(x, y)));
            lines.push(format!("11 {x:08x} {y:08x} {:08x}", max(x, y)));
        }
    }
    let ends = [0.0f32, -0.0, 1.0, -1.0, 16.0, f32::INFINITY, f32::NEG_INFINITY, f32::NAN].map(b);
    let values = [0.0f32, -0.0, 0.5, 1.0, -1.5, 16.0, 17.0, 1e-45, -1e-45, f32::INFINITY, f32::NEG_INFINITY, f32::NAN].map(b);
    for x in values {
        for low in ends {
            for high in ends {
                lines.push(format!("20 {x:08x} {low:08x} {high:08x} {:08x}", clamp(x, low, high)));
            }
        }
    }
    for _ in 0..300 {
        let [x, low, high] = [0; 3].map(|_| any(&mut rng));
        lines.push(format!("20 {x:08x} {low:08x} {high:08x} {:08x}", clamp(x, low, high)));
    }
    let mut text = String::from(HEAD);
    writeln!(text, "# Entries: {}", lines.len()).unwrap();
    for line in lines {
        text.push_str(&line);
        text.push('\n');
    }
    text
}
