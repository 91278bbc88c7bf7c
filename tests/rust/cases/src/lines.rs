//! Lines in families, drawn near a box: what docs and tests call by these names.

use crate::floats::{any_bits, near, ulps};
use crate::Rng;
use rules::limits::COORD_MOST;
use rules::records::Line;

pub const FAMILIES: [&str; 22] = [
    "grid",
    "near grid",
    "denormal",
    "tiny",
    "steep",
    "flat",
    "side",
    "corner",
    "anywhere",
    "limit",
    "random bits",
    "finite bits",
    "level",
    "short",
    "medium",
    "diagonal",
    "ulps apart",
    "recip overflow",
    "mixed",
    "steep by ulps",
    "flat by ulps",
    "minus zero",
];

/// The families of which some or nearly all lines are refused with 6.
pub const LIMIT: usize = 9;
pub const RANDOM_BITS: usize = 10;

/// A coordinate near the box's extent on one axis, in pixels.
fn about(rng: &mut Rng, lo: i64, hi: i64) -> f32 {
    let (lo, hi) = (16.0 * lo as f32, 16.0 * hi as f32);
    match rng.below(8) {
        0 => lo,
        1 => hi,
        2 => near(rng, lo, 4),
        3 => near(rng, hi, 4),
        4 => rng.between(lo - 40.0, lo + 40.0),
        5 => rng.between(hi - 40.0, hi + 40.0),
        _ => rng.between(lo, hi),
    }
}

fn grid(rng: &mut Rng, lo: i64, hi: i64) -> f32 {
    let step = rng.pick(&[16.0, 16.0, 16.0, 8.0, 4.0, 1.0]);
    let n = ((hi - lo + 4) as f32 * 16.0 / step) as i64;
    (lo - 2) as f32 * 16.0 + step * rng.range(0, n) as f32
}

fn tiny(rng: &mut Rng) -> f32 {
    let bits = match rng.below(4) {
        0 => rng.below(16) as u32,
        1 => rng.below(4_096) as u32,
        2 => rng.below(0x80_0000) as u32,
        _ => rng.below(0x0180_0000) as u32,
    };
    f32::from_bits(bits) * rng.sign()
}

fn point(rng: &mut Rng, b: &[i64; 4]) -> [f32; 2] {
    [about(rng, b[0], b[2]), about(rng, b[1], b[3])]
}

fn grid_point(rng: &mut Rng, b: &[i64; 4]) -> [f32; 2] {
    [grid(rng, b[0], b[2]), grid(rng, b[1], b[3])]
}

fn moved(p: [f32; 2], dx: f32, dy: f32) -> Line {
    [p[0], p[1], p[0] + dx, p[1] + dy]
}

fn mixed(rng: &mut Rng, lo: i64, hi: i64) -> f32 {
    match rng.below(10) {
        0 => tiny(rng),
        1 => COORD_MOST * rng.sign(),
        2 => rng.between(-COORD_MOST, COORD_MOST),
        3..=4 => grid(rng, lo, hi),
        5..=6 => {
            let g = grid(rng, lo, hi);
            near(rng, g, 4)
        }
        _ => about(rng, lo, hi),
    }
}

/// A line of one family near the box, its ends in either order.
pub fn of_family(rng: &mut Rng, family: usize, b: &[i64; 4]) -> Line {
    let p = point(rng, b);
    // what lies at the origin says little of a box far off
    let at_origin = [2, 17, 21].contains(&family);
    let far = b[0] > 1 || b[1] > 1;
    let line = match if at_origin && far && !rng.one_in(8) { 6 } else { family } {
        0 => {
            let (p, q) = (grid_point(rng, b), grid_point(rng, b));
            [p[0], p[1], q[0], q[1]]
        }
        1 => {
            let (p, q) = (grid_point(rng, b), grid_point(rng, b));
            [p[0], p[1], q[0], q[1]].map(|v| near(rng, v, 4))
        }
        2 => {
            let mut line = [tiny(rng), tiny(rng), tiny(rng), tiny(rng)];
            for v in &mut line {
                if rng.one_in(4) {
                    *v = grid(rng, 0, 3);
                }
            }
            line
        }
        3 => {
            let size = rng.power(-8.0, -1.0);
            moved(p, size * rng.between(-1.0, 1.0), size * rng.between(-1.0, 1.0))
        }
        4 => {
            let tall = rng.between(1.0, 16.0 * (b[3] - b[1] + 4) as f32);
            let wide = tall * rng.power(-8.0, -2.0) * rng.sign();
            moved(p, wide, tall)
        }
        5 => {
            let wide = rng.between(1.0, 16.0 * (b[2] - b[0] + 4) as f32) * rng.sign();
            let tall = wide * rng.power(-8.0, -2.0) * rng.sign();
            moved(p, wide, tall)
        }
        6 => {
            let mut q = point(rng, b);
            let outside = [(b[0] - 3) as f32 * 16.0, (b[1] - 3) as f32 * 16.0, (b[2] + 3) as f32 * 16.0, (b[3] + 3) as f32 * 16.0];
            let side = rng.below(4) as usize;
            q[side % 2] = outside[side] + rng.between(-20.0, 20.0);
            [p[0], p[1], q[0], q[1]]
        }
        7 => {
            let corner = [16.0 * rng.pick(&[b[0], b[2]]) as f32, 16.0 * rng.pick(&[b[1], b[3]]) as f32];
            let (dx, dy) = (rng.between(-60.0, 60.0), rng.between(-60.0, 60.0));
            let (near_x, near_y) = (near(rng, corner[0], 3), near(rng, corner[1], 3));
            let far = rng.between(0.0, 2.0);
            [near_x - dx, near_y - dy, near_x + dx * far, near_y + dy * far]
        }
        8 => [0; 4].map(|_| rng.between(-COORD_MOST, COORD_MOST)),
        9 => [0; 4].map(|_| {
            let v = COORD_MOST * rng.sign();
            match rng.below(8) {
                0 => near(rng, v, 1),
                1..=3 => v,
                4 => v * rng.unit(),
                _ => about(rng, b[0], b[2]),
            }
        }),
        10 => [0; 4].map(|_| f32::from_bits(any_bits(rng))),
        11 => [0; 4].map(|_| {
            let bits = rng.u32();
            let exponent = rng.range(100, 140) as u32;
            f32::from_bits(bits & 0x807f_ffff | exponent << 23)
        }),
        12 => {
            let reach = 16.0 * (b[2] - b[0] + b[3] - b[1] + 4) as f32;
            let d = rng.between(-reach, reach);
            if rng.coin() {
                moved(p, d, 0.0)
            } else {
                moved(p, 0.0, d)
            }
        }
        13 => moved(p, rng.between(-8.0, 8.0), rng.between(-8.0, 8.0)),
        14 => moved(p, rng.between(-60.0, 60.0), rng.between(-60.0, 60.0)),
        15 => {
            let p = grid_point(rng, b);
            let n = rng.range(-80, 80) as f32;
            let slope = rng.pick(&[1.0, -1.0, 0.5, -0.5, 2.0, -2.0, 3.0, 0.25, -0.75]);
            moved(p, n, n * slope).map(|v| near(rng, v, 1))
        }
        16 => {
            let k = rng.pick(&[1, 2, 4, 16, 1_000, 100_000]);
            [p[0], p[1], near(rng, p[0], k), near(rng, p[1], k)]
        }
        17 => {
            let base = rng.pick(&[0.0, 16.0, 80.0, 8.0]);
            let mut line = [base, tiny(rng), base, tiny(rng)];
            if rng.coin() {
                line = [tiny(rng), tiny(rng), tiny(rng), tiny(rng)].map(|v| v * 1e-3);
            }
            line
        }
        18 => {
            let mut line = [0.0; 4];
            for (k, v) in line.iter_mut().enumerate() {
                *v = mixed(rng, b[k % 2], b[k % 2 + 2]);
            }
            line
        }
        19 => {
            let x = if rng.coin() { grid(rng, b[0], b[2]) } else { p[0] };
            let mut y = [grid(rng, b[1], b[3]), about(rng, b[1], b[3])];
            y[0] = near(rng, y[0], 2);
            [near(rng, x, 3), y[0], near(rng, x, 3), y[1]]
        }
        20 => {
            let y = if rng.coin() { grid(rng, b[1], b[3]) } else { p[1] };
            [grid(rng, b[0], b[2]), near(rng, y, 3), about(rng, b[0], b[2]), near(rng, y, 3)]
        }
        _ => {
            let mut line = [p[0], p[1], about(rng, b[0], b[2]), about(rng, b[1], b[3])];
            for v in &mut line {
                if rng.one_in(2) {
                    *v = ulps(0.0, -rng.range(0, 12));
                }
            }
            line
        }
    };
    if rng.coin() {
        line
    } else {
        [line[2], line[3], line[0], line[1]]
    }
}

/// A line of any family, its number too.
pub fn any(rng: &mut Rng, b: &[i64; 4]) -> (usize, Line) {
    let mut family = rng.below(FAMILIES.len() as u64) as usize;
    if family == RANDOM_BITS && !rng.one_in(4) {
        family = 18; // nearly all random bits are refused, and a batch ends there
    }
    (family, of_family(rng, family, b))
}
