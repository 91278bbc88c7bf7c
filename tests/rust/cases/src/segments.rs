//! Segments for fills: legal, at a tile's borders, crooked, tiny in height, infinite and NaN.

use crate::floats::{any_bits, ulps};
use crate::Rng;
use rules::limits::SEGMENT;
use rules::records::segment;

/// How the segments of a list are drawn.
#[derive(Clone, Copy, PartialEq, Debug)]
pub enum Kind {
    Legal,
    Grid,
    Border,
    Crooked,
    Tiny,
    Any,
}

pub const KINDS: [Kind; 6] = [Kind::Legal, Kind::Grid, Kind::Border, Kind::Crooked, Kind::Tiny, Kind::Any];

/// Those whose segments are taken, or nearly all of them.
const STRAIGHT: [Kind; 3] = [Kind::Legal, Kind::Grid, Kind::Tiny];

/// At a tile's borders, a step inside and a step outside each: the two zeros, the least numbers beside them, 16 and its neighbours, the
/// largest numbers, the infinities and NaN.
#[rustfmt::skip]
const BORDERS: [u32; 12] = [
    0, 0x8000_0000, 1, 0x8000_0001, 0x417f_ffff, 0x4180_0000, 0x4180_0001, 0x7f7f_ffff, 0xff7f_ffff, 0x7f80_0000, 0xff80_0000, 0x7fc0_0000,
];

fn edge(rng: &mut Rng) -> f32 {
    match rng.below(4) {
        0 => rng.between(0.0, 16.0),
        1 => rng.range(0, 16) as f32,
        _ => 1e9,
    }
}

pub fn of_kind(rng: &mut Rng, kind: Kind) -> [f32; SEGMENT] {
    let inside = |rng: &mut Rng| rng.between(0.0, 16.0);
    match kind {
        Kind::Legal => segment([inside(rng), inside(rng)], [inside(rng), inside(rng)], edge(rng)),
        Kind::Grid => {
            let step = rng.pick(&[1.0, 0.5, 2.0, 4.0]);
            let on = |rng: &mut Rng| (rng.below(33) as f32 * step).min(16.0);
            let (p, mut q, y_edge) = ([on(rng), on(rng)], [on(rng), on(rng)], edge(rng));
            if rng.one_in(3) {
                q[0] = p[0];
            }
            if rng.one_in(6) {
                q[1] = p[1];
            }
            segment(p, q, y_edge)
        }
        Kind::Border => {
            let mut s = of_kind(rng, Kind::Legal);
            s[rng.below(SEGMENT as u64) as usize] = f32::from_bits(rng.pick(&BORDERS));
            s
        }
        Kind::Crooked => {
            let far = rng.power(0.0, 8.0);
            let mut s = [0.0; SEGMENT];
            for v in &mut s {
                *v = rng.between(-far, far);
            }
            s
        }
        Kind::Tiny => {
            let y = rng.pick(&[0.0, 1.0, 4.0, 1e-30, 0.5]);
            let small = f32::from_bits(rng.below(0x0100_0000) as u32) * rng.sign();
            let dy = if y == 0.0 || rng.coin() { y + small } else { ulps(y, rng.range(-2, 2)) };
            let (from, to) = if rng.coin() { (y, dy) } else { (dy, y) };
            segment([inside(rng), from], [inside(rng), to], edge(rng))
        }
        Kind::Any => [0; SEGMENT].map(|_| f32::from_bits(any_bits(rng))),
    }
}

/// A list of one kind, mostly of segments that are taken, and among them here and there one of any kind.
pub fn list(rng: &mut Rng, n: usize) -> Vec<f32> {
    let kind = if rng.one_in(4) { rng.pick(&KINDS) } else { rng.pick(&STRAIGHT) };
    let mut out = Vec::with_capacity(SEGMENT * n);
    for _ in 0..n {
        let kind = if rng.one_in(8) { rng.pick(&KINDS) } else { kind };
        out.extend(of_kind(rng, kind));
    }
    out
}
