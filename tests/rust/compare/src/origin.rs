//! Figures near 0: how many have a line that counting refuses with 10, and that none has a tile further in with a margin.

use crate::findings::Input;
use crate::table::spaced;
use cases::Rng;
use rules::limits::EDGE_MOST;
use rules::walk::{good_coords, Walk};
use std::f32::consts::FRAC_PI_2;

/// The lines of one path.
type Figure = Vec<[f32; 4]>;

/// Closed through its corners.
fn closed(corners: &[[f32; 2]]) -> Figure {
    let next = corners.iter().cycle().skip(1);
    corners.iter().zip(next).map(|(p, q)| [p[0], p[1], q[0], q[1]]).collect()
}

/// A rectangle with a corner at the origin, turned about it by one, two or three quarters with the sine and cosine of the angle
/// as floats, and moved to where it stood.
fn turned(rng: &mut Rng) -> Figure {
    let (w, h) = (rng.between(1.0, 2_000.0), rng.between(1.0, 2_000.0));
    let quarters = rng.range(1, 3);
    let (sin, cos) = (quarters as f32 * FRAC_PI_2).sin_cos();
    let by = [[0.0, 0.0], [h, 0.0], [w, h], [0.0, w]][quarters as usize];
    let corners = [[0.0, 0.0], [w, 0.0], [w, h], [0.0, h]];
    closed(&corners.map(|[x, y]: [f32; 2]| [x * cos - y * sin + by[0], x * sin + y * cos + by[1]]))
}

/// A filled trace whose base line crosses 0 at such a slope.
fn base_line(rng: &mut Rng, slopes: (f32, f32)) -> Figure {
    let (w, h) = (rng.between(16.0, 2_000.0), rng.between(16.0, 200.0));
    let rise = w * rng.power(slopes.0, slopes.1) * rng.sign();
    let start = -rise * rng.unit();
    closed(&[[0.0, start], [w, start + rise], [w, h], [0.0, h]])
}

/// One line along an edge, its ends a hair to either side of it: within so much.
fn along(rng: &mut Rng, axis: usize, hair: f32) -> Figure {
    let mut line = [0.0; 4];
    let (from, to) = (rng.between(0.0, 32.0), rng.between(48.0, 2_000.0));
    let (from, to) = if rng.coin() { (from, to) } else { (to, from) };
    (line[1 - axis], line[3 - axis]) = (from, to);
    (line[axis], line[axis + 2]) = (hair * rng.unit() * rng.sign(), hair * rng.unit() * rng.sign());
    vec![line]
}

/// The same with no coordinate below 0.
fn from_zero(figure: Figure) -> Figure {
    figure.into_iter().map(|line| line.map(|v| v.max(0.0))).collect()
}

fn moved(figure: &Figure, by: f32) -> Figure {
    figure.iter().map(|line| line.map(|v| v + by)).collect()
}

/// The box that reaches so many tiles further than the figure's own, as far as boxes reach.
fn boxed(figure: &Figure, margin: i64) -> [i64; 4] {
    let tile = |v: f32| (v / 16.0).floor() as i64;
    let ends = |k: usize| figure.iter().flat_map(move |l| [l[k], l[k + 2]]).map(tile);
    let least = |k: usize| (ends(k).min().unwrap() - margin).clamp(0, EDGE_MOST);
    let last = |k: usize| (ends(k).max().unwrap() + 1 + margin).clamp(0, EDGE_MOST);
    [least(0), least(1), last(0), last(1)]
}

/// The first line of it that is refused with 10.
fn ten(figure: &Figure, margin: i64) -> Option<Input> {
    let b = boxed(figure, margin);
    figure.iter().map(|&line| Input { b, line }).find(|input| {
        let (w, place) = (Walk::of(&input.line), input.place());
        let clip = w.clip(&place);
        good_coords(&input.line) && !w.skipped(&place) && (clip.from..clip.to).any(|i| w.step(i, &place).is_none())
    })
}

/// Far enough in that what lay a hair below 0 lies at 16 or more.
const FURTHER: f32 = 17.0;

/// The share in a box of the figure's own tiles; in one with a margin; with that and 0 in the place of what is below it; and with that, a
/// tile further in, where a hair below 0 is a hair below 16. A little further in there must be none (docs/THEOREMS.md, 16).
fn shares(what: &str, n: u64, seed: u64, make: impl Fn(&mut Rng) -> Figure) {
    let mut rng = Rng::of_case(seed, 80);
    let mut met = [0u64; 4];
    for _ in 0..n {
        let figure = make(&mut rng);
        let tens = [ten(&figure, 0), ten(&figure, 1), ten(&from_zero(figure.clone()), 1), ten(&moved(&figure, 16.0), 1)];
        for (k, found) in tens.iter().enumerate() {
            met[k] += u64::from(found.is_some());
        }
        let further = ten(&moved(&figure, FURTHER), 1);
        assert!(further.is_none(), "10 a tile further in, in a box with a margin: {}", further.unwrap().show());
    }
    let [tight, roomy, lifted, tile] = met.map(|k| 100.0 * k as f64 / n as f64);
    println!("  {what}: {tight:.2} % of {} figures; with a margin {roomy:.2} %", spaced(n));
    println!("      with a margin, and 0 for what is below it {lifted:.4} %; 16 pixels further in {tile:.4} %; {FURTHER} pixels none");
}

pub fn run(n: u64, seed: u64) {
    println!("Figures near 0 with a line that is refused with 10");
    shares("rectangles turned by quarters about the origin", n, seed, turned);
    for (from, to) in [(-9.0, -8.0), (-8.0, -7.0), (-7.0, -6.0), (-6.0, -5.0), (-5.0, -4.0)] {
        shares(&format!("filled traces, base line across 0 at a slope of 1e{from} to 1e{to}"), n, seed, |r| base_line(r, (from, to)));
    }
    for hair in [1e-6, 1e-5, 1e-4] {
        shares(&format!("lines within {hair:e} of y = 0"), n, seed, |r| along(r, 1, hair));
        shares(&format!("lines within {hair:e} of x = 0"), n, seed, |r| along(r, 0, hair));
    }
}
