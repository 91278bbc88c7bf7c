//! Closed outlines in boxes with a margin around them whose marks don't add up to 0 in some tile row: there a fill leaks from the
//! outline to the right. What was looked for, how often it was met, and the smallest.

use crate::table::spaced;
use cases::floats::near;
use cases::Rng;
use rules::limits::{DONE, REF, WALK_MOST};
use rules::records::path;

/// An outline's corners, and its box.
#[derive(Clone)]
struct Outline {
    b: [i64; 4],
    corners: Vec<[f32; 2]>,
}

/// What an outline comes to.
enum Told {
    Refused,
    Tight,
    /// In this row, by this much.
    Leaks(i64, i32),
}

impl Outline {
    /// The box that reaches a tile further than the corners' tiles on every side.
    fn of(corners: Vec<[f32; 2]>) -> Outline {
        let tile = |axis: usize| corners.iter().map(move |p| (p[axis] / 16.0).floor() as i64);
        let (left, right) = (tile(0).min().unwrap() - 1, tile(0).max().unwrap() + 2);
        let (top, bottom) = (tile(1).min().unwrap() - 1, tile(1).max().unwrap() + 2);
        Outline { b: [left, top, right, bottom], corners }
    }

    fn coords(&self) -> Vec<f32> {
        let next = self.corners.iter().cycle().skip(1);
        self.corners.iter().zip(next).flat_map(|(p, q)| [p[0], p[1], q[0], q[1]]).collect()
    }

    /// Counted by the rules into zeroed tiles: the first row whose marks don't add up to 0, counted from the top of the screen.
    fn told(&self) -> Told {
        let (width, height) = ((self.b[2] - self.b[0]) as usize, (self.b[3] - self.b[1]) as usize);
        let n = self.corners.len();
        let (path_nos, paths) = (vec![0; n], path(self.b.map(|v| v as u32), 0));
        assert_eq!(rules::outlines::first_open(&path_nos, &self.coords()), None);
        let (mut backs, mut counts, mut refs) = (vec![0; width * height], vec![0; width * height], vec![0; REF * 4_096]);
        let (mut lines, mut made, mut item) = (0, 0, 0);
        let number = rules::count(&path_nos, &self.coords(), &paths, &mut backs, &mut counts, &mut refs, n as u32, &mut lines, &mut made, &mut item);
        if number != DONE {
            return Told::Refused;
        }
        let mut sums = backs.chunks_exact(width).map(|row| row.iter().sum::<i32>());
        let row = sums.clone().position(|sum| sum != 0);
        row.map_or(Told::Tight, |row| Told::Leaks(self.b[1] + row as i64, sums.nth(row).unwrap()))
    }

    fn leaks(&self) -> bool {
        self.b[0] >= 0 && self.b[1] >= 0 && matches!(self.told(), Told::Leaks(..))
    }

    /// Few corners first, then small boxes near the origin, then few bits.
    fn size(&self) -> (usize, i64, u32) {
        let b = self.b;
        let bits = self.corners.iter().flatten().map(|v| (v.to_bits() << 9).count_ones()).sum();
        (self.corners.len(), (b[2] - b[0]) * (b[3] - b[1]) + b[0] + b[1], bits)
    }

    fn simpler(&self) -> Vec<Outline> {
        let mut out = vec![];
        for axis in [0, 1] {
            for by in [16.0, 16.0 * self.b[axis] as f32] {
                out.push(self.corners.iter().map(|&p| moved(p, axis, by)).collect::<Vec<_>>());
            }
        }
        for k in 0..self.corners.len() {
            for axis in [0, 1] {
                let v = self.corners[k][axis];
                let bits = v.to_bits();
                for to in [f32::from_bits(bits & 0xffff_f000), f32::from_bits(bits & bits.wrapping_sub(1)), v - 16.0, v - 8.0, 24.0] {
                    let mut corners = self.corners.clone();
                    corners[k][axis] = to;
                    out.push(corners);
                }
            }
        }
        out.into_iter().filter(|c| c.iter().flatten().all(|&v| v >= 16.0)).map(Outline::of).collect()
    }

    fn smallest(mut self) -> Outline {
        'again: for _ in 0..10_000 {
            for candidate in self.simpler() {
                if candidate.size() < self.size() && candidate.leaks() {
                    self = candidate;
                    continue 'again;
                }
            }
            break;
        }
        self
    }

    fn show(&self) -> String {
        let b = self.b;
        let corner = |p: &[f32; 2]| format!("({:?}, {:?}) bits {:08x} {:08x}", p[0], p[1], p[0].to_bits(), p[1].to_bits());
        let (row, sum) = if let Told::Leaks(row, sum) = self.told() { (row, sum) } else { (-1, 0) };
        let corners: Vec<String> = self.corners.iter().map(corner).collect();
        format!("box {},{},{},{}, row {row} sums to {sum}: {}", b[0], b[1], b[2], b[3], corners.join(", "))
    }
}

fn moved(mut p: [f32; 2], axis: usize, by: f32) -> [f32; 2] {
    p[axis] -= by;
    p
}

/// A coordinate from tile 1 up to the last of so many tiles.
type Pen = fn(&mut Rng, i64) -> f32;

/// Sixteenths of a pixel; any float; a tile's edge and the floats next to it.
fn drawn(rng: &mut Rng, tiles: i64) -> f32 {
    rng.range(256, 256 * tiles) as f32 / 16.0
}

fn any(rng: &mut Rng, tiles: i64) -> f32 {
    rng.between(16.0, 16.0 * tiles as f32)
}

fn edge(rng: &mut Rng, tiles: i64) -> f32 {
    let at = 16.0 * rng.range(1, tiles) as f32;
    near(rng, at, 4).max(16.0)
}

fn mixed(rng: &mut Rng, tiles: i64) -> f32 {
    let pen: Pen = rng.pick(&[drawn, any, edge, edge]);
    pen(rng, tiles)
}

fn family(what: &str, n: u64, seed: u64, pen: Pen, tiles: i64) -> u64 {
    let (mut met, mut refused, mut least): (u64, u64, Option<Outline>) = (0, 0, None);
    for k in 0..n {
        let rng = &mut Rng::of_case(seed, k);
        let outline = Outline::of((0..rng.range(3, 4)).map(|_| [pen(rng, tiles), pen(rng, tiles)]).collect());
        match outline.told() {
            Told::Refused => refused += 1,
            Told::Tight => (),
            Told::Leaks(..) => {
                met += 1;
                if least.as_ref().is_none_or(|l| outline.size() < l.size()) {
                    least = Some(outline.smallest());
                }
            }
        }
    }
    println!("  {what}, {tiles} tiles: {} outlines, {} refused, {} leak", spaced(n), spaced(refused), spaced(met));
    if let Some(least) = least {
        println!("    {}", least.show());
    }
    met
}

/// So many outlines of each family; false where an outline that a pen draws leaks.
pub fn run(n: u64, seed: u64) -> bool {
    assert!(WALK_MOST > 4_096);
    println!("closed outlines of three or four lines, in boxes with a margin, counted by the rules:");
    let mut drawn_leak = 0;
    for tiles in [4, 8, 20, 64] {
        drawn_leak += family("sixteenths of a pixel", n, seed, drawn, tiles);
        family("any floats", n, seed, any, tiles);
        family("near tiles' edges", n, seed, edge, tiles);
        family("mixed", n, seed, mixed, tiles);
    }
    drawn_leak == 0
}
