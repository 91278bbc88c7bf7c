//! What was found in the Rust, found again: how often, and the smallest input met.

use crate::origin;
use crate::table::spaced;
use cases::floats::near;
use cases::{boxes, lines, Rng};
use rules::limits::{EDGE_MOST, REF, STEP_MOST, WALK_MOST};
use rules::records::{path, Line};
use rules::walk::{Clip, Place, Walk};
use std::sync::Mutex;

/// A line and its box.
#[derive(Clone, Copy)]
pub struct Input {
    pub b: [i64; 4],
    pub line: Line,
}

impl Input {
    /// Small boxes first, then short walks, then few bits.
    fn size(&self) -> (i64, i64, u32) {
        let tiles = (self.b[2] - self.b[0]) * (self.b[3] - self.b[1]);
        let bits: u32 = self.line.iter().map(|v| (v.to_bits() << 9).count_ones()).sum();
        (tiles + self.b[0] + self.b[1], Walk::of(&self.line).count, bits)
    }

    pub fn place(&self) -> Place {
        Place { x0: self.b[0], y0: self.b[1], x1: self.b[2], y1: self.b[3], first: 0 }
    }

    pub fn show(&self) -> String {
        let bits: Vec<String> = self.line.iter().map(|v| format!("{:08x}", v.to_bits())).collect();
        let b = self.b;
        format!(
            "box {},{},{},{}, ({:?}, {:?})-({:?}, {:?}), bits {}",
            b[0],
            b[1],
            b[2],
            b[3],
            self.line[0],
            self.line[1],
            self.line[2],
            self.line[3],
            bits.join(" ")
        )
    }

    /// What the unchanged Rust does with the line from cleared tiles, other paths' tiles standing before and after.
    fn rust_does(&self) -> &'static str {
        let tiles = ((self.b[2] - self.b[0]) * (self.b[3] - self.b[1])) as usize;
        let others = 2 * (self.b[2] - self.b[0]) as usize + 2;
        let paths = path(self.b.map(|v| v as u32), others as u32);
        let all = tiles + 2 * others;
        let (mut backs, mut counts, mut refs) = (vec![0; all], vec![0; all], vec![0; REF * WALK_MOST as usize]);
        let ran = oracle::count(&[0], &self.line, &paths, &mut backs, &mut counts, &mut refs, 0, 1, 0);
        let own = others..others + tiles;
        if ran.is_err() {
            "panics"
        } else if (0..all).any(|t| !own.contains(&t) && (counts[t] > 0 || backs[t] != 0)) {
            "writes to another path's tiles"
        } else {
            "counts another tile of the path"
        }
    }
}

/// Boxes trimmed, moved towards the origin with the line; coordinates with fewer bits.
fn simpler(input: &Input) -> Vec<Input> {
    let mut out = vec![];
    for (k, by) in [(0, 1), (1, 1), (2, -1), (3, -1)] {
        let mut c = *input;
        c.b[k] += by;
        if c.b[0] <= c.b[2] && c.b[1] <= c.b[3] {
            out.push(c);
        }
    }
    for axis in [0, 1] {
        for by in [input.b[axis], 1] {
            let mut c = *input;
            c.b[axis] -= by;
            c.b[axis + 2] -= by;
            c.line[axis] -= 16.0 * by as f32;
            c.line[axis + 2] -= 16.0 * by as f32;
            if by > 0 && c.b[axis] >= 0 {
                out.push(c);
            }
        }
    }
    for k in 0..4 {
        let bits = input.line[k].to_bits();
        for fewer in [bits & 0xff80_0000, bits & 0xffff_f000, bits & bits.wrapping_sub(1)] {
            let mut c = *input;
            c.line[k] = f32::from_bits(fewer);
            if fewer != bits {
                out.push(c);
            }
        }
    }
    out
}

/// The input made smaller as long as `still` holds of it.
fn smallest(mut input: Input, still: impl Fn(&Input) -> bool) -> Input {
    'again: for _ in 0..10_000 {
        for candidate in simpler(&input) {
            if candidate.size() < input.size() && still(&candidate) {
                input = candidate;
                continue 'again;
            }
        }
        break;
    }
    input
}

#[derive(Default)]
struct Found {
    number: u64,
    least: Option<Input>,
}

impl Found {
    fn meet(&mut self, input: &Input) {
        self.number += 1;
        if self.least.is_none_or(|l| input.size() < l.size()) {
            self.least = Some(*input);
        }
    }

    fn join(&mut self, other: &Found) {
        self.number += other.number;
        if let Some(input) = &other.least {
            if self.least.is_none_or(|l| input.size() < l.size()) {
                self.least = Some(*input);
            }
        }
    }

    fn print(&self, what: &str, still: impl Fn(&Input) -> bool) {
        println!("  {what}: {}", spaced(self.number));
        if let Some(least) = self.least {
            println!("      smallest: {}", smallest(least, still).show());
        }
    }
}

const WHAT: [&str; 16] = [
    "lines walked (good coordinates, not skipped)",
    "lines whose z rises by 2 in one step",
    "  of them accepted",
    "a tile taken twice by one line",
    "a backdrop marked twice by one line",
    "counting's and tiling's casts differ",
    "no step left, with both step numbers 4,294,967,295",
    "a not finite",
    "a not finite with dx + dy over 2^-128",
    "a finite with dx + dy at most 2^-128",
    "a not finite, no step left: accepted",
    "a step number over its limit in the clipped walk",
    "10 in a box of no height",
    "a step below count and in the box, not in the clipped walk",
    "12 of a counted reference: an end below 0",
    "12 of a counted reference: an end NaN",
];

/// Least and largest values met.
#[derive(Clone, Copy)]
struct Range(f64, f64);

impl Range {
    fn meet(&mut self, v: f64) {
        self.0 = self.0.min(v);
        self.1 = self.1.max(v);
    }
}

struct All {
    found: Vec<Found>,
    a: Range,
    b: Range,
    z: Range,
    step: Range,
    above_16: u64,
}

impl All {
    fn new() -> All {
        let none = Range(f64::INFINITY, f64::NEG_INFINITY);
        All { found: WHAT.iter().map(|_| Found::default()).collect(), a: none, b: none, z: none, step: none, above_16: 0 }
    }

    fn join(&mut self, other: &All) {
        for (mine, theirs) in self.found.iter_mut().zip(&other.found) {
            mine.join(theirs);
        }
        for (mine, theirs) in [(&mut self.a, other.a), (&mut self.b, other.b), (&mut self.z, other.z), (&mut self.step, other.step)] {
            if theirs.0 <= theirs.1 {
                mine.meet(theirs.0);
                mine.meet(theirs.1);
            }
        }
        self.above_16 += other.above_16;
    }

    fn line(&mut self, input: &Input) {
        let at = input.place();
        if !rules::walk::good_coords(&input.line) {
            return;
        }
        let w = Walk::of(&input.line);
        if w.skipped(&at) {
            return;
        }
        self.found[0].meet(input);
        let c = w.clip(&at);
        self.numbers(input, &w, &c);
        self.steps(input, &w, &c, &at);
    }

    fn numbers(&mut self, input: &Input, w: &Walk, c: &Clip) {
        let short = (w.dx + w.dy) as f64 <= 2f64.powi(-128);
        if w.a.is_finite() {
            self.a.meet(w.a as f64);
            self.b.meet(w.b as f64);
        } else {
            self.found[7].meet(input);
            if c.from == c.to {
                self.found[10].meet(input);
            }
        }
        if !w.a.is_finite() && !short {
            self.found[8].meet(input);
        }
        if w.a.is_finite() && short {
            self.found[9].meet(input);
        }
        if c.from == c.to && c.from == u32::MAX as i64 {
            self.found[6].meet(input);
        }
        if c.to > c.from && c.to - 1 > STEP_MOST {
            self.found[11].meet(input);
        }
    }

    fn steps(&mut self, input: &Input, w: &Walk, c: &Clip, at: &Place) {
        let mut last: Option<f32> = None;
        let mut jumped = false;
        let mut tiles = vec![];
        let mut marks: Vec<(i64, i64)> = (c.top..c.bottom).map(|y| (at.x0, y)).collect();
        let mut off = false;
        for i in c.from..c.to.min(c.from + STEP_MOST + 2) {
            let z = w.z_at(i as f32);
            jumped |= last.is_some_and(|l| z - l >= 2.0);
            last = Some(z);
            if z.is_finite() {
                self.z.meet(z as f64);
            }
            self.step.meet(i as f64);
            let step = w.step(i, at);
            if step != w.step_by_two_casts(i, at) {
                self.found[5].meet(input);
            }
            let Some((x, y)) = step else {
                off = true;
                break;
            };
            tiles.push((x, y));
            if w.crosses_top(i) && x + 1 < at.x1 {
                marks.push((x + 1, y));
            }
            self.clips(input, w, i, x, y);
        }
        if jumped {
            self.found[1].meet(input);
            if !off {
                self.found[2].meet(input);
            }
        }
        if off && at.y0 == at.y1 {
            self.found[12].meet(input);
        }
        // such a step is near the clipped walk, or there is none of it
        let near = if c.from < c.to { (c.from - 300).max(0)..(c.to + 300).min(w.count) } else { 0..w.count.min(WALK_MOST) };
        if !off && near.into_iter().any(|i| !(c.from..c.to).contains(&i) && w.step(i, at).is_some()) {
            self.found[13].meet(input);
        }
        for (list, which) in [(&mut tiles, 3), (&mut marks, 4)] {
            list.sort_unstable();
            if list.windows(2).any(|p| p[0] == p[1]) {
                self.found[which].meet(input);
            }
        }
    }

    fn clips(&mut self, input: &Input, w: &Walk, i: i64, x: i64, y: i64) {
        let s = rules::tile::segment(w, i, x, y);
        if s[..4].iter().any(|v| v.is_nan()) {
            self.found[15].meet(input);
        } else if s[..4].iter().any(|&v| v < 0.0) {
            self.found[14].meet(input);
        } else if s[..4].iter().any(|&v| v > 16.0) {
            self.above_16 += 1;
        }
    }
}

/// A flat or steep line whose ends lie on the grid or a few ulps off: where the rare findings are.
fn off_the_grid(rng: &mut Rng, b: &[i64; 4]) -> Line {
    let grid = |rng: &mut Rng, k: usize| {
        let v = 16.0 * rng.range(b[k] - 1, b[k + 2] + 1) as f32;
        near(rng, v, 3)
    };
    let (x, y) = (grid(rng, 0), grid(rng, 1));
    match rng.below(3) {
        0 => [x, near(rng, y, 2), near(rng, x, 3), grid(rng, 1)],
        _ => [x, near(rng, y, 2), grid(rng, 0), near(rng, y, 3)],
    }
}

fn by_families(n: u64, seed: u64, threads: u64) -> All {
    let all = Mutex::new(All::new());
    std::thread::scope(|scope| {
        for t in 0..threads {
            let all = &all;
            scope.spawn(move || {
                let mut mine = All::new();
                let mut rng = Rng::of_case(seed, t);
                for _ in 0..n / threads / 16 {
                    let most = rng.pick(&[3, 6, 24, 300, EDGE_MOST]);
                    let b = boxes::any(&mut rng, most);
                    for _ in 0..16 {
                        let line = if rng.one_in(3) { off_the_grid(&mut rng, &b) } else { lines::any(&mut rng, &b).1 };
                        mine.line(&Input { b, line });
                    }
                }
                all.lock().unwrap().join(&mine);
            });
        }
    });
    all.into_inner().unwrap()
}

/// The answer of counting one line from cleared tiles.
fn number_of(input: &Input) -> u32 {
    let tiles = ((input.b[2] - input.b[0]) * (input.b[3] - input.b[1])) as usize;
    let paths = path(input.b.map(|v| v as u32), 0);
    let (mut backs, mut counts, mut refs) = (vec![0; tiles], vec![0; tiles], vec![0; REF * WALK_MOST as usize]);
    let (mut l, mut m, mut i) = (0, 0, 0);
    rules::count(&[0], &input.line, &paths, &mut backs, &mut counts, &mut refs, 1, &mut l, &mut m, &mut i)
}

/// The share of lines of a kind that are refused with 10, and what the Rust does with those.
fn share(what: &str, n: u64, seed: u64, make: impl Fn(&mut Rng) -> Input) {
    let mut rng = Rng::of_case(seed, 77);
    let (mut refused, mut walked) = (Found::default(), 0u64);
    let mut does = std::collections::BTreeMap::new();
    for _ in 0..n {
        let input = make(&mut rng);
        if Walk::of(&input.line).skipped(&input.place()) {
            continue;
        }
        walked += 1;
        if number_of(&input) == 10 {
            refused.meet(&input);
            if oracle::AT_HAND && refused.number <= 2_000 {
                *does.entry(input.rust_does()).or_insert(0u64) += 1;
            }
        }
    }
    let percent = 100.0 * refused.number as f64 / walked.max(1) as f64;
    println!("  {what}: {} of {} lines, {percent:.4} %", spaced(refused.number), spaced(walked));
    for (said, times) in does {
        println!("      the Rust {said}: {}", spaced(times));
    }
    if let Some(least) = refused.least {
        println!("      smallest: {}", smallest(least, |input| rules::walk::good_coords(&input.line) && number_of(input) == 10).show());
    }
}

/// A line over the whole width of a box, that crosses its top or bottom edge at a slope.
fn flat(rng: &mut Rng, width: i64, slopes: (f32, f32)) -> Input {
    let top = rng.range(1, 20);
    let b = [0, top, width, top + 3];
    let (x0, x1) = (rng.between(0.0, 32.0), 16.0 * width as f32 - rng.between(0.0, 32.0));
    let rise = (x1 - x0) * rng.power(slopes.0, slopes.1) * rng.sign();
    let edge = 16.0 * rng.pick(&[b[1], b[3]]) as f32;
    let y0 = edge - rise * rng.unit();
    let line = if rng.coin() { [x0, y0, x1, y0 + rise] } else { [x1, y0 + rise, x0, y0] };
    Input { b, line }
}

/// A line over the whole height of a box, that crosses its left or right edge at a slope.
fn steep(rng: &mut Rng, height: i64, slopes: (f32, f32)) -> Input {
    let left = rng.range(1, 20);
    let b = [left, 0, left + 3, height];
    let (y0, y1) = (rng.between(0.0, 32.0), 16.0 * height as f32 - rng.between(0.0, 32.0));
    let run = (y1 - y0) * rng.power(slopes.0, slopes.1) * rng.sign();
    let edge = 16.0 * rng.pick(&[b[0], b[2]]) as f32;
    let x0 = edge - run * rng.unit();
    Input { b, line: [x0, y0, x0 + run, y1] }
}

/// The same line in a box a tile larger on every side, so that it crosses no edge.
fn roomy(input: Input) -> Input {
    let [x0, y0, x1, y1] = input.b;
    Input { b: [(x0 - 1).max(0), (y0 - 1).max(0), x1 + 1, y1 + 1], ..input }
}

/// A line at 16 or more, its ends anywhere or a few ulps from tiles' corners, in the box that reaches one tile further than their
/// tiles on every side: there no step is outside (docs/THEOREMS.md, 16).
fn margined(rng: &mut Rng) -> Input {
    let most = rng.pick(&[3, 24, 300, EDGE_MOST - 2]);
    let place = |rng: &mut Rng| {
        let v = if rng.coin() { 16.0 * rng.range(1, most) as f32 } else { rng.between(16.0, 16.0 * most as f32) };
        near(rng, v, 3).max(16.0)
    };
    let (x, y) = (place(rng), place(rng));
    let line = match rng.below(3) {
        0 => [x, y, near(rng, x, 3).max(16.0), place(rng)],
        1 => [x, y, place(rng), near(rng, y, 3).max(16.0)],
        _ => [x, y, place(rng), place(rng)],
    };
    with_margin(line)
}

/// A line at 16 or more in the box that reaches one tile further than its ends' tiles on every side.
fn with_margin(line: [f32; 4]) -> Input {
    let tile = |v: f32| (v / 16.0) as i64;
    let least = |k: usize| tile(line[k].min(line[k + 2])) - 1;
    let last = |k: usize| tile(line[k].max(line[k + 2])) + 2;
    Input { b: [least(0), least(1), last(0), last(1)], line }
}

/// Whether tiling refuses a step of it with 12.
fn crooked(input: &Input) -> bool {
    let (w, place) = (Walk::of(&input.line), input.place());
    let clip = w.clip(&place);
    let within = |s: [f32; 5]| s[..4].iter().all(|v| (0.0..=16.0).contains(v));
    !w.skipped(&place) && (clip.from..clip.to).any(|i| w.step(i, &place).is_some_and(|(x, y)| !within(rules::tile::segment(&w, i, x, y))))
}

/// How many of n lines are refused with 12 in boxes with a margin.
fn twelves(what: &str, n: u64, seed: u64, make: impl Fn(&mut Rng) -> Input) {
    let mut rng = Rng::of_case(seed, 81);
    let mut found = Found::default();
    for _ in 0..n {
        let input = make(&mut rng);
        if crooked(&input) {
            found.meet(&input);
        }
    }
    println!("  12 in boxes with a margin, {what}: {} of {}", spaced(found.number), spaced(n));
    if let Some(least) = found.least {
        println!("      {}", least.show());
    }
}

/// Such lines alone, those of them that tiling refuses, and figures near 0.
pub fn margins_alone(n: u64, seed: u64) -> bool {
    print_margins(n, seed);
    twelves("half of the ends within 3 ulps of a tile's border", n / 10, seed, margined);
    twelves("sides of outlines", n, seed, |rng| {
        let side = outline(rng, &[(20.0, 20.0), (60.0, 60.0), (200.0, 200.0), (800.0, 800.0)]).line;
        with_margin(side.map(|v| v.clamp(16.0, 16.0 * (EDGE_MOST - 2) as f32)))
    });
    origin::run(n / 100, seed);
    true
}

/// How many of n such lines are walked, and how many of them have a step in the margin above, below, left and right. No step may be outside.
fn margins(n: u64, seed: u64) -> (u64, [u64; 4]) {
    let mut rng = Rng::of_case(seed, 79);
    let (mut walked, mut sides) = (0, [0; 4]);
    for _ in 0..n {
        let input = margined(&mut rng);
        let (w, place) = (Walk::of(&input.line), input.place());
        if w.skipped(&place) {
            continue;
        }
        walked += 1;
        let clip = w.clip(&place);
        let mut met = [false; 4];
        for i in clip.from..clip.to {
            let Some((x, y)) = w.step(i, &place) else { panic!("10 in a box with a margin: {}", input.show()) };
            for (met, is) in met.iter_mut().zip([y == place.y0, y + 1 == place.y1, x == place.x0, x + 1 == place.x1]) {
                *met |= is;
            }
        }
        for (side, met) in sides.iter_mut().zip(met) {
            *side += u64::from(met);
        }
    }
    (walked, sides)
}

fn print_margins(n: u64, seed: u64) {
    let (walked, sides) = margins(n, seed);
    let [above, below, left, right] = sides.map(spaced);
    println!("  lines at 16 and more in boxes with a margin, none refused with 10: {}", spaced(walked));
    println!("  with a step in the margin above: {above}, below: {below}, left: {left}, right: {right}");
}

/// A side of a closed outline of a few corners, drawn around its own box as a flattened path is: half as wide and as high.
fn outline(rng: &mut Rng, halves: &[(f32, f32)]) -> Input {
    let (wide, high) = rng.pick(halves);
    let wall = 16.0 * EDGE_MOST as f32;
    let (cx, cy) = (rng.between(0.0, wall), rng.between(0.0, wall));
    let corners = rng.range(3, 9);
    let k = rng.range(0, corners - 1);
    let at = |k: i64, reach: f32| {
        let turn = k as f32 / corners as f32 * std::f32::consts::TAU;
        [cx + wide * reach * turn.cos(), cy + high * reach * turn.sin()]
    };
    let p = at(k, rng.between(0.5, 1.0));
    let q = at(k + 1, rng.between(0.5, 1.0));
    let tile = |v: f32, up: i64| ((v / 16.0).floor() as i64 + up).clamp(0, EDGE_MOST);
    let b = [tile(cx - wide, 0), tile(cy - high, 0), tile(cx + wide, 1), tile(cy + high, 1)];
    Input { b, line: [p[0], p[1], q[0], q[1]] }
}

/// Known inputs, and what is said of them.
fn known() {
    println!("Known inputs");
    let bits = |v: [u32; 4]| v.map(f32::from_bits);
    let tiny = f32::from_bits(1_000);
    for (said, b, line) in [
        ("the walk jumps", [0, 0, 5, 4], bits([0x42c0_0001, 0x4200_0001, 0xc180_0000, 0x41ff_fffd])),
        ("flat over a wide box", [0, 3, 64, 6], bits([0x4198_7d59, 0x423f_ff2d, 0x447e_1e7f, 0x4240_0189])),
        ("steep", [4, 3, 5, 7], [64.0, 128.0, f32::from_bits(0x427f_ffff), 48.0]),
        ("a box of no height", [0, 0, 2, 0], [28.0, 0.0, 8.0, f32::from_bits(0x8000_003a)]),
        ("so short that 1/(dx+dy) overflows", [0, 0, 6, 1], [80.0, 0.0, 80.0, tiny]),
        ("so short, no step left", [1, 0, 3, 2], [8.0, -tiny, 8.0, tiny]),
        ("step numbers at the top of u32", [3, 1, 4, 2], [12.0, 16.0, 108.0, f32::from_bits(0x417f_fffe)]),
        ("0/0 in the second clip", [0, 0, 20, 11], bits([0x417f_ffff, 0x42c0_0000, 0x431f_ffff, 0x42bf_ffff])),
        ("minus 8 denormal ulps", [0, 0, 2, 2], [f32::from_bits(0x8000_0008), 1.0, 5.0, 9.0]),
        ("a margin, 0/0 in the second clip", [0, 6, 12, 10], bits([0x41ff_ffff, 0x4300_0000, 0x4320_0001, 0x42ff_ffff])),
        ("a margin, one column too far", [6, 0, 17, 4], bits([0x437f_6000, 0x4200_0001, 0x42fd_b56c, 0x41ff_ffee])),
        ("its lower end in the first column", [0, 0, 18, 3], bits([0x4380_abbd, 0x417f_ff54, 0, 0x4180_0002])),
        ("no margin below", [0, 0, 8, 2], bits([0x41ff_ffff, 0x41ff_fffe, 0x42c0_0001, 0x4200_0000])),
        ("a step in the box, not in the walk", [1, 18, 24, 22], bits([0x43f7_c804, 0x43af_fffe, 0x4350_1c18, 0x43b0_0003])),
    ] {
        let input = Input { b, line };
        let w = Walk::of(&line);
        let c = w.clip(&input.place());
        let tiles: Vec<String> =
            (c.from..c.to.min(c.from + 40)).map(|i| w.step(i, &input.place()).map_or("off".into(), |(x, y)| format!("{x},{y}"))).collect();
        println!("  {said}: {}", input.show());
        println!(
            "      answer {}, a {:?}, b {:?}, count {}, steps {}..{}, rows {}..{}, tiles {}",
            number_of(&input),
            w.a,
            w.b,
            w.count,
            c.from,
            c.to,
            c.top,
            c.bottom,
            tiles.join(" ")
        );
        if number_of(&input) == 10 && oracle::AT_HAND {
            println!("      the Rust {}", input.rust_does());
        }
        for i in c.from..c.to.min(c.from + 40) {
            if let Some((x, y)) = w.step(i, &input.place()) {
                let s = rules::tile::segment(&w, i, x, y);
                if !s[..4].iter().all(|v| (0.0..=16.0).contains(v)) {
                    println!("      step {i}: 12, ends {}", s.map(|v| format!("{:08x}", v.to_bits())).join(" "));
                }
            }
        }
    }
}

/// Heights whose reciprocal overflows.
fn thin_segments() {
    println!("Segments so low that the reciprocal of their height overflows");
    for height in [0x0020_0000u32, 0x0020_0001, 0x001f_ffff, 1] {
        let dy = f32::from_bits(height);
        for x1 in [4.0, 6.0, 2.0] {
            let s = [4.0, 0.0, x1, dy, 1e9];
            let [plain, even] = [false, true].map(|e| rules::fill::pixel(&s, e, 0, 5, 0, 0.0, 0.0));
            println!("  (4, 0)-({x1}, bits {height:08x}), pixel 5,0: reciprocal {:?}, non-zero {plain:?}, even-odd {even:?}", dy.recip());
        }
    }
    let mut area = [0.0; 256];
    let s = [4.0, 0.0, 4.0, f32::from_bits(1), 1e9];
    if oracle::fill(&s, [2, 0, 0], 0.0, 0.0, &mut area).is_ok() {
        println!("  the Rust's pixel 5,0 of (4, 0)-(4, bits 00000001), non-zero: {:?}", area[5]);
    }
}

pub fn run(n: u64, seed: u64, threads: u64) -> bool {
    known();
    thin_segments();
    println!("{} lines in families", spaced(n));
    let all = by_families(n, seed, threads);
    for (k, found) in all.found.iter().enumerate() {
        found.print(WHAT[k], |input| {
            let mut one = All::new();
            one.line(input);
            one.found[k].number > 0
        });
    }
    println!("  12 of a counted reference: an end over 16: {}", spaced(all.above_16));
    let show = |r: Range| format!("{:?} to {:?}", r.0 as f32, r.1 as f32);
    println!("  a {}, b {}, z {}, step numbers {}", show(all.a), show(all.b), show(all.z), show(all.step));
    print_margins(n / 2, seed);
    origin::run(n / 100, seed);
    println!("Shares refused with 10");
    let m = (n / 20).max(20_000);
    // as many tiles are walked over in a wide box as in a narrow one
    let lines = |size: i64| (m * 64 / size.max(64) as u64).max(2_000);
    for (from, to) in [(-6.0, -5.0), (-5.0, -4.0), (-4.0, -3.0), (-3.0, -2.0), (-2.0, -1.0)] {
        for wide in [16, 64, 256, 1_024, EDGE_MOST] {
            let what = format!("flat, slopes 1e{from} to 1e{to}, box {wide} wide, across its top or bottom");
            share(&what, lines(wide), seed, |r| flat(r, wide, (from, to)));
        }
    }
    for (from, to) in [(-8.0, -7.0), (-7.0, -6.0), (-6.0, -5.0), (-5.0, -4.0), (-4.0, -3.0)] {
        for high in [64, 256, 1_024, EDGE_MOST] {
            let what = format!("steep, slopes 1e{from} to 1e{to}, box {high} high, across its side");
            share(&what, lines(high), seed, |r| steep(r, high, (from, to)));
        }
    }
    for size in [256, 1_024, EDGE_MOST - 2] {
        for (from, to) in [(-6.0, -5.0), (-5.0, -4.0), (-4.0, -3.0)] {
            let what = format!("flat, slopes 1e{from} to 1e{to}, {size} wide, in a box a tile larger on every side");
            share(&what, lines(size), seed, |r| roomy(flat(r, size, (from, to))));
            let what = format!("steep, slopes 1e{} to 1e{}, {size} high, in a box a tile larger on every side", from - 2.0, to - 2.0);
            share(&what, lines(size), seed, |r| roomy(steep(r, size, (from - 2.0, to - 2.0))));
        }
    }
    share("sides of outlines", n.max(1_000_000), seed, |r| outline(r, &[(20.0, 20.0), (60.0, 60.0), (200.0, 200.0), (800.0, 800.0)]));
    share("sides of outlines as large as a wall", lines(EDGE_MOST), seed, |r| {
        outline(r, &[(7_000.0, 7_000.0), (32_000.0, 1_500.0), (1_500.0, 32_000.0)])
    });
    let wrong = [3, 4, 5, 8, 9, 11];
    wrong.iter().all(|&k| all.found[k].number == 0)
}
