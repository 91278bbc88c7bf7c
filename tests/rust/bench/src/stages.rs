//! One function for each stage.

use crate::scenes::{moved, segments, Kind, Scene, KINDS};
use crate::{in_turn, measured, row, timed, Times};
use cases::commands::{Command, OURS, RUST};
use cases::memory::one_zero;
use cases::Rng;
use oracle::{BumpAllocators, PathSegment, SegmentCount, Tile};
use rules::limits::{LINE, REF, REGION, SEGMENT};
use rules::records::{beam_at, box_at, paint, path, segments_in};
use std::hint::black_box;

/// The sizes that show the growth.
const LINES: [usize; 3] = [2_000, 20_000, 60_000];

macro_rules! std_helper {
    ($($name:ident),*) => { mod std_helpers { $(#[inline(never)] pub fn $name(x: f32) -> f32 { x.$name() })* } };
}
std_helper!(floor, ceil, round);

/// The Rust's helpers over many operands as `ours::many` has ours: three operands are read, and the number chooses.
fn std_many(helper: u32, xs: [&[u32]; 3], out: &mut [u32]) {
    for (k, o) in out.iter_mut().enumerate() {
        *o = std_one(helper, [xs[0][k], xs[1][k], xs[2][k]]);
    }
}

fn std_one(helper: u32, [x, y, z]: [u32; 3]) -> u32 {
    let answer = match helper {
        0x01 => std_helpers::floor(f32::from_bits(x)),
        0x02 => std_helpers::ceil(f32::from_bits(x)),
        0x03 => std_helpers::round(f32::from_bits(x)),
        0x10 => f32::from_bits(x).min(f32::from_bits(y)),
        0x20 => f32::from_bits(x).max(f32::from_bits(y)).min(f32::from_bits(z)),
        _ => panic!("no helper {helper:02x}"),
    };
    answer.to_bits()
}

pub fn floats(rounds: usize) {
    let mut rng = Rng::new(5);
    let xs: Vec<u32> = (0..100_000).map(|_| rng.between(-2_000.0, 2_000.0).to_bits()).collect();
    for (name, number) in [("floor", 0x01), ("ceil", 0x02), ("round", 0x03)] {
        let (mut theirs, mut mine) = (vec![0; xs.len()], vec![0; xs.len()]);
        let number = black_box(number);
        let times = measured(
            xs.len(),
            rounds,
            || timed(|| std_many(number, [&xs, &xs, &xs], &mut theirs)),
            || timed(|| ours::many(number, [&xs, &xs, &xs], &mut mine)),
        );
        assert_eq!(theirs, mine);
        row(name, "call", &[xs.len()], &[times]);
    }
}

pub fn backdrop(rounds: usize) {
    let sizes = [1, 10, 100];
    row("backdrop, paths of 50 by 40", "tile", &sizes, &sizes.map(|n| sums(n, rounds)));
}

fn sums(n: u32, rounds: usize) -> Times {
    let paths: Vec<u32> = (0..n).flat_map(|k| path([0, 0, 50, 40], 2_000 * k)).collect();
    let before: Vec<i32> = (0..2_000 * n as i32).map(|k| k % 7 - 3).collect();
    let records = oracle::paths_of(&paths);
    let cleared: Vec<Tile> = before.iter().map(|&backdrop| Tile { backdrop, segment_count_or_ix: 0 }).collect();
    let (mut tiles, mut mine) = (cleared.clone(), before.clone());
    let times = measured(
        before.len(),
        rounds,
        || {
            tiles.copy_from_slice(&cleared);
            timed(|| oracle::raw::backdrop(&records, &mut tiles))
        },
        || {
            mine.copy_from_slice(&before);
            timed(|| assert_eq!(ours::backdrop(&paths, &mut mine, &mut 0), 0))
        },
    );
    assert!(tiles.iter().map(|t| t.backdrop).eq(mine.iter().copied()));
    times
}

pub fn count(rounds: usize) {
    for (kind, name) in KINDS {
        row(&format!("count, lines {name}"), "line", &LINES, &LINES.map(|n| count_scene(kind, n, rounds)));
    }
}

fn count_scene(kind: Kind, n: usize, rounds: usize) -> Times {
    let scene = Scene::new(kind, n);
    let lines = oracle::lines_of(&scene.path_nos, &scene.coords);
    let paths = oracle::paths_of(&scene.paths);
    let mut tiles = vec![Tile::default(); scene.tiles];
    let mut records = vec![SegmentCount::default(); scene.room];
    let (mut backs, mut counts, mut refs) = (vec![0; scene.tiles], vec![0; scene.tiles], vec![0; REF * scene.room]);
    let times = measured(
        n,
        rounds,
        || {
            tiles.fill(Tile::default());
            records.fill(SegmentCount::default());
            let mut bump = BumpAllocators { lines: n as u32, seg_counts: 0 };
            timed(|| oracle::raw::count(&mut bump, &lines, &paths, &mut tiles, &mut records))
        },
        || {
            backs.fill(0);
            counts.fill(0);
            refs.fill(0);
            let (mut l, mut m, mut i) = (0, 0, 0);
            timed(|| {
                let no =
                    ours::count(&scene.path_nos, &scene.coords, &scene.paths, &mut backs, &mut counts, &mut refs, n as u32, &mut l, &mut m, &mut i);
                assert_eq!(no, 0);
            })
        },
    );
    assert!(tiles.iter().map(|t| t.backdrop).eq(backs.iter().copied()));
    assert!(tiles.iter().map(|t| t.segment_count_or_ix).eq(counts.iter().copied()));
    assert!(records.iter().flat_map(oracle::words_of).eq(refs.iter().copied()));
    times
}

pub fn tile(rounds: usize) {
    for (kind, name) in KINDS {
        row(&format!("tile, lines {name}"), "reference", &LINES, &LINES.map(|n| tile_scene(kind, n, rounds)));
    }
}

fn tile_scene(kind: Kind, n: usize, rounds: usize) -> Times {
    let scene = Scene::new(kind, n);
    let counted = scene.counted();
    let lines = oracle::lines_of(&scene.path_nos, &scene.coords);
    let paths = oracle::paths_of(&scene.paths);
    let tiles: Vec<Tile> = counted.stored.iter().map(|&i| Tile { backdrop: 0, segment_count_or_ix: i }).collect();
    let mut records = vec![PathSegment::default(); scene.room];
    let (mut mine, mut tags) = (vec![0.0f32; SEGMENT * scene.room], vec![0; scene.room]);
    let all = scene.room as u32;
    let times = measured(
        scene.room,
        rounds,
        || {
            records.fill(PathSegment::default());
            let mut bump = BumpAllocators { lines: n as u32, seg_counts: all };
            timed(|| oracle::raw::tile(&mut bump, &counted.records, &lines, &paths, &tiles, &mut records))
        },
        || {
            mine.fill(0.0);
            tags.fill(0);
            let (s, c) = (&scene, &counted);
            timed(|| {
                let no = ours::tile(&s.path_nos, &s.coords, &s.paths, &c.stored, &c.refs, 0, all, &mut mine, &mut tags, &mut 0);
                assert_eq!(no, 0);
            })
        },
    );
    assert!(same_segments(&records, &mine) && tags.iter().all(|&tag| tag == beam_at(&scene.paths, 0)));
    times
}

fn same_segments(theirs: &[PathSegment], mine: &[f32]) -> bool {
    let theirs = theirs.iter().flat_map(oracle::floats_of);
    theirs.map(f32::to_bits).eq(mine.iter().map(|v| v.to_bits()))
}

pub fn fill(rounds: usize) {
    let sizes = [1, 10, 100];
    for (even_odd, rule) in [(0, "non-zero"), (1, "even-odd")] {
        row(&format!("fill, segments, {rule}"), "fill", &sizes, &sizes.map(|n| one_fill(n, even_odd, rounds)));
    }
}

fn one_fill(n: usize, even_odd: u32, rounds: usize) -> Times {
    let list = segments(&mut Rng::new(n as u64), n);
    let records = oracle::segments_of(&list);
    let (mut theirs, mut mine) = ([0.0f32; 256], [0.0f32; 256]);
    let again = 2_000 / n + 1;
    let words = [(n as u32) << 1 | even_odd, 0, 1];
    let times = measured(
        again,
        rounds,
        || timed(|| (0..again).for_each(|_| oracle::raw::fill(black_box(&mut theirs), &records, words, 0.0, 0.0))),
        || timed(|| (0..again).for_each(|_| assert_eq!(ours::fill(&list, 0, n as u32, even_odd, 1, 0.0, 0.0, black_box(&mut mine)), 0))),
    );
    assert_eq!(theirs.map(|a| one_zero(a.to_bits())), mine.map(|a| one_zero(a.to_bits())));
    times
}

/// Segments of each FILL, and a tile's commands: FILL, COLOR, SOLID, COLOR, FILL, COLOR.
const FILLS: [u32; 2] = [4, 10];

pub fn fine(rounds: usize) {
    let sizes = [(10, 8), (50, 40), (100, 80)];
    let names = sizes.map(|(cols, rows)| format!("{cols} by {rows}"));
    row("fine, a screen of tiles", "tile", &names, &sizes.map(|(cols, rows)| fine_screen(cols, rows, rounds)));
}

fn fine_screen(cols: u32, rows: u32, rounds: usize) -> Times {
    let tiles = cols * rows;
    let mut rng = Rng::new(tiles as u64);
    let (mut words, mut theirs) = (vec![0; REGION * tiles as usize], vec![0; REGION * tiles as usize]);
    let (mut list, mut records): (Vec<f32>, Vec<PathSegment>) = (vec![], vec![]);
    for t in 0..tiles {
        let start = REGION * t as usize + 1;
        let (mut at, mut their_at) = (start, start);
        let mut put = |command: Command| {
            at = OURS.put(&mut words, at, command, 0);
            their_at = RUST.put(&mut theirs, their_at, command, 0);
        };
        for (k, n) in FILLS.into_iter().enumerate() {
            let first = segments_in(&list) as u32;
            let more = segments(&mut rng, n as usize);
            records.extend(moved(&more, 16.0 * (t % cols) as f32, 16.0 * (t / cols) as f32));
            list.extend(more);
            put(Command::Fill { number: n, even_odd: k == 1, first, backdrop: 0 });
            put(Command::Color(rng.u32()));
            if k == 0 {
                put(Command::Solid);
                put(Command::Color(rng.u32() & 0xffff_ff80));
            }
        }
        put(Command::End);
    }
    let (width, pixels) = (16 * cols, (256 * tiles) as usize);
    let mut mine = vec![0; pixels];
    let mut screen = vec![0; pixels];
    measured(
        tiles as usize,
        rounds,
        || {
            let mut taken = std::mem::take(&mut screen);
            taken.fill(0);
            timed(|| screen = oracle::raw::fine(&theirs, &records, cols, rows, taken))
        },
        || {
            mine.fill(0);
            timed(|| assert_eq!(ours::fine(&words, &list, width, cols, rows, 0, tiles, &mut mine, &mut 0), 0))
        },
    )
}

/// The whole frame beside the Rust's stages one after another, with the plain hand-out that the Rust leaves to others.
pub fn frame(rounds: usize) {
    for (kind, name) in KINDS {
        row(&format!("frame, lines {name}"), "line", &LINES, &LINES.map(|n| frame_scene(kind, n, rounds)));
    }
}

fn frame_scene(kind: Kind, n: usize, rounds: usize) -> Times {
    let scene = Scene::new(kind, n);
    let lines = oracle::lines_of(&scene.path_nos, &scene.coords);
    let paths = oracle::paths_of(&scene.paths);
    let mut tiles = vec![Tile::default(); scene.tiles];
    let mut counts = vec![0; scene.tiles];
    let mut refs = vec![SegmentCount::default(); scene.room];
    let mut records = vec![PathSegment::default(); scene.room];
    let (mut backs, mut stored, mut tally) = (vec![0; scene.tiles], vec![0; scene.tiles], vec![0; scene.tiles]);
    let (mut mine_refs, mut mine, mut tags) = (vec![0; REF * scene.room], vec![0.0f32; SEGMENT * scene.room], vec![0; scene.room]);
    let times = measured(
        n,
        rounds,
        || {
            refs.fill(SegmentCount::default());
            records.fill(PathSegment::default());
            timed(|| {
                tiles.fill(Tile::default());
                let mut bump = BumpAllocators { lines: n as u32, seg_counts: 0 };
                oracle::raw::count(&mut bump, &lines, &paths, &mut tiles, &mut refs);
                oracle::raw::backdrop(&paths, &mut tiles);
                hand_out(&mut tiles, &mut counts);
                oracle::raw::tile(&mut bump, &refs, &lines, &paths, &tiles, &mut records);
            })
        },
        || {
            mine_refs.fill(0);
            mine.fill(0.0);
            tags.fill(0);
            let s = &scene;
            let [mut stage, mut item, mut lines, mut made] = [0; 4];
            timed(|| {
                let (told, counted) = ((&mut stage, &mut item), (&mut lines, &mut made));
                let (b, y, r, g) = (&mut backs, &mut tally, &mut mine_refs, &mut tags);
                let no = ours::frame(&s.path_nos, &s.coords, &s.paths, b, &mut stored, y, r, &mut mine, g, told.0, told.1, counted.0, counted.1);
                assert_eq!(no, 0);
            })
        },
    );
    assert!(tiles.iter().map(|t| (t.backdrop, t.segment_count_or_ix)).eq(backs.iter().copied().zip(stored.iter().copied())));
    assert!(counts == tally && same_segments(&records, &mine));
    times
}

#[inline(never)]
fn hand_out(tiles: &mut [Tile], counts: &mut [u32]) {
    let mut next = 0;
    for (tile, kept) in tiles.iter_mut().zip(counts) {
        *kept = tile.segment_count_or_ix;
        tile.segment_count_or_ix = if *kept > 0 { !next } else { 0 };
        next += *kept;
    }
}

/// A recount of one path beside a count of its lines alone, and of the whole frame: 64 paths, each with as many lines over as many tiles. What its
/// range costs is what a recount of no line takes above a count of no line.
pub fn recount(rounds: usize) {
    for (kind, name) in KINDS {
        for n in [20, 300] {
            let [frame, own, again, no_count, no_recount] = one_path(kind, n, rounds).map(|seconds| 1e9 * seconds);
            let range = no_recount - no_count;
            let (whole, less) = (again / frame, (again - range) / own);
            println!("| lines {name} | {n} | {frame:.0} | {own:.0} | {again:.0} | {range:.0} | {whole:.4} | {less:.2} |");
        }
    }
}

const PATHS: usize = 64;

/// So many calls are timed at once.
const CALLS: usize = 20;

/// The frame's count, a count of one path's lines, their recount; a count and a recount of no line.
fn one_path(kind: Kind, n: usize, rounds: usize) -> [f64; 5] {
    let scene = Scene::new(kind, n);
    let of = box_at(&scene.paths, 0);
    let paths: Vec<u32> = (0..PATHS).flat_map(|p| path(of, (p * scene.tiles) as u32)).collect();
    let path_nos: Vec<u32> = (0..PATHS as u32).flat_map(|p| vec![p; n]).collect();
    let coords = scene.coords.repeat(PATHS);
    let (tiles, moved) = (PATHS * scene.tiles, PATHS as u32 / 2);
    let count = |nos: &[u32], coords: &[f32], backs: &mut [i32], counts: &mut [u32], refs: &mut [u32], calls: usize| {
        backs.fill(0);
        counts.fill(0);
        timed(|| {
            for _ in 0..calls {
                let no = ours::count(black_box(nos), coords, &paths, backs, counts, refs, nos.len() as u32, &mut 0, &mut 0, &mut 0);
                assert_eq!(no, 0);
            }
        }) / calls as f64
    };
    let (mut backs, mut counts, mut refs) = (vec![0; tiles], vec![0; tiles], vec![0; REF * scene.room * PATHS]);
    count(&path_nos, &coords, &mut backs, &mut counts, &mut refs, 1);
    let (mut again, mut tally) = (backs.clone(), counts.clone());
    let (mut none, mut no_counts) = (backs.clone(), counts.clone());
    let (mut alone, mut alone_counts, mut own_refs) = (vec![0; tiles], vec![0; tiles], vec![0; REF * scene.room]);
    let (mut empty, mut empty_counts) = (vec![0; tiles], vec![0; tiles]);
    let (mut own, mut kept_backs, mut kept_counts) = (vec![0; REF * scene.room], vec![0; scene.tiles], vec![0; scene.tiles]);
    let (line_nos, own_nos): (Vec<u32>, Vec<u32>) = ((0..n as u32).map(|l| moved * n as u32 + l).collect(), vec![moved; n]);
    let mut recount = |lines: usize, backs: &mut [i32], counts: &mut [u32]| {
        let (numbers, nos, coords) = (&line_nos[..lines], &own_nos[..lines], &scene.coords[..LINE * lines]);
        timed(|| {
            for _ in 0..CALLS {
                let (kb, kc) = (&mut kept_backs, &mut kept_counts);
                let no = ours::recount(moved, black_box(numbers), nos, coords, &paths, backs, counts, &mut own, kb, kc, &mut 0, &mut 0);
                assert_eq!(no, 0);
            }
        }) / CALLS as f64
    };
    let recount = std::cell::RefCell::new(&mut recount);
    let times = in_turn(
        rounds,
        [
            &mut || count(&path_nos, &coords, &mut backs, &mut counts, &mut refs, 1),
            &mut || count(&own_nos, &scene.coords, &mut alone, &mut alone_counts, &mut own_refs, CALLS),
            &mut || (recount.borrow_mut())(n, &mut again, &mut tally),
            &mut || count(&[], &[], &mut empty, &mut empty_counts, &mut [], CALLS),
            &mut || (recount.borrow_mut())(0, &mut none, &mut no_counts),
        ],
    );
    assert_eq!((backs, counts), (again, tally));
    times
}

/// The pixels of a tile under a list of so many fills of 10 segments each, one call a pixel, beside the tile by one call of fine. Reading is a pixel in a
/// row that no segment reaches: the same words, each segment looked at, nothing added. Beside them the sums of all fills for one pixel in plain Rust.
pub fn pixel(rounds: usize) {
    for fills in [1, 10, 100] {
        let [tile, pixel, reading, plain] = one_pixel(fills, rounds).map(|seconds| 1e9 * seconds);
        let (whole, less) = (pixel / tile, 256.0 * (pixel - reading) / tile);
        println!("| fills of 10 segments | {fills} | {tile:.0} | {pixel:.0} | {reading:.0} | {plain:.0} | {whole:.4} | {less:.2} |");
    }
}

/// Words of so many fills of 10 segments each, each with its COLOR.
fn fill_words(rng: &mut Rng, fills: usize) -> Vec<u32> {
    let mut words = vec![0; 8 * fills + 8];
    let mut at = 1;
    for k in 0..fills {
        let commands = [Command::Fill { number: 10, even_odd: k % 2 == 1, first: 10 * k as u32, backdrop: 0 }, Command::Color(rng.u32())];
        for command in commands {
            at = OURS.put(&mut words, at, command, 0);
        }
    }
    words
}

/// What fine.rs, lines 59 to 93, adds at one pixel for one segment of a tile at 0, 0: the same float operations, nothing checked.
#[inline(always)]
fn step(s: &[f32], column: f32, row: f32, area: f32) -> f32 {
    let (dx, dy) = (s[2] - s[0], s[3] - s[1]);
    let y = s[1] - row;
    let (y0, y1) = (y.clamp(0.0, 1.0), (y + dy).clamp(0.0, 1.0));
    let edge = dx.signum() * (row - s[4] + 1.0).clamp(0.0, 1.0);
    let high = y0 - y1;
    if high == 0.0 {
        return area + edge;
    }
    let recip = 1.0 / dy;
    let (x0, x1) = (s[0] + (y0 - y) * recip * dx, s[0] + (y1 - y) * recip * dx);
    let xmin = (x0.min(x1) - column).min(1.0) - 1.0e-6;
    let xmax = x0.max(x1) - column;
    let b = xmax.min(1.0);
    let (c, d) = (b.max(0.0), xmin.max(0.0));
    area + edge + (b + 0.5 * (d * d - c * c) - xmin) / (xmax - xmin) * high
}

/// The sums of all fills for one pixel.
#[inline(never)]
fn plain_sums(list: &[f32], column: u32, row: u32) -> f32 {
    list.chunks_exact(SEGMENT).fold(0.0, |area, s| step(s, column as f32, row as f32, area))
}

/// A tile by fine; a pixel of it; a pixel that no segment reaches; the sums of all fills for one pixel in plain Rust.
fn one_pixel(fills: usize, rounds: usize) -> [f64; 4] {
    let mut rng = Rng::new(fills as u64);
    let list = segments(&mut rng, 10 * fills);
    // the same segments in the upper half, with no edge
    let upper: Vec<f32> = list.chunks_exact(SEGMENT).flat_map(|s| [s[0], s[1] / 2.0, s[2], s[3] / 2.0, 1e9]).collect();
    let words = fill_words(&mut rng, fills);
    let again = 100 / fills + 1;
    let mut tile = vec![0; 256];
    let (mut mine, mut clear) = (vec![0; 256], vec![0; 128]);
    let pixels = |list: &[f32], first: u32, out: &mut [u32]| {
        timed(|| {
            for (px, k) in out.iter_mut().zip(first..) {
                assert_eq!(ours::pixel(black_box(&words), list, 0, k % 16, k / 16, px), 0);
            }
        }) / out.len() as f64
    };
    let times = in_turn(
        rounds,
        [
            &mut || {
                timed(|| {
                    for _ in 0..again {
                        assert_eq!(ours::fine(&words, &list, 16, 1, 1, 0, 1, black_box(&mut tile), &mut 0), 0);
                    }
                }) / again as f64
            },
            &mut || pixels(&list, 0, &mut mine),
            &mut || pixels(&upper, 128, &mut clear),
            &mut || {
                timed(|| {
                    for k in 0..256 {
                        black_box(plain_sums(black_box(&list), k % 16, k / 16));
                    }
                }) / 256.0
            },
        ],
    );
    assert_eq!(tile, mine);
    times
}

/// A screen of so many tiles, and so many boxes of so many columns and rows that are laid over it: how far each lies from the one before, in
/// columns and in rows, when a row of the screen is full.
struct Cover {
    screen: [u32; 2],
    paths: u32,
    size: [u32; 2],
    down: u32,
}

fn path_over(cover: &Cover, p: u32) -> [u32; rules::limits::PATH] {
    let [w, h] = cover.size;
    let across = cover.screen[0] / w;
    let (x, y) = (p % across * w, p / across * cover.down);
    path([x, y, x + w, y + h], p * w * h)
}

/// The lists of whole screens, which the Rust here lacks: nanoseconds a screen tile, and a covered tile, a tile for each path that lies over
/// it.
pub fn lists(rounds: usize) {
    let (most, side) = (rules::limits::PATHS_MOST as u32, 1_024);
    let covers = [
        Cover { screen: [20, 12], paths: 12, size: [20, 1], down: 1 },
        Cover { screen: [120, 68], paths: 64, size: [120, 1], down: 1 },
        Cover { screen: [120, 68], paths: 64, size: [120, 68], down: 0 },
        Cover { screen: [side, side], paths: most, size: [16, 16], down: 16 },
        Cover { screen: [side, side], paths: most, size: [1, 256], down: 256 },
    ];
    for cover in covers {
        let [cols, rows] = cover.screen;
        let covered = (cover.paths * cover.size[0] * cover.size[1]) as usize;
        let seconds = lists_of(&cover, covered, if covered > 1 << 20 >> 1 { rounds.min(3) } else { rounds });
        let each = |n: usize| 1e9 * seconds / n as f64;
        let (tiles, [w, h]) = ((cols * rows) as usize, cover.size);
        println!(
            "| {cols} by {rows} | {} of {w} by {h} | {covered} | {:.3} | {:.0} | {:.0} |",
            cover.paths,
            1e3 * seconds,
            each(tiles),
            each(covered)
        );
    }
}

fn lists_of(cover: &Cover, covered: usize, rounds: usize) -> f64 {
    let [cols, rows] = cover.screen;
    let paths: Vec<u32> = (0..cover.paths).flat_map(|p| path_over(cover, p)).collect();
    let paints: Vec<u32> = (0..cover.paths).flat_map(|p| paint(0x2040_60ff + p, 0)).collect();
    let backs: Vec<i32> = (0..covered as i32).map(|t| t % 3 - 1).collect();
    let tally: Vec<u32> = (0..covered as u32).map(|t| t % 2).collect();
    let stored: Vec<u32> = (0..covered as u32).map(|t| if t % 2 == 1 { !(t / 2) } else { 0 }).collect();
    let over = (covered as u32).div_ceil(cols * rows);
    let mut words = vec![0; REGION * (cols * rows * (1 + over.div_ceil(10))) as usize];
    let room = covered as u32 / 2;
    let mut once = || timed(|| assert_eq!(ours::write_lists(&paths, &paints, &backs, &stored, &tally, cols, rows, room, &mut words, &mut 0), 0));
    once();
    crate::median((0..rounds).map(|_| once()).collect())
}
