//! The picture is a function of the lines: frame, lists and fine, and the stages one by one, beside the page that knows of no memory.

use crate::frame::{self, Memory};
use crate::stage::{hex, same, same_words, Sides, Stage};
use crate::table::Table;
use crate::write_lists::{fills_alone, near_boxes, paints, without_path};
use cases::memory::{as_f32, Lent};
use cases::{lines, scene, Rng};
use rules::limits::{LINE, NO_ROOM, PAINT, REF, REGION, SEGMENT, TOO_LONG};
use rules::lists::Tables;
use rules::records::{box_at, line_floats, paint_words, path, paths_in, segments_in};

/// The pixels of a tile's side.
const SIDE: usize = 16;

pub const LINKED: bool =
    ours::has::FRAME && ours::has::LISTS && ours::has::FINE && ours::has::COUNT && ours::has::BACKDROP && ours::has::HAND_OUT && ours::has::TILE;

#[derive(Clone, Debug)]
pub struct Case {
    pub frame: frame::Case,
    pub paints: Vec<u32>,
    pub cols: u32,
    pub rows: u32,
    pub width: u32,
    /// The words lent hold anything.
    pub words: usize,
    pub pixels: Vec<u32>,
    /// Where batches and ranges are cut, which float is changed to what, and the other order of the lines.
    seed: u64,
}

pub struct Picture;

/// The calls from lines to pixels, ours or the rules'.
struct Calls {
    frame: FrameCall,
    count: fn(&[u32], &[f32], &[u32], &mut [i32], &mut [u32], &mut [u32], u32, &mut u32, &mut u32, &mut u32) -> u32,
    backdrop: fn(&[u32], &mut [i32], &mut u32) -> u32,
    hand_out: fn(&mut [u32], &mut [u32], u32) -> u32,
    tile: fn(&[u32], &[f32], &[u32], &[u32], &[u32], u32, u32, &mut [f32], &mut [u32], &mut u32) -> u32,
    write_lists: fn(&[u32], &[u32], &[i32], &[u32], &[u32], u32, u32, u32, &mut [u32], &mut u32) -> u32,
    fine: fn(&[u32], &[f32], u32, u32, u32, u32, u32, &mut [u32], &mut u32) -> u32,
}

#[rustfmt::skip]
type FrameCall = fn(
    &[u32], &[f32], &[u32], &mut [i32], &mut [u32], &mut [u32], &mut [u32], &mut [f32], &mut [u32], &mut u32, &mut u32, &mut u32, &mut u32,
) -> u32;

macro_rules! calls {
    ($side:ident) => {
        Calls {
            frame: $side::frame,
            count: $side::count,
            backdrop: $side::backdrop,
            hand_out: $side::hand_out,
            tile: $side::tile,
            write_lists: $side::write_lists,
            fine: $side::fine,
        }
    };
}

/// Some cuts of 0..=n, in order, n the last.
fn cuts(rng: &mut Rng, n: u32) -> Vec<u32> {
    let mut out: Vec<u32> = (0..rng.below(5)).map(|_| rng.below(n as u64 + 1) as u32).collect();
    out.push(n);
    out.sort_unstable();
    out
}

impl Calls {
    /// What a frame leaves, or its refusal.
    fn framed(&self, f: &frame::Case) -> Result<Memory, u32> {
        let mut memory = Memory::of(f);
        let number =
            memory.lend(|b, t, y, r, s, g| (self.frame)(&f.path_nos, as_f32(&f.coords), &f.paths, b, t, y, r, s, g, &mut 0, &mut 0, &mut 0, &mut 0));
        if number == 0 {
            Ok(memory)
        } else {
            Err(number)
        }
    }

    /// What the stages leave, one by one: lines in batches, references in ranges.
    fn by_stages(&self, f: &frame::Case, rng: &mut Rng) -> Result<Memory, String> {
        let mut memory = Memory::of(f);
        let coords = as_f32(&f.coords);
        memory.lend(|b, t, y, r, s, g| -> Result<(), String> {
            let (mut lines, mut made, mut item) = (0, 0, 0);
            b.fill(0);
            t.fill(0);
            for end in cuts(rng, f.path_nos.len() as u32) {
                let number = (self.count)(&f.path_nos, coords, &f.paths, b, t, r, end, &mut lines, &mut made, &mut item);
                same("answer of a batch of a done frame", number, 0)?;
            }
            same("answer of its sums", (self.backdrop)(&f.paths, b, &mut item), 0)?;
            same("answer of its hand-out", (self.hand_out)(t, y, segments_in(s) as u32), 0)?;
            let mut from = 0;
            for to in cuts(rng, made) {
                let number = (self.tile)(&f.path_nos, coords, &f.paths, t, r, from, to, s, g, &mut item);
                same("answer of a range of its references", number, 0)?;
                from = to;
            }
            Ok(())
        })?;
        Ok(memory)
    }

    /// The lists over what a done frame left, or their refusal: 15, or 9 for want of words.
    fn lists(&self, case: &Case, left: &Memory, words: usize) -> Result<Result<Lent, u32>, String> {
        let [b, t, y, _, s, _] = &left.0;
        let mut rng = Rng::new(case.seed ^ words as u64);
        let mut lent = Lent::new(&(0..words).map(|_| rng.u32()).collect::<Vec<u32>>());
        let (paths, room) = (&case.frame.paths, segments_in(s.u32s()) as u32);
        let number = (self.write_lists)(paths, &case.paints, b.i32s(), t.u32s(), y.u32s(), case.cols, case.rows, room, lent.u32s_mut(), &mut 0);
        same("guards of the words", lent.guards_stand(), true)?;
        match number {
            0 => Ok(Ok(lent)),
            TOO_LONG => Ok(Err(number)),
            NO_ROOM if words < case.plenty() => {
                let more = self.lists(case, left, case.plenty())?;
                same("answer of the lists with words enough isn't 9", more.err() == Some(NO_ROOM), false)?;
                Ok(Err(number))
            }
            _ => Err(format!("answer of the lists over a done frame: {number}")),
        }
    }

    /// The pixels that fine shows of the lists, screen tiles in ranges; a refusal of the lists.
    fn shown(&self, case: &Case, left: &Memory, rng: &mut Rng) -> Result<Result<Vec<u32>, u32>, String> {
        let words = match self.lists(case, left, case.words)? {
            Ok(words) => words,
            Err(number) => return Ok(Err(number)),
        };
        let mut pixels = Lent::new(&case.pixels);
        let mut from = 0;
        for to in cuts(rng, case.cols * case.rows) {
            let (words, segments) = (words.u32s(), left.0[4].f32s());
            let number = (self.fine)(words, segments, case.width, case.cols, case.rows, from, to, pixels.u32s_mut(), &mut 0);
            same("answer of fine over the lists of a done frame", number, 0)?;
            from = to;
        }
        same("guards of the pixels", pixels.guards_stand(), true)?;
        Ok(Ok(pixels.u32s().to_vec()))
    }

    /// The same of a frame that must be drawn whole where `case` is.
    fn must_show(&self, case: &Case, left: &Memory, rng: &mut Rng) -> Result<Vec<u32>, String> {
        self.shown(case, left, rng)?.map_err(|number| format!("answer of the lists: {number}, not 0"))
    }
}

impl Case {
    /// Words enough for any lists that 15 doesn't refuse: two commands to a path, ten paths to a region at least.
    fn plenty(&self) -> usize {
        REGION * (self.cols * self.rows) as usize * (2 + paths_in(&self.frame.paths) / 10)
    }

    pub fn page(&self) -> Vec<u32> {
        let f = &self.frame;
        rules::picture_of(&f.path_nos, as_f32(&f.coords), &f.paths, &self.paints, self.cols, self.rows, self.width, &self.pixels)
    }

    /// A screen somewhat wider and higher than its tiles.
    fn over(rng: &mut Rng, frame: frame::Case, paints: Vec<u32>, cols: u32, rows: u32) -> Case {
        let width = SIDE as u32 * cols + rng.pick(&[0, 0, 1, 5]);
        let number = (width * SIDE as u32 * rows) as usize + rng.below(20) as usize;
        let pixels = (0..number).map(|_| rng.u32()).collect();
        let mut case = Case { frame, paints, cols, rows, width, words: 0, pixels, seed: rng.u64() };
        case.words = case.plenty();
        case
    }
}

/// A closed outline about the box: its corners are in it, on its edges and outside.
fn outline(rng: &mut Rng, b: [u32; 4]) -> Vec<[f32; LINE]> {
    let side = |v: u32| (SIDE as u32 * v) as f32;
    let margin = rng.pick(&[-4.0, 0.0, 9.0, 30.0]);
    let grid = rng.pick(&[0.0, 0.0, 1.0, 16.0]);
    let mut along = |lo: u32, hi: u32| {
        let v = rng.between(side(lo) - margin, side(hi) + margin);
        if grid > 0.0 {
            (v / grid).round() * grid
        } else {
            v
        }
    };
    let corners: Vec<[f32; 2]> = (0..3 + b[2] % 4).map(|_| [along(b[0], b[2]), along(b[1], b[3])]).collect();
    let next = |k: usize| corners[(k + 1) % corners.len()];
    corners.iter().enumerate().map(|(k, p)| [p[0], p[1], next(k)[0], next(k)[1]]).collect()
}

/// Lines of several paths: some of them outlines, some of any kind.
fn some_lines(rng: &mut Rng, paths: &[u32]) -> (Vec<u32>, Vec<u32>) {
    let loose = rng.range(0, 12) as usize;
    let families: &[usize] = if rng.one_in(12) { &frame::ODD } else { &frame::CALM };
    let (mut path_nos, mut coords) = frame::lines_of(rng, families, paths, loose);
    for p in (0..paths_in(paths)).filter(|_| rng.coin()).collect::<Vec<_>>() {
        for line in outline(rng, box_at(paths, p)) {
            path_nos.push(p as u32);
            coords.extend(line.map(f32::to_bits));
        }
    }
    (path_nos, coords)
}

/// So many paths on one screen tile that its commands are near the limit, each of one line: through the tile, or left of it.
fn long(rng: &mut Rng) -> Case {
    let n = rng.range(1_940, 2_010) as usize;
    let fills = rng.pick(&[0, 10, n]);
    let paths: Vec<u32> = (0..n).flat_map(|k| path([0, 0, 1, 1], k as u32)).collect();
    let line = |k: usize| if k < fills { [3.0, 15.0, 9.0, 2.0] } else { [-5.0, 20.0, -5.0, -3.0f32] };
    let lines = ((0..n as u32).collect(), (0..n).flat_map(line).map(f32::to_bits).collect());
    let (frame, paints) = (frame::of_lines(rng, lines, paths, n), paints(rng, n));
    Case::over(rng, frame, paints, 1, 1)
}

/// Another order of the lines, each path's own order kept.
fn in_another_order(rng: &mut Rng, f: &frame::Case) -> frame::Case {
    let mut out = f.clone();
    for k in (1..out.path_nos.len()).rev() {
        out.path_nos.swap(k, rng.below(k as u64 + 1) as usize);
    }
    let mut next = vec![0; paths_in(&f.paths)];
    out.coords.clear();
    for &p in &out.path_nos {
        let from = &mut next[p as usize];
        let l = *from + f.path_nos[*from..].iter().position(|&no| no == p).expect("as many lines of each path");
        *from = l + 1;
        out.coords.extend(&f.coords[line_floats(l)]);
    }
    out
}

/// The frame with one float of one line changed, that line's path, and room for more references.
fn one_float_changed(rng: &mut Rng, f: &frame::Case) -> Option<(frame::Case, usize)> {
    let mut out = f.clone();
    let l = rng.below(f.path_nos.len() as u64) as usize;
    let p = *f.path_nos.get(l)? as usize;
    let k = line_floats(l).start + rng.below(LINE as u64) as usize;
    let (was, b) = (f32::from_bits(out.coords[k]), box_at(&f.paths, p).map(i64::from));
    let family = rng.pick(&frame::CALM);
    let now = match rng.below(4) {
        0 => cases::floats::near(rng, was, 4),
        1 => was + rng.between(-2.0, 2.0),
        2 => was + rng.between(-40.0, 40.0),
        _ => lines::of_family(rng, family, &b)[k % LINE],
    };
    out.coords[k] = now.to_bits();
    let more = 200;
    out.refs.resize(out.refs.len() + REF * more, 0);
    out.segments.resize(out.segments.len() + SEGMENT * more, 0);
    out.tags.resize(out.tags.len() + more, 0);
    (now.to_bits() != was.to_bits()).then_some((out, p))
}

const SHOWN: &str = "pictures beside the page";
const CHANGED: &str = "pictures with one float changed";
const CHANGED_SHOWS: &str = "of them, pixels of the box that changed";
const TOGETHER: &str = "tiles with several paths";
const SHORT: &str = "lists refused for want of words";
const LONG: &str = "lists refused for their length";

impl Stage for Picture {
    type Case = Case;
    const NAME: &'static str = "picture";
    /// The frame's answer, or that of the lists. Where it isn't 0 nothing is claimed.
    const REACHED: &'static [u32] = &[0];
    const LEAST: u64 = if ours::BRIDGED { 1_500 } else { 4_000 };

    fn make(&self, rng: &mut Rng) -> Case {
        if rng.one_in(100) {
            return long(rng);
        }
        let n = rng.range(1, 6) as usize;
        let (paths, tiles) = near_boxes(rng, n, 4);
        let (lines, paints) = (some_lines(rng, &paths), paints(rng, n));
        let mut frame = frame::of_lines(rng, lines, paths, tiles);
        if rng.coin() {
            frame = in_another_order(rng, &frame);
        }
        let (cols, rows) = (rng.range(0, 5) as u32, rng.range(0, 4) as u32);
        let mut case = Case::over(rng, frame, paints, cols, rows);
        case.words = match rng.below(16) {
            0 => rng.below(REGION as u64 * (cols * rows) as u64 + 1) as usize,
            _ => REGION * (cols * rows) as usize + rng.below(3) as usize,
        };
        case
    }

    fn check(&self, case: &Case, sides: Sides, table: &mut Table) -> Result<(), String> {
        let calls = if sides.ours { calls!(ours) } else { calls!(rules) };
        let mut rng = Rng::new(case.seed);
        let shown = match calls.framed(&case.frame) {
            Ok(left) => calls.shown(case, &left, &mut rng)?.inspect_err(|&number| lists_refused(number, table)),
            Err(number) => Err(number),
        };
        table.answer(shown.as_ref().err().copied().unwrap_or(0));
        let Ok(pixels) = shown else { return Ok(()) };
        let page = case.page();
        same_words("pixels beside the page", &pixels, &page)?;
        table.add(SHOWN, 1);
        table.add("pixels beside the page", (SIDE * SIDE * (case.cols * case.rows) as usize) as u64);
        table.add(TOGETHER, case.tiles_together());
        let stages = calls.by_stages(&case.frame, &mut rng)?;
        same_words("pixels of the stages one by one", &calls.must_show(case, &stages, &mut rng)?, &page)?;
        ordered(&calls, case, &page, &mut rng)?;
        isolated(&calls, case, &page, &mut rng, table)?;
        if sides.rust {
            same_words("pixels beside the Rust's stages", &by_the_rust(case)?, &page)?;
            table.add("pictures beside the Rust's stages", 1);
        }
        Ok(())
    }

    fn rows_wanted(&self) -> Vec<(String, u64)> {
        let least = if ours::BRIDGED { 1 } else { 5 };
        let often = [SHOWN, CHANGED, CHANGED_SHOWS, TOGETHER].map(|row| (row.into(), 200 * least));
        often.into_iter().chain([SHORT, LONG].map(|row| (row.into(), least))).collect()
    }

    fn smaller(&self, case: &Case) -> Vec<Case> {
        let mut out = vec![];
        if case.cols > 0 && case.rows > 0 {
            let mut low = case.clone();
            low.rows -= 1;
            out.push(low);
        }
        for k in (0..paths_in(&case.frame.paths)).take(100) {
            let mut c = case.clone();
            c.frame = without_path(&case.frame, k);
            c.paints.drain(paint_words(k));
            out.push(c);
        }
        out.extend(frame::Frame.smaller(&case.frame).into_iter().map(|frame| Case { frame, ..case.clone() }));
        out
    }

    fn show(&self, case: &Case) -> String {
        format!(
            "{}\n  paints {}\n  columns {}, rows {}, width {}, words {}, seed {:x}",
            frame::Frame.show(&case.frame),
            hex(&case.paints[..case.paints.len().min(PAINT * 100)]),
            case.cols,
            case.rows,
            case.width,
            case.words,
            case.seed
        )
    }
}

impl Case {
    /// The path's box has the screen tile at x, y.
    fn has(&self, p: usize, x: u32, y: u32) -> bool {
        let [x0, y0, x1, y1] = box_at(&self.frame.paths, p);
        (x0..x1).contains(&x) && (y0..y1).contains(&y)
    }

    fn tiles_together(&self) -> u64 {
        let several = |t: &u32| (0..paths_in(&self.frame.paths)).filter(|&p| self.has(p, t % self.cols, t / self.cols)).count() > 1;
        (0..self.cols * self.rows).filter(several).count() as u64
    }
}

fn lists_refused(number: u32, table: &mut Table) {
    table.add(if number == NO_ROOM { SHORT } else { LONG }, 1);
}

/// Lines of different paths in another order, each path's own order kept: no pixel is another.
fn ordered(calls: &Calls, case: &Case, page: &[u32], rng: &mut Rng) -> Result<(), String> {
    let other = in_another_order(rng, &case.frame);
    let left = calls.framed(&other).map_err(|number| format!("answer with the lines in another order: {number}, not 0"))?;
    same_words("pixels with the lines in another order", &calls.must_show(case, &left, rng)?, page)
}

/// One float of one line changed: what isn't of its path's box is as it was; all of it is the page's.
fn isolated(calls: &Calls, case: &Case, page: &[u32], rng: &mut Rng, table: &mut Table) -> Result<(), String> {
    let Some((frame, p)) = one_float_changed(rng, &case.frame) else { return Ok(()) };
    let changed = Case { frame, ..case.clone() };
    let pixels = match calls.framed(&changed.frame) {
        Ok(left) => calls.shown(&changed, &left, rng)?,
        Err(number) => Err(number),
    };
    let Ok(pixels) = pixels else {
        table.add("refused with one float changed", 1);
        return Ok(());
    };
    let mut here = 0;
    for (k, _) in pixels.iter().zip(page).enumerate().filter(|(_, (now, was))| now != was) {
        let (column, row) = (k % case.width as usize, k / case.width as usize);
        let (x, y) = ((column / SIDE) as u32, (row / SIDE) as u32);
        let on_box = x < case.cols && y < case.rows && case.has(p, x, y);
        same(&format!("pixels: column {column}, row {row} is of path {p}'s box, whose line was changed"), on_box, true)?;
        here += 1;
    }
    same_words("pixels beside the page, one float changed", &pixels, &changed.page())?;
    table.add(CHANGED, 1);
    table.add(CHANGED_SHOWS, here);
    Ok(())
}

/// The same lines by the Rust's own counting, sums and tiling, hand-out by its rule, and fine.rs over each tile's paths in order.
fn by_the_rust(case: &Case) -> Result<Vec<u32>, String> {
    let f = &case.frame;
    let coords = as_f32(&f.coords);
    let mut memory = Memory::of(f);
    let ran = memory.lend(|b, t, y, r, s, _| -> Result<(), oracle::Stopped> {
        b.fill(0);
        t.fill(0);
        let made = oracle::count(&f.path_nos, coords, &f.paths, b, t, r, 0, f.path_nos.len(), 0)?;
        oracle::backdrop(&f.paths, b)?;
        rules::hand_out(t, y, segments_in(s) as u32);
        oracle::tile(&f.path_nos, coords, &f.paths, t, r, 0, made as usize, s)
    });
    ran.map_err(|_| "the Rust panicked")?;
    let [b, t, y, _, s, _] = &memory.0;
    let tables = Tables { paths: &f.paths, paints: &case.paints, backdrops: b.i32s(), stored: t.u32s(), tally: y.u32s() };
    let records = oracle::segments_of(s.f32s());
    let mut pixels = case.pixels.clone();
    for (x, y) in (0..case.rows as usize).flat_map(|y| (0..case.cols as usize).map(move |x| (x, y))) {
        let shown = oracle::fine_tile(fills_alone(&tables, x as i64, y as i64).theirs().for_tile(1), &records).map_err(|_| "the Rust panicked")?;
        for (row, sixteen) in shown.chunks_exact(SIDE).enumerate() {
            let base = case.width as usize * (SIDE * y + row) + SIDE * x;
            pixels[base..base + SIDE].copy_from_slice(sixteen);
        }
    }
    Ok(pixels)
}

/// Every pixel of the demo scene, by ours beside the page.
pub fn scene() -> bool {
    let mut rng = Rng::new(29);
    let (path_nos, coords) = scene::lines();
    let lines = (path_nos, coords.into_iter().map(f32::to_bits).collect::<Vec<u32>>());
    let paths = scene::PATHS.to_vec();
    let mut frame = frame::of_lines(&mut rng, lines, paths, scene::tiles());
    let room = 1 << 16;
    (frame.refs, frame.segments, frame.tags) = (vec![0; REF * room], vec![0; SEGMENT * room], vec![0; room]);
    let case = Case::over(&mut rng, frame, scene::PAINTS.to_vec(), scene::COLS, scene::ROWS);
    let mut table = Table::default();
    let said = Picture.check(&case, Sides { ours: true, rust: oracle::AT_HAND }, &mut table);
    let shown = table.get(SHOWN) == 1;
    match said {
        Ok(()) if shown => println!("picture: all {} pixels of the demo scene are the page's", table.get("pixels beside the page")),
        Ok(()) => println!("DIFFERENT: picture, the demo scene isn't drawn"),
        Err(ref said) => println!("DIFFERENT: picture, the demo scene: {said}"),
    }
    said.is_ok() && shown
}
