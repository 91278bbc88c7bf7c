//! Hostile input to every exported function: any words and floats in slices of any length, good calls with a few words
//! altered, and now and then a call that leads to a rare answer (`borders`).

use crate::borders;
use crate::calls::{by_ours, by_rules, kind_of, linked, same_outcome, shape, Call, BYTES, NAMES};
use crate::stage::{hex, Sides, Stage};
use crate::table::Table;
use cases::{boxes, floats, lines, segments, texts, Rng};
use rules::limits::{COORD_MOST, COUNT_MOST, EDGE_MOST, LINE, LINES_MOST, PAINT, PATH, PATHS_MOST, REF, REGION, ROOM_MOST, SEGMENT};
use rules::records::{box_at, reference};
use rules::walk::Place;

/// Words at the ends of what a word holds, and at the limits.
const LIMITS: [u32; 11] = [
    u32::MAX,
    1 << 31,
    i32::MAX as u32,
    u32::MAX - 1,
    ROOM_MOST as u32,
    COUNT_MOST as u32,
    LINES_MOST as u32,
    PATHS_MOST as u32,
    EDGE_MOST as u32,
    EDGE_MOST as u32 + 1,
    COORD_MOST.to_bits(),
];

/// The numbers of the calls whose lists may be endless: the screen's, its bands', and a pixel's.
const FINE: u32 = 6;
const PIXEL: u32 = 12;
const FINE_ROWS: u32 = kind_of("fine_rows");
const LISTS: [u32; 3] = [FINE, PIXEL, FINE_ROWS];

const SVG_LINES: u32 = kind_of("svg_lines");

/// The kind of a call of a float helper: its number is the helper's place, its slices the operands.
const HELPER: u32 = 0;

/// A call that is lent NULL for a slice of no elements.
const NULL_ROW: &str = "lent NULL for none";

/// How often each answer of each call is wanted, and each helper.
const LEAST: u64 = if ours::BRIDGED { 1 } else { 50 };

/// The calls whose stage is linked; all of them where only the rules are run.
pub struct Hostile {
    pub kinds: Vec<u32>,
    /// Whether NULL is lent for none: where the archive's own functions are called.
    null: bool,
}

impl Hostile {
    pub fn new(all: bool) -> Hostile {
        let helpers = (!all && ours::has::FLOATS).then_some(HELPER);
        let kinds = (1..NAMES.len() as u32).filter(|&k| all || linked(k)).chain(helpers).collect();
        Hostile { kinds, null: !all && !ours::BRIDGED }
    }
}

fn row(kind: u32, answer: u32) -> String {
    format!("{:<11} answer {answer:2}", NAMES[kind as usize])
}

fn helper_row(place: u32) -> String {
    format!("helper {}", crate::floats::name(place))
}

fn any_helper(rng: &mut Rng) -> Call {
    let numbers = vec![rng.below(crate::floats::HELPERS.len() as u64) as u32];
    let n = rng.below(4);
    Call { kind: HELPER, numbers, slices: (0..3).map(|_| (0..n).map(|_| floats::any_bits(rng)).collect()).collect() }
}

fn any_word(rng: &mut Rng) -> u32 {
    match rng.below(10) {
        0 => rng.u32(),
        1 => rng.pick(&LIMITS),
        2 => floats::any_bits(rng),
        _ => rng.below(9) as u32,
    }
}

/// Closed outlines of some paths, their lines mixed, and now and then a line left out or a point moved by a bit.
fn outlines(rng: &mut Rng, path_count: u32) -> (Vec<u32>, Vec<u32>) {
    let mut rows: Vec<(u32, Vec<[u32; LINE]>)> = vec![];
    for _ in 0..rng.range(0, 4) {
        let corners: Vec<[u32; 2]> = (0..rng.range(1, 4)).map(|_| [0, 0].map(|_: u32| rng.pick(&[0, 1 << 31, 0x4100_0000, 0x4180_0000]))).collect();
        let next = |k: usize| corners[(k + 1) % corners.len()];
        let lines = corners.iter().enumerate().map(|(k, p)| [p[0], p[1], next(k)[0], next(k)[1]]).collect();
        rows.push((rng.below(u64::from(path_count)) as u32, lines));
    }
    // an outline's lines in a row of their own path; outlines of one path one after another
    rows.sort_by_key(|row| row.0);
    let mut queues: Vec<(u32, Vec<[u32; LINE]>)> = vec![];
    for (path, lines) in rows {
        match queues.last_mut().filter(|q| q.0 == path) {
            Some(queue) => queue.1.extend(lines),
            None => queues.push((path, lines)),
        }
    }
    let (mut path_nos, mut coords) = (vec![], vec![]);
    while !queues.is_empty() {
        let k = rng.below(queues.len() as u64) as usize;
        let mut line = queues[k].1.remove(0);
        if rng.one_in(24) {
            line[rng.below(LINE as u64) as usize] ^= rng.pick(&[1, 1 << 31, 0x7fc0_0000]);
        }
        if !rng.one_in(24) {
            path_nos.push(queues[k].0);
            coords.extend(line);
        }
        if queues[k].1.is_empty() {
            queues.swap_remove(k);
        }
    }
    (path_nos, coords)
}

/// A good call of the kind, as far as it goes.
fn good(rng: &mut Rng, kind: u32) -> Call {
    let n_paths = rng.range(0, 3) as usize;
    let (paths, tiles) = boxes::table(rng, n_paths, 5);
    let n = rng.range(0, 5) as usize;
    let b = if paths.is_empty() { [0, 0, 2, 2] } else { box_at(&paths, 0).map(|v| v as i64) };
    let path_nos: Vec<u32> = (0..n).map(|_| rng.below(n_paths.max(1) as u64) as u32).collect();
    let coords: Vec<u32> = (0..n).flat_map(|_| lines::any(rng, &b).1.map(f32::to_bits)).collect();
    let words = |rng: &mut Rng, n: usize| -> Vec<u32> { (0..n).map(|_| rng.below(4) as u32).collect() };
    let list: Vec<u32> = segments::list(rng, n).into_iter().map(f32::to_bits).collect();
    let (numbers, slices) = match kind {
        1 => {
            let refs = REF * rng.below(60) as usize;
            (vec![n as u32, 0, 0], vec![path_nos, coords, paths, words(rng, tiles), words(rng, tiles), words(rng, refs)])
        }
        2 => (vec![], vec![paths, words(rng, tiles)]),
        3 => (vec![rng.below(60) as u32], vec![words(rng, tiles), words(rng, tiles)]),
        4 => {
            let made = rng.below(6) as usize;
            let refs = (0..made).flat_map(|_| reference(rng.below(n.max(1) as u64) as u32, rng.below(3) as u32, rng.below(4) as u32)).collect();
            let stored = (0..tiles).map(|_| if rng.one_in(4) { 0 } else { !(rng.below(20) as u32) }).collect();
            let room = rng.below(30) as usize;
            (vec![0, made as u32], vec![path_nos, coords, paths, stored, refs, words(rng, SEGMENT * room), words(rng, room)])
        }
        5 => {
            let numbers = vec![0, n as u32, rng.below(3) as u32, rng.range(-2, 2) as u32, 0, 0];
            (numbers, vec![list, words(rng, 256)])
        }
        7 => {
            let (refs, room) = (REF * rng.below(60) as usize, rng.below(60) as usize);
            let pieces = [words(rng, SEGMENT * room), words(rng, room)];
            let tables = [words(rng, tiles), words(rng, tiles), words(rng, tiles), words(rng, refs)].into_iter().chain(pieces);
            (vec![], [path_nos, coords, paths].into_iter().chain(tables).collect())
        }
        8 => {
            let (cols, rows) = (rng.below(4) as u32, rng.below(4) as u32);
            let stored = (0..tiles).map(|_| if rng.one_in(4) { 0 } else { !(rng.below(9) as u32) }).collect();
            let room = rng.pick(&[12, 12, 12, 9, u32::MAX]);
            let regions = REGION * (cols * rows) as usize;
            let slices = vec![paths, words(rng, PAINT * n_paths), words(rng, tiles), stored, words(rng, tiles), words(rng, regions)];
            (vec![cols, rows, room], slices)
        }
        9 => {
            let (width, height) = (rng.range(1, 6) as u32, rng.range(1, 4) as u32);
            let room = (3 * width * height) as usize + rng.range(9, 14) as usize;
            (vec![width, height], vec![words(rng, (width * height) as usize), words(rng, room)])
        }
        10 => {
            let (width, height) = (rng.range(1, 6) as u32, rng.range(1, 4) as u32);
            let comment = if rng.one_in(4) { "# 9 9\n" } else { "" };
            let head = format!("P6{comment}\n{width} {height}\n255\n");
            let raster = (3 * width * height) as usize;
            let file = head.bytes().map(u32::from).chain(words(rng, raster)).collect();
            let room = raster.saturating_add_signed(rng.range(-2, 3) as isize);
            (vec![], vec![file, words(rng, room)])
        }
        11 => {
            let place = [rng.below(17) as u32, rng.below(17) as u32];
            let numbers = vec![0, n as u32, rng.below(3) as u32, rng.range(-2, 2) as u32, 0, 0, place[0], place[1], any_word(rng)];
            (numbers, vec![list])
        }
        PIXEL => {
            let tiles = rng.below(3) as u32;
            let list_words = (0..REGION as u32 * tiles).map(|k| if k % REGION as u32 == 0 { 0 } else { rng.below(6) as u32 }).collect();
            (vec![rng.below(3) as u32, rng.below(17) as u32, rng.below(17) as u32, any_word(rng)], vec![list_words, list])
        }
        _ if NAMES[kind as usize] == "recount" => {
            let path = rng.below(n_paths.max(1) as u64) as u32;
            let kept = paths.chunks_exact(PATH).nth(path as usize).map(Place::of).map_or(0, |b| ((b.x1 - b.x0) * (b.y1 - b.y0)) as usize);
            let of = path_nos.iter().map(|&p| if rng.one_in(8) { p } else { path }).collect();
            let (refs, line_nos) = (REF * rng.below(60) as usize, (0..n).map(|_| rng.below(9) as u32).collect());
            let tables = [words(rng, tiles), words(rng, tiles), words(rng, refs), words(rng, kept), words(rng, kept)];
            (vec![path], [line_nos, of, coords, paths].into_iter().chain(tables).collect())
        }
        _ if NAMES[kind as usize] == "boxes" => {
            let any = any_word(rng);
            let margin = rng.pick(&[0, 0, 1, 1, 2, 5, any]);
            let work = rules::boxes::work_words(n_paths) + rng.below(3) as usize;
            (vec![margin], vec![path_nos, coords, words(rng, n_paths), words(rng, PATH * n_paths), words(rng, work)])
        }
        _ if NAMES[kind as usize] == "check" => {
            let made = rng.below(6) as usize;
            let refs = (0..made).flat_map(|_| reference(rng.below(n.max(1) as u64) as u32, rng.below(2) as u32, rng.below(4) as u32)).collect();
            let (zeros, stored) = (vec![0; tiles], (0..tiles).map(|_| !(rng.below(20) as u32)).collect());
            let work = rules::check::work_words(tiles, n, made) + rng.below(3) as usize;
            (vec![rng.below(60) as u32], vec![path_nos, coords, paths, refs, zeros.clone(), zeros, stored, words(rng, work)])
        }
        _ if NAMES[kind as usize] == "outlines" => {
            let path_count = rng.range(1, 3) as u32;
            let (path_nos, coords) = outlines(rng, path_count);
            let work = rules::outlines::ROOM_EACH * path_count as usize + rng.below(3) as usize;
            (vec![path_count], vec![path_nos, coords, words(rng, work)])
        }
        _ if NAMES[kind as usize] == "sizes" => (vec![rng.below(9) as u32, rng.below(9) as u32], vec![path_nos, coords, paths]),
        FINE => {
            let (cols, rows) = (rng.below(3) as u32, rng.below(2) as u32);
            let list_words = (0..REGION as u32 * cols * rows).map(|k| if k % REGION as u32 == 0 { 0 } else { rng.below(6) as u32 }).collect();
            let pixels = words(rng, (256 * cols * rows) as usize);
            (vec![16 * cols, cols, rows, 0, cols * rows], vec![list_words, list, pixels])
        }
        FINE_ROWS => {
            let (cols, rows, first) = (rng.below(3) as u32, rng.below(3) as u32, rng.below(2) as u32);
            let (first, end) = (first.min(rows), rows);
            let list_words = (0..REGION as u32 * cols * rows).map(|k| if k % REGION as u32 == 0 { 0 } else { rng.below(6) as u32 }).collect();
            let pixels = words(rng, (256 * cols * (end - first)) as usize);
            (vec![16 * cols, cols, rows, first, end], vec![list_words, list, pixels])
        }
        _ if NAMES[kind as usize] == "present" => {
            let (width, height) = (rng.range(1, 6) as u32, rng.range(1, 4) as u32);
            let (screen, stride) = (width + rng.below(3) as u32, rules::present::EACH as u32 * width + rng.below(4) as u32);
            let room = rules::present::bytes(width, height, stride) as usize + rng.below(3) as usize;
            let room = if rng.one_in(5) { room - 1 } else { room };
            let rows = height + rng.below(2) as u32;
            let pixels = words(rng, (screen * rows) as usize);
            (vec![screen, width, height, stride, rng.below(2) as u32], vec![pixels, words(rng, room)])
        }
        _ if NAMES[kind as usize] == "draw" => {
            let (refs, room) = (REF * rng.below(60) as usize, rng.below(60) as usize);
            let (cols, rows) = (rng.below(4) as u32, rng.below(4) as u32);
            let tables = [words(rng, tiles), words(rng, tiles), words(rng, tiles), words(rng, refs), words(rng, SEGMENT * room), words(rng, room)];
            let lists = words(rng, REGION * (cols * rows) as usize);
            let pixels = words(rng, (256 * cols * rows) as usize);
            let lent = [path_nos, coords, paths, words(rng, PAINT * n_paths)].into_iter();
            (vec![16 * cols, cols, rows], lent.chain(tables).chain([lists, pixels]).collect())
        }
        SVG_LINES => {
            let commands = rng.below(6);
            let text = texts::valid(rng, commands);
            let depth = rng.below(3) as u32;
            let needed = rules::svg::outline(&text, depth).map_or(0, |lines| lines.len());
            let room = needed.saturating_add_signed(rng.range(-1, 2) as isize);
            let text = text.into_iter().map(u32::from).collect();
            (vec![depth, any_word(rng)], vec![text, words(rng, room), words(rng, LINE * room)])
        }
        _ => panic!("no good call of kind {kind}, {}: write one", NAMES[kind as usize]),
    };
    Call { kind, numbers, slices }
}

/// Altered numbers, words and lengths.
fn spoil(rng: &mut Rng, call: &mut Call) {
    for _ in 0..rng.range(1, 3) {
        let k = rng.below(call.slices.len() as u64) as usize;
        let (slices, numbers) = (&mut call.slices, &mut call.numbers);
        match rng.below(24) {
            0 | 5..=6 if !numbers.is_empty() => {
                let k = rng.below(numbers.len() as u64) as usize;
                numbers[k] = any_word(rng);
            }
            1 => slices[k].push(any_word(rng)),
            2 => _ = slices[k].pop(),
            3 => slices[k].clear(),
            4 => {
                let n = rng.below(12);
                slices[k] = (0..n).map(|_| any_word(rng)).collect();
            }
            _ if !slices[k].is_empty() => {
                let at = rng.below(slices[k].len() as u64) as usize;
                slices[k][at] = any_word(rng);
            }
            _ => (),
        }
    }
}

impl Stage for Hostile {
    type Case = Call;
    const NAME: &'static str = "hostile";
    const REACHED: &'static [u32] = &[];
    const LEAST: u64 = if ours::BRIDGED { 43_000 } else { 2_000_000 };

    fn make(&self, rng: &mut Rng) -> Call {
        let mut kind = rng.pick(&self.kinds);
        if LISTS.contains(&kind) && !rng.one_in(5) {
            kind = rng.pick(&self.kinds); // its endless lists take the most time by far
        }
        if kind == HELPER {
            return any_helper(rng);
        }
        if rng.one_in(64) {
            if let Some(call) = borders::toward(rng, kind) {
                return call;
            }
        }
        let mut call = good(rng, kind);
        if rng.one_in(8) {
            let (slices, numbers) = shape(kind);
            call.numbers = (0..numbers).map(|_| any_word(rng)).collect();
            call.slices = (0..slices)
                .map(|_| {
                    let n = rng.below(24);
                    (0..n).map(|_| any_word(rng)).collect()
                })
                .collect();
        }
        if !rng.one_in(6) {
            spoil(rng, &mut call);
        }
        for &k in BYTES[kind as usize] {
            call.slices[k].iter_mut().for_each(|w| *w &= 0xff);
        }
        call
    }

    fn check(&self, call: &Call, sides: Sides, table: &mut Table) -> Result<(), String> {
        if call.kind == HELPER {
            table.add(&helper_row(call.numbers[0]), 1);
            return crate::floats::held(call.numbers[0], [&call.slices[0], &call.slices[1], &call.slices[2]]);
        }
        let wanted = by_rules(call);
        table.add(&row(call.kind, wanted.answer[0]), 1);
        if sides.ours {
            let lengths: Vec<usize> = call.slices.iter().map(Vec::len).collect();
            if self.null && ours::null::is_lent(&lengths) {
                table.add(NULL_ROW, 1);
            }
            same_outcome(call, &by_ours(call), &wanted)?;
        }
        Ok(())
    }

    fn smaller(&self, call: &Call) -> Vec<Call> {
        let mut out = vec![];
        for k in 0..call.slices.len() {
            for at in 0..call.slices[k].len().min(40) {
                if call.slices[k][at] != 0 {
                    let mut c = call.clone();
                    c.slices[k][at] = 0;
                    out.push(c);
                }
            }
        }
        out
    }

    fn show(&self, call: &Call) -> String {
        let slices: Vec<String> = call.slices.iter().map(|w| format!("  {} words: {}", w.len(), hex(w))).collect();
        format!("  {} with numbers {}\n{}", NAMES[call.kind as usize], hex(&call.numbers), slices.join("\n"))
    }

    /// Every answer that a call can give, and every helper.
    fn rows_wanted(&self) -> Vec<(String, u64)> {
        let mut rows = vec![];
        for &kind in &self.kinds {
            if kind == HELPER {
                rows.extend((0..crate::floats::HELPERS.len() as u32).map(helper_row));
            } else {
                rows.extend(borders::answers(kind).iter().map(|&answer| row(kind, answer)));
            }
        }
        rows.extend(self.null.then(|| NULL_ROW.to_string()));
        rows.into_iter().map(|row| (row, LEAST)).collect()
    }
}
