//! The lists of commands: beside the rules word for word, and drawn by fine beside painting the paths one after another.

use crate::fine::OVER;
use crate::frame;
use crate::stage::{hex, same, same_words, Sides, Stage};
use crate::table::Table;
use cases::commands::{color, Command, Lists};
use cases::memory::{as_f32, Lent};
use cases::{boxes, segments, Rng};
use rules::fine::{END, JUMP};
use rules::limits::{BAD_SEGMENT, EDGE_MOST, LINE, PAINT, PATH, PATHS_MOST, REGION, ROOM_MOST, SEGMENT};
use rules::lists::{Pair, Tables};
use rules::records::{beam_at, box_at, colour, even_odd, first_at, no_tiles, paint, paint_words, path, paths_in, segments_in, words_of};

#[derive(Clone, Debug)]
pub struct Case {
    /// The frame that leaves these tables, where one does: our stages then make them anew.
    pub frame: Option<frame::Case>,
    pub paths: Vec<u32>,
    pub paints: Vec<u32>,
    pub backdrops: Vec<u32>,
    pub stored: Vec<u32>,
    pub tally: Vec<u32>,
    pub cols: u32,
    pub rows: u32,
    pub room: u32,
    /// The words lent hold anything.
    pub words: usize,
    /// As many as the room, where the lists are to be drawn.
    pub segments: Vec<u32>,
    /// A tag for each of them, where a frame left them.
    pub tags: Vec<u32>,
}

pub struct WriteLists;

/// Slots of FILLs over a frame, each held against the beam number of the FILL's path.
const OWN_BEAM: &str = "slots of FILLs with their path's beam";

/// Paths in painting order whose boxes lie on or near a small screen, many of them over one another; now and then one over all the wall.
pub fn near_boxes(rng: &mut Rng, n: usize, most: i64) -> (Vec<u32>, usize) {
    let (mut paths, mut next) = (vec![], 0);
    let far = rng.range(0, 2);
    for _ in 0..n {
        let (x, y) = (rng.range(0, far), rng.range(0, far));
        let (mut w, h) = (rng.range(0, most), rng.range(1, most));
        if n < 8 && rng.one_in(200) {
            w = EDGE_MOST - x; // as far right as a box may reach, most of it off the screen
        }
        paths.extend(path([x, y, x + w, y + h].map(|v| v as u32), next as u32));
        next += w * h + rng.one_in(6) as i64;
    }
    (paths, next as usize)
}

pub fn paints(rng: &mut Rng, n: usize) -> Vec<u32> {
    let rule = |rng: &mut Rng| if rng.one_in(12) { rng.u32() } else { rng.below(2) as u32 };
    (0..n).flat_map(|_| paint(color(rng), rule(rng))).collect()
}

/// A frame that is drawn whole, and the tables that it leaves.
fn drawn(rng: &mut Rng) -> Option<Case> {
    let n_paths = rng.range(1, 6) as usize;
    let (paths, tiles) = near_boxes(rng, n_paths, 4);
    let n = rng.range(0, 24) as usize;
    let f = frame::over(rng, paths, tiles, n, &frame::CALM);
    left_by(f, paints(rng, n_paths))
}

/// The tables as the rules' stages leave them, where those draw the frame whole.
fn left_by(f: frame::Case, paints: Vec<u32>) -> Option<Case> {
    let mut memory = frame::Memory::of(&f);
    let number =
        memory.lend(|b, t, y, r, s, g| rules::frame(&f.path_nos, as_f32(&f.coords), &f.paths, b, t, y, r, s, g, &mut 0, &mut 0, &mut 0, &mut 0));
    let [backdrops, stored, tally, _, segments, tags] = memory.0.map(|l| l.u32s().to_vec());
    (number == 0).then(|| Case {
        paints,
        paths: f.paths.clone(),
        backdrops,
        stored,
        tally,
        cols: 0,
        rows: 0,
        room: segments_in(&segments) as u32,
        words: 0,
        segments,
        tags,
        frame: Some(f),
    })
}

/// Tables that no frame made; `n_paths` may be many, so that lists cross the borders of their regions.
fn invented(rng: &mut Rng, n_paths: usize, most: i64) -> Case {
    let (paths, tiles) = near_boxes(rng, n_paths, most);
    let room = rng.pick(&[0, 1, 5, 9]) as u32;
    let fills = rng.below(5);
    let mut case = Case {
        frame: None,
        paints: paints(rng, n_paths),
        paths,
        backdrops: vec![],
        stored: vec![],
        tally: vec![],
        cols: 0,
        rows: 0,
        room,
        words: 0,
        segments: segments::list(rng, room as usize).into_iter().map(f32::to_bits).collect(),
        tags: vec![],
    };
    for _ in 0..tiles {
        let number = if rng.below(4) < fills { rng.below(room as u64 + 1) as u32 } else { 0 };
        let first = rng.below((room - number) as u64 + 1) as u32;
        case.tally.push(number);
        case.stored.push(if number > 0 { !first } else { rng.pick(&[0, 0, 7, u32::MAX]) });
        let backdrop = match rng.below(12) {
            0 => rng.pick(&[i32::MIN, i32::MAX, i32::MIN + 1, i32::MAX - 1]),
            _ => rng.range(-3, 3) as i32,
        };
        case.backdrops.push(backdrop as u32);
    }
    case
}

/// So many paths over one screen tile that its commands are near the limit: so many FILLs, then SOLIDs. Ten FILLs fill a
/// region, twenty SOLIDs do; the first FILLs make one JUMP more, and with it 4,096 commands.
fn long(rng: &mut Rng) -> Case {
    let (last, most_fills) = rng.pick(&[(1_998, 0), (1_998, 10), (1_950, usize::MAX)]);
    let n = (last + rng.range(-1, 2)) as usize;
    let fills = n.min(most_fills);
    let regions = fills.div_ceil(10) + (n - fills).div_ceil(20);
    let tile = |k: usize| path([0, 0, 1, 1], k as u32);
    Case {
        frame: None,
        paths: (0..n).flat_map(tile).collect(),
        paints: paints(rng, n),
        backdrops: (0..n).map(|_| rng.pick(&[1u32, u32::MAX])).collect(),
        stored: (0..n).map(|k| if k < fills { u32::MAX } else { 0 }).collect(),
        tally: (0..n).map(|k| (k < fills) as u32).collect(),
        cols: rng.pick(&[1, 2]),
        rows: 1,
        room: 1,
        words: REGION * (regions + 1 - rng.below(3) as usize),
        segments: vec![],
        tags: vec![],
    }
}

/// A FILL's slots at the border of the room, or past all slots.
fn move_slots(rng: &mut Rng, case: &mut Case) {
    let Some(t) = case.tally.iter().position(|&n| n > 0) else { return };
    case.frame = None;
    let first = match rng.below(5) {
        0 => case.room - case.tally[t].min(case.room),
        1 => case.room - case.tally[t].min(case.room) + 1,
        2 => u32::MAX, // a stored 0
        3 => {
            case.room = u32::MAX;
            case.segments.clear();
            ROOM_MOST as u32 - case.tally[t] + rng.below(2) as u32
        }
        _ => rng.u32(),
    };
    case.stored[t] = !first;
}

fn spoil(rng: &mut Rng, case: &mut Case) {
    case.frame = None;
    match rng.below(16) {
        0 => _ = case.paints.pop(),
        1 => case.paints.extend(paint(1, 1)),
        2 => _ = case.paths.pop(),
        3 => _ = case.backdrops.pop(),
        4 => case.stored.push(3),
        5 => _ = case.tally.pop(),
        6 | 7 => (case.cols, case.rows) = rng.pick(&OVER),
        8 => {
            let n = PATHS_MOST as usize + rng.below(3) as usize;
            case.paths = no_tiles(n);
            case.paints = vec![1; PAINT * n];
        }
        _ => boxes::spoil(rng, &mut case.paths, case.stored.len()),
    }
}

type Call = fn(&[u32], &[u32], &[i32], &[u32], &[u32], u32, u32, u32, &mut [u32], &mut u32) -> u32;

/// What is lent: the tables, the segments for fine with their tags, and the words.
struct Memory {
    tables: [Lent; 5],
    segments: Lent,
    tags: Lent,
    words: Lent,
}

impl Memory {
    fn of(case: &Case) -> Memory {
        let words: Vec<u32> = (0..case.words).map(|k| 0xc0de_0000 + k as u32).collect();
        let tables = [&case.paths, &case.paints, &case.backdrops, &case.stored, &case.tally];
        Memory { tables: tables.map(|w| Lent::new(w)), segments: Lent::new(&case.segments), tags: Lent::new(&case.tags), words: Lent::new(&words) }
    }

    fn read(&self) -> Tables<'_> {
        let [paths, paints, backdrops, stored, tally] = &self.tables;
        Tables { paths: paths.u32s(), paints: paints.u32s(), backdrops: backdrops.i32s(), stored: stored.u32s(), tally: tally.u32s() }
    }

    /// One side's answer and item.
    fn write(&mut self, call: Call, case: &Case) -> (u32, u32) {
        let mut words = std::mem::replace(&mut self.words, Lent::new(&[]));
        let (t, mut item) = (self.read(), 0xabcd);
        let number = call(t.paths, t.paints, t.backdrops, t.stored, t.tally, case.cols, case.rows, case.room, words.u32s_mut(), &mut item);
        self.words = words;
        (number, item)
    }

    /// Our stages over the frame's lines, and what they leave in the tables' place.
    fn make_anew(&mut self, f: &frame::Case) -> Result<(), String> {
        let mut left = frame::Memory::of(f);
        let number =
            left.lend(|b, t, y, r, s, g| ours::frame(&f.path_nos, as_f32(&f.coords), &f.paths, b, t, y, r, s, g, &mut 0, &mut 0, &mut 0, &mut 0));
        same("our stages' answer", number, 0)?;
        let [backdrops, stored, tally, _, segments, tags] = left.0;
        [self.tables[2], self.tables[3], self.tables[4]] = [backdrops, stored, tally];
        self.segments = segments;
        self.tags = tags;
        Ok(())
    }

    /// The words, and that what is only read is as it was made.
    fn same_as(&self, wanted: &Memory) -> Result<(), String> {
        let names = ["paths", "paints", "backdrops", "stored words", "tally"];
        for ((got, wanted), name) in self.tables.iter().zip(&wanted.tables).zip(names) {
            same_words(name, got.u32s(), wanted.u32s())?;
            same(name, got.guards_stand(), true)?;
        }
        same_words("segments", self.segments.u32s(), wanted.segments.u32s())?;
        same_words("tags", self.tags.u32s(), wanted.tags.u32s())?;
        same_words("words", self.words.u32s(), wanted.words.u32s())?;
        same("guards", self.words.guards_stand() && self.segments.guards_stand(), true)
    }
}

impl Case {
    /// Another frame's tables under the same screen and words, where it is drawn whole.
    fn framed(&self, f: frame::Case, paints: Vec<u32>) -> Option<Case> {
        left_by(f, paints).map(|c| Case { cols: self.cols, rows: self.rows, words: self.words, ..c })
    }

    /// The words that the rules need, where the tables pass all other checks; for words lent near that number.
    fn needed(&self) -> usize {
        let lent = Memory::of(self);
        let tables = lent.read();
        let mut regions = 0;
        for (x, y) in (0..self.rows as i64).flat_map(|y| (0..self.cols as i64).map(move |x| (x, y))) {
            regions += 1;
            let mut left = REGION as i64 - 1;
            for pair in tables.pairs(x, y) {
                let size = if matches!(pair, Pair::Fill { .. }) { 6 } else { 4 };
                if left < size + 2 {
                    regions += 1;
                    left = REGION as i64;
                }
                left -= size;
            }
        }
        REGION * regions
    }
}

/// The frame less a path and its lines; the tiles of that path lie between others then.
pub fn without_path(f: &frame::Case, k: usize) -> frame::Case {
    let mut less = f.clone();
    less.paths.drain(words_of(k));
    (less.path_nos, less.coords) = (vec![], vec![]);
    for (&path, line) in f.path_nos.iter().zip(f.coords.chunks_exact(LINE)).filter(|(&path, _)| path as usize != k) {
        less.path_nos.push(path - (path as usize > k) as u32);
        less.coords.extend(line);
    }
    less
}

impl Stage for WriteLists {
    type Case = Case;
    const NAME: &'static str = "write_lists";
    const REACHED: &'static [u32] = &[0, 1, 2, 3, 4, 9, 15];
    const LEAST: u64 = 40_000;

    fn make(&self, rng: &mut Rng) -> Case {
        if rng.one_in(16) {
            return long(rng);
        }
        let mut case = match rng.below(8) {
            0..=3 => drawn(rng).unwrap_or_else(|| invented(rng, 2, 2)),
            4 | 5 => {
                let n = rng.range(0, 8) as usize;
                invented(rng, n, 3)
            }
            _ => {
                let n = rng.range(9, 80) as usize;
                invented(rng, n, 2)
            }
        };
        let many = case.paints.len() > PAINT * 8;
        (case.cols, case.rows) = if many { (rng.range(1, 3) as u32, 2) } else { (rng.range(0, 5) as u32, rng.range(0, 4) as u32) };
        if rng.one_in(12) {
            move_slots(rng, &mut case);
        }
        let needed = case.needed();
        case.words = match rng.below(12) {
            0 => needed.saturating_sub(1),
            1 => rng.below(needed as u64 + 1) as usize,
            2 => needed + rng.below(70) as usize,
            _ => needed,
        };
        if rng.one_in(5) {
            spoil(rng, &mut case);
        }
        case
    }

    fn check(&self, case: &Case, sides: Sides, table: &mut Table) -> Result<(), String> {
        let mut by_rules = Memory::of(case);
        let (number, item) = by_rules.write(rules::write_lists, case);
        table.answer(number);
        let mut by_ours = Memory::of(case);
        if sides.ours {
            if let (Some(f), true) = (&case.frame, ours::has::FRAME) {
                by_ours.make_anew(f)?;
                table.add("frames made by our stages", 1);
            }
            let told = by_ours.write(ours::write_lists, case);
            same("answer and item", told, (number, item))?;
            by_ours.same_as(&by_rules)?;
        }
        if number == 0 && case.frame.is_some() {
            own_beams(case, if sides.ours { &by_ours } else { &by_rules }, table)?;
        }
        if number == 0 && case.segments.len() == SEGMENT * case.room as usize {
            let lists = if sides.ours { &by_ours } else { &by_rules };
            draw(case, lists, &by_rules, sides, table)?;
        }
        Ok(())
    }

    fn rows_wanted(&self) -> Vec<(String, u64)> {
        vec![(OWN_BEAM.into(), if ours::BRIDGED { 50 } else { 1_000 })]
    }

    fn smaller(&self, case: &Case) -> Vec<Case> {
        let mut out = vec![];
        if case.cols > 0 && case.rows > 0 {
            let (mut narrow, mut low) = (case.clone(), case.clone());
            narrow.cols -= 1;
            low.rows -= 1;
            out.extend([narrow, low]);
        }
        if case.paths.len() % PATH == 0 && case.paints.len() == PAINT * paths_in(&case.paths) {
            for k in (0..paths_in(&case.paths)).take(100) {
                let mut c = case.clone();
                c.paths.drain(words_of(k));
                c.paints.drain(paint_words(k));
                out.extend(match &case.frame {
                    Some(f) => case.framed(without_path(f, k), c.paints),
                    None => Some(c),
                });
            }
        }
        if let Some(f) = &case.frame {
            out.extend(frame::Frame.smaller(f).into_iter().filter_map(|f| case.framed(f, case.paints.clone())));
        }
        out
    }

    fn show(&self, case: &Case) -> String {
        if case.paths.len() > 600 {
            return format!("  {} paths, screen {} by {}, room {}, {} words", paths_in(&case.paths), case.cols, case.rows, case.room, case.words);
        }
        let paths = || format!("  paths {:?}, tables that no frame made", case.paths);
        let from = case.frame.as_ref().map_or_else(paths, |f| frame::Frame.show(f));
        format!(
            "{from}\n  paints {}\n  backdrops {}\n  stored {}\n  tally {}\n  columns {}, rows {}, room {}, words {}",
            hex(&case.paints),
            hex(&case.backdrops),
            hex(&case.stored),
            hex(&case.tally),
            case.cols,
            case.rows,
            case.room,
            case.words
        )
    }
}

/// Over a frame that is drawn whole, the slots of every FILL written carry the beam number of the path that it was written for: the lists are read
/// command by command, and the pairs of a tile are its paths' in order.
fn own_beams(case: &Case, lists: &Memory, table: &mut Table) -> Result<(), String> {
    let (words, tags, tables) = (lists.words.u32s(), lists.tags.u32s(), lists.read());
    for t in 0..case.cols * case.rows {
        let (x, y) = ((t % case.cols) as i64, (t / case.cols) as i64);
        let mut at = REGION * t as usize + 1;
        for (p, pair) in tables.pairs_of_paths(x, y) {
            if words[at] == JUMP {
                at = words[at + 1] as usize;
            }
            if let Pair::Solid { .. } = pair {
                at += 3; // SOLID, COLOR, its colour
                continue;
            }
            let (number, first) = (words[at + 1] / 2, words[at + 2]);
            for slot in first..first + number {
                same("tags of a FILL: the number at its slot", tags[slot as usize], beam_at(&case.paths, p))?;
            }
            table.add(OWN_BEAM, number as u64);
            at += 6; // FILL and its three words, COLOR, its colour
        }
        same("the list ends after its pairs", words[at], END)?;
    }
    Ok(())
}

/// Fine over the lists, and each tile painted without a list from the rules' tables: by the rules, and by the Rust. It stops at the first tile
/// on which a fill has a crooked segment, and only there.
fn draw(case: &Case, lists: &Memory, by_rules: &Memory, sides: Sides, table: &mut Table) -> Result<(), String> {
    let (cols, rows) = (case.cols, case.rows);
    let width = 16 * cols as usize;
    let mut pixels = vec![0x5a5a_5a5a; 256 * (cols * rows) as usize];
    let mut item = 0;
    let fine = if sides.ours && ours::has::FINE { ours::fine } else { rules::fine };
    let number = fine(lists.words.u32s(), lists.segments.f32s(), width as u32, cols, rows, 0, cols * rows, &mut pixels, &mut item);
    let (tables, segments) = (by_rules.read(), by_rules.segments.f32s());
    let place = |t: u32| ((t % cols) as i64, (t / cols) as i64);
    let crooked = |t: &u32| rules::lists::crooked(&tables.pairs(place(*t).0, place(*t).1), segments);
    let stop = (0..cols * rows).find(crooked);
    same("fine's answer over the written lists", (number, item), stop.map_or((0, 0), |t| (BAD_SEGMENT, t)))?;
    if case.frame.is_some() {
        same("a frame's segments are taken", stop, None)?;
    }
    table.add("screens with a crooked segment", stop.is_some() as u64);
    let records = oracle::segments_of(segments);
    for t in 0..stop.unwrap_or(cols * rows) {
        let (x, y) = place(t);
        let at = |row: usize| width * (16 * y as usize + row) + 16 * x as usize;
        let drawn: Vec<u32> = (0..16).flat_map(|row| pixels[at(row)..at(row) + 16].to_vec()).collect();
        let pairs = tables.pairs(x, y);
        same_words("pixels beside painting in order", &drawn, &rules::lists::painted(&pairs, segments))?;
        if sides.rust {
            let by_rust = oracle::fine_tile(fills_alone(&tables, x, y).theirs().for_tile(1), &records);
            same_words("pixels beside the Rust", &drawn, &by_rust.map_err(|_| "the Rust panicked")?)?;
        }
        table.add("tiles drawn", 1);
        table.add("tiles drawn of a frame", case.frame.is_some() as u64);
        table.add("tiles of more than one region", (rules::lists::fresh_regions(&pairs) > 0) as u64);
        table.add("pairs drawn", pairs.len() as u64);
    }
    Ok(())
}

/// Every path whose box has the tile as a FILL and its colour, one after another, with no regions: no test of covering, but
/// the Rust's own fill of no segments. Only a backdrop that a float can't hold is made small, odd staying odd.
pub fn fills_alone(tables: &Tables, x: i64, y: i64) -> Lists {
    let mut lists = Lists::new(6 * paths_in(&tables.paths) + 2, 0);
    let mut at = 1;
    for (path, paint) in tables.paths.chunks_exact(PATH).zip(tables.paints.chunks_exact(PAINT)) {
        let ([x0, y0, x1, y1], first) = (box_at(path, 0).map(i64::from), i64::from(first_at(path, 0)));
        if !(x0..x1).contains(&x) || !(y0..y1).contains(&y) {
            continue;
        }
        let t = (first + (y - y0) * (x1 - x0) + x - x0) as usize;
        let number = tables.tally[t];
        let slots = if number > 0 { !tables.stored[t] } else { 0 };
        let mut backdrop = tables.backdrops[t];
        if number == 0 && backdrop.unsigned_abs() > 1 << 24 {
            backdrop = 2 + (backdrop & 1);
        }
        for command in [Command::Fill { number, even_odd: even_odd(paint), first: slots, backdrop }, Command::Color(colour(paint))] {
            at = lists.put(at, command, 0);
        }
    }
    lists
}
