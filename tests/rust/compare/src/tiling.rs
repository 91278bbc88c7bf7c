//! Tiling: references that counting made, and invented ones; beside the rules and the unchanged Rust, which has no tags: ours are held against
//! the rules', and must be written exactly where the Rust writes a segment.

use crate::count::{some_lines, spoil_line};
use crate::stage::{hex, same, same_words, Sides, Stage};
use crate::table::Table;
use cases::memory::{as_f32, Lent};
use cases::{boxes, Rng};
use rules::limits::{EDGE_MOST, PATHS_MOST, REF, ROOM_MOST, SEGMENT, STEP_RANGE};
use rules::records::{beam_at, is_packed, no_tiles, paths_in, ref_words, reference, refs_in, segment_floats};

#[derive(Clone, Debug)]
pub struct Case {
    pub path_nos: Vec<u32>,
    pub coords: Vec<u32>,
    pub paths: Vec<u32>,
    pub stored: Vec<u32>,
    pub refs: Vec<u32>,
    pub segments: Vec<u32>,
    pub tags: Vec<u32>,
    /// The ranges of references, in order.
    pub ranges: Vec<(u32, u32)>,
    /// Whether counting and hand-out made the references and the stored.
    pub counted: bool,
}

pub struct Tile;

/// Tags that aren't as many as the slots.
const OTHER_LENGTH: &str = "tags of another length";

/// What is lent to be changed.
struct Pieces {
    segments: Lent,
    tags: Lent,
}

impl Pieces {
    fn of(case: &Case) -> Pieces {
        Pieces { segments: Lent::new(&case.segments), tags: Lent::new(&case.tags) }
    }

    fn lend(&mut self) -> (&mut [f32], &mut [u32]) {
        (self.segments.f32s_mut(), self.tags.u32s_mut())
    }

    fn same_as(&self, wanted: &Pieces) -> Result<(), String> {
        same_words("segments", self.segments.u32s(), wanted.segments.u32s())?;
        same_words("tags", self.tags.u32s(), wanted.tags.u32s())
    }

    fn guards_stand(&self) -> bool {
        self.segments.guards_stand() && self.tags.guards_stand()
    }

    /// A slot's tag is another than before exactly where the Rust's segment is.
    fn tagged_where_written(&self, case: &Case, by_rust: &Lent) -> Result<(), String> {
        for (slot, (&tag, &before)) in self.tags.u32s().iter().zip(&case.tags).enumerate() {
            let written = by_rust.u32s()[segment_floats(slot)] != case.segments[segment_floats(slot)];
            same(&format!("tags beside the Rust's segments: slot {slot} is written"), tag != before, written)?;
        }
        Ok(())
    }
}

/// The state that counting and hand-out leave: the case with its references and the sum of counts.
pub fn counted(rng: &mut Rng, most: i64, n: usize) -> (Case, u32) {
    let n_paths = rng.range(1, 3) as usize;
    let (paths, mut tiles) = boxes::table(rng, n_paths, most);
    tiles += rng.below(3) as usize;
    let (path_nos, coords) = some_lines(rng, &paths, n);
    let mut backdrops = vec![0; tiles];
    let mut counts = vec![0; tiles];
    let mut refs = vec![0; REF * (n * (2 * most as usize + 12))];
    let (mut lines, mut made, mut item) = (0, 0, 0);
    while (lines as usize) < n {
        // past the lines refused
        rules::count(&path_nos, as_f32(&coords), &paths, &mut backdrops, &mut counts, &mut refs, n as u32, &mut lines, &mut made, &mut item);
        lines += 1;
    }
    refs.truncate(REF * made as usize);
    let mut tally = vec![0; tiles];
    rules::hand_out(&mut counts, &mut tally, u32::MAX);
    (Case { path_nos, coords, paths, stored: counts, refs, segments: vec![], tags: vec![], ranges: vec![], counted: true }, made)
}

/// References and stored that no counting made, and lengths and ranges that are wrong.
fn invent(rng: &mut Rng, case: &mut Case) {
    let lines = case.path_nos.len() as u64;
    let kind = rng.below(4);
    if kind == 0 || case.refs.is_empty() {
        let n = rng.range(1, 12) as usize;
        case.refs.clear();
        for _ in 0..n {
            let line = rng.below(lines + 1) as u32;
            let step = if rng.coin() { rng.below(8) } else { rng.below(40) } as u32;
            case.refs.extend(reference(line, rng.below(3) as u32, step));
        }
    }
    for _ in 0..rng.range(1, 4) {
        let k = rng.below(case.refs.len() as u64) as usize;
        let packed = is_packed(k);
        case.refs[k] = match rng.below(6) {
            0 => rng.u32(),
            1 => case.refs[k].wrapping_add(1),
            2 => case.refs[k].wrapping_sub(1),
            3 if packed => case.refs[k].wrapping_add(rng.below(30) as u32 + 1),
            4 if packed => case.refs[k].wrapping_add(rng.below(4) as u32 * STEP_RANGE),
            5 => lines as u32,
            _ => rng.below(lines.max(1)) as u32,
        };
    }
    if kind >= 2 && !case.stored.is_empty() {
        for _ in 0..rng.range(1, 6) {
            let k = rng.below(case.stored.len() as u64) as usize;
            case.stored[k] = rng.pick(&[0, 1, 0x7fff_ffff, 0x8000_0000, u32::MAX, !5, !(ROOM_MOST as u32 - 1), !(ROOM_MOST as u32), !(1 << 30)]);
        }
    }
}

/// Tags that aren't as many as the slots: one more or one fewer, or as many as the segments' floats.
pub fn other_length(rng: &mut Rng, tags: &mut Vec<u32>) {
    match rng.below(3) {
        0 => tags.push(1),
        1 if !tags.is_empty() => _ = tags.pop(),
        _ => tags.resize(SEGMENT * tags.len() + 1, 2),
    }
}

/// So many words, a different one for each slot, none of them a path's beam number: a tag left alone is seen to be.
pub fn tags_before(rng: &mut Rng, paths: &[u32], slots: usize) -> Vec<u32> {
    let beams: Vec<u32> = (0..paths_in(paths)).map(|p| beam_at(paths, p)).collect();
    let mut word = rng.u32();
    (0..slots)
        .map(|_| {
            word = word.wrapping_add(1);
            while beams.contains(&word) {
                word = word.wrapping_add(1);
            }
            word
        })
        .collect()
}

fn spoil(rng: &mut Rng, case: &mut Case) {
    match rng.below(14) {
        0 => _ = case.coords.pop(),
        1 => _ = case.path_nos.pop(),
        2 => _ = case.paths.pop(),
        3 => _ = case.refs.pop(),
        4 => _ = case.segments.pop(),
        5 => case.ranges.push((refs_in(&case.refs) as u32, refs_in(&case.refs) as u32 + 1)),
        6 => case.ranges.push((2, 1)),
        7..=9 => spoil_line(rng, &mut case.path_nos, &mut case.coords, &case.paths),
        10 | 11 => other_length(rng, &mut case.tags),
        _ => boxes::spoil(rng, &mut case.paths, case.stored.len()),
    }
}

impl Stage for Tile {
    type Case = Case;
    const NAME: &'static str = "tile";
    const REACHED: &'static [u32] = &[0, 1, 2, 3, 4, 6, 7, 9, 10, 12];
    const LEAST: u64 = 170_000;

    fn make(&self, rng: &mut Rng) -> Case {
        let most = if rng.one_in(60) { rng.pick(&[300, EDGE_MOST]) } else { rng.pick(&[4, 8, 24]) };
        let n = rng.range(1, 12) as usize;
        let (mut case, made) = counted(rng, most, n);
        let room = match rng.below(10) {
            0 => rng.below(made as u64 + 1) as usize,
            1 => made as usize + rng.below(4) as usize,
            _ => made as usize,
        };
        // NaNs with payloads, so that a word left alone is seen to be
        case.segments = (0..SEGMENT * room).map(|k| 0x7fb0_0000 + k as u32).collect();
        case.tags = tags_before(rng, &case.paths, room);
        if rng.one_in(3) {
            case.counted = false;
            invent(rng, &mut case);
        }
        let all = refs_in(&case.refs) as u32;
        let mut from = 0;
        while rng.one_in(3) {
            let to = rng.range(from as i64, all as i64) as u32;
            case.ranges.push((from, to));
            from = to;
        }
        case.ranges.push((from, all));
        if rng.one_in(8) {
            case.counted = false;
            spoil(rng, &mut case);
        }
        if rng.one_in(70) {
            case.counted = false;
            let n = PATHS_MOST + rng.range(0, 2);
            case.paths = no_tiles(n as usize);
        }
        case
    }

    fn check(&self, case: &Case, sides: Sides, table: &mut Table) -> Result<(), String> {
        let slices = [&case.path_nos, &case.coords, &case.paths, &case.stored, &case.refs];
        let lent = slices.map(|words| Lent::new(words));
        let [path_nos, coords, paths, stored, refs] = &lent;
        let mut by_rules = Pieces::of(case);
        let mut by_ours = Pieces::of(case);
        let mut by_rust = Lent::new(&case.segments);
        if case.tags.len() * SEGMENT != case.segments.len() && case.segments.len() % SEGMENT == 0 {
            table.add(OTHER_LENGTH, 1);
        }
        for &(from, to) in &case.ranges {
            let mut item = 0xabcd;
            let (s, t) = by_rules.lend();
            let number = rules::tile(path_nos.u32s(), coords.f32s(), paths.u32s(), stored.u32s(), refs.u32s(), from, to, s, t, &mut item);
            table.answer(number);
            if case.counted {
                table.add(if number == 12 { "12 of references counted" } else { "ranges counted" }, 1);
            }
            if sides.ours {
                let mut our_item = 0xabcd;
                let (s, t) = by_ours.lend();
                let our_number = ours::tile(path_nos.u32s(), coords.f32s(), paths.u32s(), stored.u32s(), refs.u32s(), from, to, s, t, &mut our_item);
                same("answer", our_number, number)?;
                same("item", our_item, item)?;
                by_ours.same_as(&by_rules)?;
                same("guards", by_ours.guards_stand() && lent.iter().all(|l| l.guards_stand()), true)?;
            }
            let early = [1, 2, 3, 4].contains(&number);
            if sides.rust && !early {
                let stop = if number == 0 { to } else { item };
                let ran = oracle::tile(
                    path_nos.u32s(),
                    coords.f32s(),
                    paths.u32s(),
                    stored.u32s(),
                    refs.u32s(),
                    from as usize,
                    stop as usize,
                    by_rust.f32s_mut(),
                );
                same("the Rust panicked", ran.is_err(), false)?;
                same_words("beside the Rust: segments", by_rules.segments.u32s(), by_rust.u32s())?;
                by_rules.tagged_where_written(case, &by_rust)?;
                table.add("references the Rust tiled too", (stop - from) as u64);
            }
            if number != 0 {
                break;
            }
        }
        for (l, words) in lent.iter().zip(slices) {
            same_words("lent to be read", l.u32s(), words)?;
        }
        Ok(())
    }

    fn rows_wanted(&self) -> Vec<(String, u64)> {
        vec![(OTHER_LENGTH.into(), if ours::BRIDGED { 20 } else { 1_000 })]
    }

    fn smaller(&self, case: &Case) -> Vec<Case> {
        let mut out = vec![];
        let all = refs_in(&case.refs) as u32;
        if case.ranges.len() > 1 {
            let mut c = case.clone();
            c.ranges = vec![(0, all)];
            out.push(c);
        } else if case.refs.len() % REF == 0 {
            for k in 0..all as usize {
                let mut c = case.clone();
                c.refs.drain(ref_words(k));
                c.ranges = vec![(0, all - 1)];
                out.push(c);
            }
        }
        out
    }

    fn show(&self, case: &Case) -> String {
        if case.paths.len() > 200 {
            return format!("  {} paths", paths_in(&case.paths));
        }
        format!(
            "  paths {:?}\n  path numbers {:?}\n  coordinates {}\n  stored {}\n  references {}\n  room {} words, tags {}, ranges {:?}",
            case.paths,
            case.path_nos,
            hex(&case.coords),
            hex(&case.stored),
            hex(&case.refs),
            case.segments.len(),
            case.tags.len(),
            case.ranges
        )
    }
}
