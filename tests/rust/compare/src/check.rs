//! A check of another's tables: tables that the rules' count and hand-out make of a list of lines, in any order of the references,
//! with the tiles' slots wherever they lie apart, and with every kind of damage; beside the rules. Tables that the unchanged Rust
//! makes are answered yes.

use crate::count::{self, spoil_line};
use crate::stage::{hex, same, same_words, Sides, Stage};
use crate::table::Table;
use cases::memory::Lent;
use cases::{boxes, Rng};
use rules::check::{work_words, FOUND_YES};
use rules::limits::{COUNT_MOST, LINE, LINES_MOST, PATHS_MOST, REF, ROOM_MOST, STEP_RANGE};
use rules::records::{no_tiles, path, paths_in};

#[derive(Clone, Debug)]
pub struct Case {
    /// The lines, and the paths that they are of.
    list: count::Case,
    refs: Vec<u32>,
    counts: Vec<u32>,
    backdrops: Vec<u32>,
    stored: Vec<u32>,
    room: u32,
    work: usize,
    /// No table was damaged, and no line is refused.
    whole: bool,
    damage: &'static str,
}

pub struct Check;

/// What counting all lines of the list into clear tiles leaves, by the rules, and then hand-out; nothing where a line is refused.
fn tables(list: &count::Case) -> Option<(Vec<u32>, Vec<u32>, Vec<u32>, Vec<u32>)> {
    let tiles = list.counts.len();
    let (mut backdrops, mut stored, mut counts) = (vec![0i32; tiles], vec![0; tiles], vec![0; tiles]);
    let (mut refs, mut lines, mut made, mut item) = (list.refs.clone(), 0, 0, 0);
    let coords = Lent::new(&list.coords);
    let end = list.path_nos.len() as u32;
    let no = rules::count(&list.path_nos, coords.f32s(), &list.paths, &mut backdrops, &mut stored, &mut refs, end, &mut lines, &mut made, &mut item);
    if no != 0 || rules::hand_out(&mut stored, &mut counts, made) != 0 {
        return None;
    }
    refs.truncate(REF * made as usize);
    Some((refs, counts, backdrops.into_iter().map(|b| b as u32).collect(), stored))
}

/// Another order of the references.
fn shuffle(rng: &mut Rng, refs: &mut [u32]) {
    for k in (1..refs.len() / REF).rev() {
        let other = rng.below(k as u64 + 1) as usize;
        for w in 0..REF {
            refs.swap(REF * k + w, REF * other + w);
        }
    }
}

/// The tiles' slots in another order and with gaps between them; tiles with none hold any word.
fn spread(rng: &mut Rng, case: &mut Case) {
    let mut order: Vec<usize> = (0..case.counts.len()).collect();
    for k in (1..order.len()).rev() {
        order.swap(k, rng.below(k as u64 + 1) as usize);
    }
    let mut next = rng.below(3) as u32;
    for t in order {
        if case.counts[t] == 0 {
            let any = rng.u32();
            case.stored[t] = rng.pick(&[0, any, u32::MAX, !1]);
            continue;
        }
        case.stored[t] = !next;
        next += case.counts[t] + if rng.one_in(4) { rng.below(5) as u32 } else { 0 };
    }
    case.room = rng.pick(&[next, next, next + 7, ROOM_MOST as u32, u32::MAX]);
}

/// A tile with a count, if there is one.
fn some_tile(rng: &mut Rng, counts: &[u32]) -> Option<usize> {
    let with: Vec<usize> = (0..counts.len()).filter(|&t| counts[t] > 0).collect();
    (!with.is_empty()).then(|| rng.pick(&with))
}

const KINDS: [&str; 17] = [
    "a step changed",
    "a slice changed",
    "a slice at the count",
    "a line changed",
    "a reference doubled",
    "a reference dropped",
    "the last reference dropped",
    "a reference invented",
    "a tile's slices swapped",
    "a count changed",
    "a backdrop changed",
    "a slot moved",
    "slots into each other",
    "slots past the room",
    "slots at the limit",
    "a room too small",
    "a step outside the clip",
];

/// One kind of damage; what it did is named, where it could be done.
fn damage(rng: &mut Rng, case: &mut Case) -> &'static str {
    let n = case.refs.len() / REF;
    let j = rng.below(n.max(1) as u64) as usize;
    let any = rng.below(case.counts.len().max(1) as u64) as usize;
    let kind = rng.below(KINDS.len() as u64) as usize;
    match (kind, some_tile(rng, &case.counts)) {
        (0, _) if n > 0 => case.refs[REF * j + 1] ^= 1 << rng.below(3),
        (1, _) if n > 0 => case.refs[REF * j + 1] ^= STEP_RANGE << rng.below(2),
        (2, Some(t)) if n > 0 => case.refs[REF * j + 1] = case.refs[REF * j + 1] % STEP_RANGE + STEP_RANGE * (case.counts[t] % STEP_RANGE),
        (3, _) if n > 0 => case.refs[REF * j] = rng.pick(&[case.refs[REF * j] ^ 1, case.list.path_nos.len() as u32, u32::MAX, LINES_MOST as u32]),
        (4, _) if n > 0 => {
            let at = rng.below(n as u64 + 1) as usize;
            let copy = [case.refs[REF * j], case.refs[REF * j + 1]];
            case.refs.splice(REF * at..REF * at, copy);
        }
        (5, _) if n > 0 => _ = case.refs.drain(REF * j..REF * (j + 1)),
        (6, _) if n > 0 => case.refs.truncate(REF * (n - 1)),
        (7, _) => {
            case.refs.extend([rng.below(case.list.path_nos.len().max(1) as u64) as u32, rng.below(4) as u32 + STEP_RANGE * rng.below(3) as u32])
        }
        (8, _) if n > 1 => {
            // still a yes where the two are of one tile
            let k = rng.below(n as u64) as usize;
            let (a, b) = (case.refs[REF * j + 1], case.refs[REF * k + 1]);
            case.refs[REF * j + 1] = b / STEP_RANGE * STEP_RANGE + a % STEP_RANGE;
            case.refs[REF * k + 1] = a / STEP_RANGE * STEP_RANGE + b % STEP_RANGE;
        }
        (9, _) if !case.counts.is_empty() => {
            case.counts[any] = rng.pick(&[case.counts[any] + 1, case.counts[any].wrapping_sub(1), 0, 1, COUNT_MOST as u32 + 1, u32::MAX]);
        }
        (10, _) if !case.backdrops.is_empty() => {
            case.backdrops[any] = rng.pick(&[case.backdrops[any] ^ 1, !case.backdrops[any], 0, 1 << 31, i32::MAX as u32]);
        }
        (11, Some(t)) => case.stored[t] = case.stored[t].wrapping_add(rng.pick(&[1, u32::MAX])),
        (12, Some(t)) => {
            let other = some_tile(rng, &case.counts).unwrap_or(t);
            case.stored[t] = case.stored[other].wrapping_sub(rng.below(case.counts[other] as u64 + 1) as u32);
        }
        (13, Some(t)) => case.stored[t] = rng.pick(&[!case.room, !case.room.wrapping_sub(1), 0, 1, 1 << 31]),
        (14, Some(t)) => {
            case.room = rng.pick(&[ROOM_MOST as u32, u32::MAX]);
            case.stored[t] = !(ROOM_MOST as u32 - case.counts[t] + rng.below(2) as u32);
        }
        (15, _) if case.room > 0 => case.room = case.room.min(rng.pick(&[case.room - 1, case.room / 2, 0])),
        (16, _) if n > 0 => case.refs[REF * j + 1] = case.refs[REF * j + 1].wrapping_add(rng.below(12) as u32),
        _ => return "no damage that fits",
    }
    KINDS[kind]
}

/// Lengths and lines that a caller may get wrong.
fn spoil(rng: &mut Rng, case: &mut Case) {
    match rng.below(16) {
        0 => _ = case.list.coords.pop(),
        1 => _ = case.list.path_nos.pop(),
        2 => case.refs.push(7),
        3 => _ = case.backdrops.pop(),
        4 => _ = case.stored.pop(),
        5 => _ = case.counts.pop(),
        6 | 7 => case.work = case.work.saturating_sub(1 + rng.below(9) as usize),
        8 => case.list.paths = no_tiles(PATHS_MOST as usize + !rng.one_in(6) as usize),
        9 if rng.one_in(20) => {
            // as many lines as have numbers, or one more
            let n = LINES_MOST as usize + rng.below(2) as usize;
            (case.list.path_nos, case.list.coords) = (vec![0; n], vec![0; LINE * n]);
            case.list.paths = path([0, 0, 2, 2], 0).to_vec();
            for t in [&mut case.counts, &mut case.backdrops, &mut case.stored] {
                *t = vec![0; 4];
            }
            case.refs.clear();
            case.work = work_words(4, n, 0);
        }
        9..=12 => spoil_line(rng, &mut case.list.path_nos, &mut case.list.coords, &case.list.paths),
        _ => boxes::spoil(rng, &mut case.list.paths, case.counts.len()),
    }
}

impl Stage for Check {
    type Case = Case;
    const NAME: &'static str = "check";
    const REACHED: &'static [u32] = &[0, 1, 2, 3, 4, 6, 7, 9, 10];
    const LEAST: u64 = if ours::BRIDGED { 6_000 } else { 60_000 };

    fn make(&self, rng: &mut Rng) -> Case {
        let mut list = count::long_list(rng);
        list.path_nos.truncate(rng.range(1, 40) as usize);
        list.coords.truncate(LINE * list.path_nos.len());
        let tables = tables(&list);
        let whole = tables.is_some();
        let tiles = list.counts.len();
        let (refs, counts, backdrops, stored) = tables.unwrap_or_else(|| (vec![], vec![0; tiles], vec![0; tiles], vec![0; tiles]));
        let room = (refs.len() / REF) as u32;
        let mut case = Case { list, refs, counts, backdrops, stored, room, work: 0, whole, damage: "none" };
        if rng.coin() {
            shuffle(rng, &mut case.refs);
        }
        if rng.coin() {
            spread(rng, &mut case);
        }
        if whole && !rng.one_in(5) {
            case.damage = damage(rng, &mut case);
            case.whole = false;
        }
        let asked = work_words(tiles, case.list.path_nos.len(), case.refs.len() / REF);
        case.work = asked + if rng.coin() { 0 } else { rng.below(20) as usize };
        if rng.one_in(3) {
            spoil(rng, &mut case);
            case.whole = false;
        }
        case
    }

    fn check(&self, case: &Case, sides: Sides, table: &mut Table) -> Result<(), String> {
        let read = [&case.list.path_nos, &case.list.coords, &case.list.paths, &case.refs, &case.counts, &case.backdrops, &case.stored];
        let lent = read.map(|words| Lent::new(words));
        let before: Vec<u32> = (0..case.work).map(|k| 0x5eed_0000 + k as u32).collect();
        macro_rules! asked {
            ($side:ident) => {{
                let (mut work, mut found, mut item) = (Lent::new(&before), 0xabcd, 0xabcd);
                let number = $side::check(
                    lent[0].u32s(),
                    lent[1].f32s(),
                    lent[2].u32s(),
                    lent[3].u32s(),
                    lent[4].u32s(),
                    lent[5].i32s(),
                    lent[6].u32s(),
                    case.room,
                    work.u32s_mut(),
                    &mut found,
                    &mut item,
                );
                (number, found, item, work)
            }};
        }
        let (number, found, item, work) = asked!(rules);
        table.answer(number);
        table.add(&found_row(found), 1);
        if number == 0 && found != FOUND_YES {
            table.add(&format!("no: {}", case.damage), 1);
        }
        if case.whole {
            same("tables of the rules' own making", (number, found), (0, FOUND_YES))?;
        }
        if sides.ours {
            let ours = asked!(ours);
            same("answer, what was found, item", (ours.0, ours.1, ours.2), (number, found, item))?;
            same_words("working room", ours.3.u32s(), work.u32s())?;
            same("guards of the working room", ours.3.guards_stand(), true)?;
        }
        for (lent, held) in lent.iter().zip(read) {
            same_words("what is lent to be read", lent.u32s(), held)?;
            same("guards of what is lent to be read", lent.guards_stand(), true)?;
        }
        if sides.rust && case.whole {
            made_by_the_rust(case, sides, table)?;
        }
        Ok(())
    }

    fn smaller(&self, case: &Case) -> Vec<Case> {
        let mut out = vec![];
        for j in 0..(case.refs.len() / REF).min(60) {
            let mut c = case.clone();
            c.refs.drain(REF * j..REF * (j + 1));
            out.push(c);
        }
        out
    }

    fn show(&self, case: &Case) -> String {
        let c = case;
        if c.list.paths.len() > 200 || c.list.path_nos.len() > 200 {
            return format!("  {} paths, {} lines, damage: {}", paths_in(&c.list.paths), c.list.path_nos.len(), c.damage);
        }
        format!(
            "  damage: {}\n  paths {:?}\n  path numbers {:?}, coordinates {}\n  references {}\n  counts {:?}\n  backdrops {}\n  stored {}\n  room {}, working room {}",
            c.damage,
            c.list.paths,
            c.list.path_nos,
            hex(&c.list.coords),
            hex(&c.refs),
            c.counts,
            hex(&c.backdrops),
            hex(&c.stored),
            c.room,
            c.work
        )
    }

    /// Every table named, a yes, and tables that the Rust made.
    fn rows_wanted(&self) -> Vec<(String, u64)> {
        let least = if ours::BRIDGED { 50 } else { 1_000 };
        let mut rows: Vec<(String, u64)> = (0..FOUND.len() as u32).map(|f| (found_row(f), least)).collect();
        rows.extend(oracle::AT_HAND.then(|| (BY_THE_RUST.to_string(), least)));
        rows
    }
}

const BY_THE_RUST: &str = "tables that the Rust made, yes";

const FOUND: [&str; 6] = ["nothing", "yes", "a reference", "a count", "a backdrop", "slots"];

fn found_row(found: u32) -> String {
    format!("found {}", FOUND.get(found as usize).copied().unwrap_or("what has no meaning"))
}

/// References, counts and backdrops as the unchanged Rust makes them of the same lines: with these stored words they are answered yes.
fn made_by_the_rust(case: &Case, sides: Sides, table: &mut Table) -> Result<(), String> {
    let list = &case.list;
    let mut memory = count::Memory::of(list);
    let (mut made, mut stopped) = (0, false);
    let n = list.path_nos.len();
    memory.lend(|b, c, r, _, _| {
        match oracle::count(&list.path_nos, cases::memory::as_f32(&list.coords), &list.paths, b, c, r, 0, n, 0) {
            Ok(m) => made = m,
            Err(oracle::Stopped) => stopped = true,
        }
        0
    });
    same("the Rust panicked", stopped, false)?;
    let refs = &memory.refs.u32s()[..REF * made as usize];
    let (coords, counts, stored) = (Lent::new(&list.coords), memory.counts.u32s(), &case.stored);
    let asked = work_words(counts.len(), n, made as usize);
    let said = |by_ours: bool| {
        let (mut work, mut found, mut item) = (vec![7; asked], 0, 0);
        let call = if by_ours { ours::check } else { rules::check };
        let no = call(
            &list.path_nos,
            coords.f32s(),
            &list.paths,
            refs,
            counts,
            memory.backdrops.i32s(),
            stored,
            case.room,
            &mut work,
            &mut found,
            &mut item,
        );
        (no, found, item)
    };
    same("by the rules, of tables that the Rust made: answer, what was found, item", said(false), (0, FOUND_YES, 0))?;
    if sides.ours {
        same("of tables that the Rust made: answer, what was found, item", said(true), (0, FOUND_YES, 0))?;
    }
    table.add(BY_THE_RUST, 1);
    Ok(())
}
