//! Lines from path data: texts of the language, damaged and cut ones, at every depth, with room that is enough or not.

use crate::stage::{same, same_words, Sides, Stage};
use crate::table::Table;
use cases::memory::{Lent, LentBytes};
use cases::{texts, Rng};
use rules::limits::LINE;
use rules::svg::DEPTH_MOST;

/// What numbers told and words lent hold before the call.
const HELD: u32 = 0xffb1_abcd;

#[derive(Clone, Debug)]
pub struct Case {
    text: Vec<u8>,
    kind: &'static str,
    depth: u32,
    path: u32,
    path_nos: usize,
    coords: usize,
}

pub struct SvgLines;

/// Everything that a call tells and leaves.
struct Outcome {
    number: u32,
    lines: usize,
    place: usize,
    path_nos: Lent,
    coords: Lent,
}

macro_rules! asked {
    ($side:ident, $case:expr, $text:expr) => {{
        let (mut path_nos, mut coords) = (Lent::new(&vec![HELD; $case.path_nos]), Lent::new(&vec![HELD; $case.coords]));
        let (mut lines, mut place) = (HELD as usize, HELD as usize);
        let number = $side::svg_lines($text.u8s(), $case.depth, $case.path, path_nos.u32s_mut(), coords.f32s_mut(), &mut lines, &mut place);
        Outcome { number, lines, place, path_nos, coords }
    }};
}

fn text(rng: &mut Rng) -> (Vec<u8>, &'static str) {
    let commands = if rng.one_in(8) { rng.below(40) } else { rng.below(7) };
    let text = texts::valid(rng, commands);
    match rng.below(10) {
        0..=3 => (text, "texts of the language"),
        4..=6 => (texts::damaged(rng, text), "texts damaged"),
        7 | 8 => (texts::cut(rng, text), "texts cut"),
        _ => {
            let n = rng.below(12);
            ((0..n).map(|_| rng.pick(texts::ODD)).collect(), "texts of any bytes")
        }
    }
}

impl Stage for SvgLines {
    type Case = Case;
    const NAME: &'static str = "svg_lines";
    const REACHED: &'static [u32] = &[0, 1, 9, 21, 22];
    const LEAST: u64 = if ours::BRIDGED { 4_000 } else { 100_000 };

    fn make(&self, rng: &mut Rng) -> Case {
        let (text, kind) = text(rng);
        let depth = if rng.one_in(16) { rng.pick(&[DEPTH_MOST + 1, DEPTH_MOST + 2, u32::MAX]) } else { rng.below(DEPTH_MOST as u64 + 1) as u32 };
        let needed = rules::svg::outline(&text, depth.min(DEPTH_MOST)).map_or(4, |lines| lines.len());
        let path_nos = match rng.below(8) {
            0 => needed.saturating_sub(1),
            1 => rng.below(needed as u64 + 1) as usize,
            2..=4 => needed,
            _ => needed + rng.below(4) as usize,
        };
        let coords = if rng.one_in(16) { (LINE * path_nos).saturating_add_signed(rng.range(-4, 4) as isize) } else { LINE * path_nos };
        Case { text, kind, depth, path: rng.u32(), path_nos, coords }
    }

    fn check(&self, case: &Case, sides: Sides, table: &mut Table) -> Result<(), String> {
        let words: Vec<u32> = case.text.iter().map(|&b| b.into()).collect();
        let text = LentBytes::of(&words);
        let wanted = asked!(rules, case, text);
        table.answer(wanted.number);
        table.add(case.kind, 1);
        table.add("lines", wanted.lines as u64);
        table.add("bytes of text", words.len() as u64);
        if !sides.ours {
            return Ok(());
        }
        let got = asked!(ours, case, text);
        same("answer", got.number, wanted.number)?;
        same("lines", got.lines, wanted.lines)?;
        same("place", got.place, wanted.place)?;
        same_words("path_nos", got.path_nos.u32s(), wanted.path_nos.u32s())?;
        same_words("coords", got.coords.u32s(), wanted.coords.u32s())?;
        same("guards", got.path_nos.guards_stand() && got.coords.guards_stand(), true)?;
        let mut after = words.clone();
        text.give_back(&mut after);
        same_words("text lent to be read", &after, &words)
    }

    fn smaller(&self, case: &Case) -> Vec<Case> {
        let without = |k: usize| {
            let mut text = case.text.clone();
            text.remove(k);
            Case { text, ..case.clone() }
        };
        (0..case.text.len()).map(without).collect()
    }

    fn show(&self, case: &Case) -> String {
        let Case { text, depth, path, path_nos, coords, .. } = case;
        format!("  {:?}, depth {depth}, path {path}, {path_nos} path numbers, {coords} coordinates", String::from_utf8_lossy(text))
    }

    fn rows_wanted(&self) -> Vec<(String, u64)> {
        ["texts of the language", "texts damaged", "texts cut", "texts of any bytes"].map(|row| (row.to_string(), 1_000)).to_vec()
    }
}

/// One call beside the rules, with room for all its lines and one more.
fn held(text: &[u8], depth: u32) -> Result<u32, String> {
    let room = rules::svg::outline(text, depth).map_or(1, |lines| lines.len() + 1);
    let case = Case { text: text.to_vec(), kind: "", depth, path: 3, path_nos: room, coords: LINE * room };
    let mut table = Table::default();
    SvgLines.check(&case, Sides { ours: true, rust: false }, &mut table)?;
    Ok(if table.answers(0) == 1 { 0 } else { rules::limits::BAD_TEXT })
}

fn told(what: &str, outcome: Result<String, String>) -> bool {
    match &outcome {
        Ok(said) => println!("{}: {what}: {said}", SvgLines::NAME),
        Err(said) => println!("DIFFERENT: {}: {what}: {said}", SvgLines::NAME),
    }
    outcome.is_ok()
}

/// Every prefix of texts of the language.
fn prefixes(n: u64) -> Result<String, String> {
    let (mut met, mut whole) = (0, 0);
    for k in 0..n {
        let mut rng = Rng::of_case(5, k);
        let text = texts::valid(&mut rng, 8);
        for end in 0..=text.len() {
            let number = held(&text[..end], k as u32 % 3).map_err(|said| format!("{said} in {:?}", String::from_utf8_lossy(&text[..end])))?;
            met += 1;
            whole += (number == 0) as u64;
        }
    }
    Ok(format!("{met} of {n} texts, {whole} of them texts too"))
}

/// Texts of 1 MiB: one byte over and over, after a move too; texts of the language whole, with a fault in the last byte, and cut.
fn long() -> Result<String, String> {
    const LONG: usize = 1 << 20;
    let mut tried = 0;
    let mut hold = |what: &str, text: &[u8], depth: u32| {
        tried += 1;
        held(text, depth).map_err(|said| format!("{what}: {said}"))
    };
    for (k, &b) in texts::ODD.iter().enumerate() {
        hold(&format!("byte {b:02x}"), &vec![b; LONG], k as u32 % (DEPTH_MOST + 1))?;
        let mut text = b"M1 2 ".to_vec();
        text.resize(LONG, b);
        hold(&format!("a move, then byte {b:02x}"), &text, 0)?;
    }
    for (before, again) in [("M1 2", "l3-4"), ("M1 2q", "3 4-5-6 "), ("M0 0", "Z"), ("M0 0h", "1.5.5"), ("M0 0", "M5,5V6"), ("m", "1,1 ")] {
        let mut text = before.as_bytes().to_vec();
        while text.len() < LONG {
            text.extend(again.as_bytes());
        }
        hold(again, &text, 2)?;
        text.push(b'!');
        hold(&format!("{again} with a fault at the end"), &text, 2)?;
        text.truncate(LONG);
        hold(&format!("{again} cut"), &text, 2)?;
    }
    Ok(format!("{tried} calls"))
}

/// Numbers `from..to` in thousandths, each with three digits after the point, in one text: std's own parse gives the same floats.
fn numbers_of(from: u64, to: u64, sign: &str) -> Result<(), String> {
    use std::fmt::Write;
    let mut text = String::from("M0 0H");
    let mut ends = vec![];
    for n in from..to {
        let _ = write!(text, "{sign}{}.{:03} ", n / 1_000, n % 1_000);
        ends.push(text.len() - 1);
    }
    let room = ends.len() + 1;
    let (mut path_nos, mut coords) = (vec![0; room], vec![0.0; LINE * room]);
    let (mut lines, mut place) = (0, 0);
    let number = ours::svg_lines(text.as_bytes(), 0, 0, &mut path_nos, &mut coords, &mut lines, &mut place);
    same("answer and lines", (number, lines), (0, room))?;
    let mut begin = 5;
    for (end, line) in ends.into_iter().zip(coords.chunks(LINE)) {
        let word = &text[begin..end];
        same(word, line[2].to_bits(), word.parse::<f32>().unwrap().to_bits())?;
        begin = end + 1;
    }
    Ok(())
}

/// Thousandths that a number can have: six digits before the point, three after.
const THOUSANDTHS: u64 = 1_000_000_000;
/// Numbers to a text.
const BLOCK: u64 = 10_000;

/// One block of numbers in so many, and the first and last of them.
fn numbers(share: u64, seed: u64) -> Result<String, String> {
    let mut n = 0;
    for block in 0..THOUSANDTHS / BLOCK {
        if block % share == seed % share || block == 0 || block == THOUSANDTHS / BLOCK - 1 {
            numbers_of(block * BLOCK, (block + 1) * BLOCK, if block % 2 == 0 { "" } else { "-" })?;
            n += BLOCK;
        }
    }
    Ok(format!("{} numbers, each as std's own parse has it", crate::table::spaced(n)))
}

/// What isn't random: every prefix, long texts, and a share of all numbers.
pub fn fixed() -> bool {
    let few = if ours::BRIDGED { 20 } else { 400 };
    told("every prefix", prefixes(few)) & told("texts of 1 MiB", long()) & told("numbers", numbers(if ours::BRIDGED { 20_000 } else { 500 }, 17))
}

/// All numbers of six digits and three, from one share of them to the next.
pub fn all_numbers(share: u64, seed: u64) -> bool {
    told("numbers", numbers(share, seed))
}
