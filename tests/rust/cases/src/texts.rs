//! Path data of SVG: texts of the language, texts with a fault, texts cut short.

use crate::Rng;

/// Letters, and how many numbers each takes at a time.
const LETTERS: [(u8, usize); 12] =
    [(b'M', 2), (b'm', 2), (b'L', 2), (b'l', 2), (b'H', 1), (b'h', 1), (b'V', 1), (b'v', 1), (b'Q', 4), (b'q', 4), (b'Z', 0), (b'z', 0)];

/// Bytes that a text may be damaged by: those of the language, their neighbours, letters of other commands, and others.
pub const ODD: &[u8] = b"MmLlHhVvQqZz+-..,,0123456789 \t\r\nEeCcSsTtAa/:;#%&()\x00\x0b\x0c\x80\xff\xc2\xa0";

fn white(rng: &mut Rng) -> Vec<u8> {
    let n = if rng.one_in(3) { rng.below(4) } else { 0 };
    (0..n).map(|_| rng.pick(b" \t\r\n")).collect()
}

fn digits(rng: &mut Rng, n: u64) -> Vec<u8> {
    (0..n).map(|_| b'0' + if rng.one_in(4) { rng.pick(&[0, 9]) } else { rng.below(10) as u8 }).collect()
}

/// A number: a sign or none, up to six digits, a point with up to three or none.
pub fn number(rng: &mut Rng) -> Vec<u8> {
    let mut out = vec![];
    if rng.one_in(3) {
        out.push(rng.pick(b"+-"));
    }
    let most = if rng.one_in(4) { 6 } else { 3 };
    let (whole, part) = (rng.below(most + 1), rng.below(4));
    out.extend(digits(rng, whole));
    if whole == 0 || rng.coin() {
        out.push(b'.');
        out.extend(digits(rng, if whole == 0 { part.max(1) } else { part }));
    }
    out
}

/// White space and a comma as the language has them between two numbers; nothing only where the second can't go on the first.
fn between(rng: &mut Rng, before: &[u8], after: &[u8]) -> Vec<u8> {
    let apart = matches!(after[0], b'+' | b'-') || (after[0] == b'.' && before.contains(&b'.'));
    match rng.below(4) {
        0 if apart => vec![],
        1 => [white(rng), vec![b','], white(rng)].concat(),
        _ => [vec![rng.pick(b" \t\r\n")], white(rng)].concat(),
    }
}

fn command(rng: &mut Rng, (letter, each): (u8, usize)) -> Vec<u8> {
    let mut out = [vec![letter], white(rng)].concat();
    let groups = if rng.coin() { 1 } else { 1 + rng.below(3) as usize };
    let numbers: Vec<Vec<u8>> = (0..each * groups).map(|_| number(rng)).collect();
    for (k, number) in numbers.iter().enumerate() {
        if k > 0 {
            out.extend(between(rng, &numbers[k - 1], number));
        }
        out.extend(number);
    }
    out
}

/// A text of the language, of so many commands; none is white space alone.
pub fn valid(rng: &mut Rng, commands: u64) -> Vec<u8> {
    let mut out = white(rng);
    for k in 0..commands {
        let letter = if k == 0 { rng.pick(&LETTERS[..2]) } else { rng.pick(&LETTERS) };
        out.extend(command(rng, letter));
        out.extend(white(rng));
    }
    out
}

/// A byte or two altered, put in, taken out, or two pieces changed about.
pub fn damaged(rng: &mut Rng, mut text: Vec<u8>) -> Vec<u8> {
    for _ in 0..rng.range(1, 2) {
        let at = rng.below(text.len() as u64 + 1) as usize;
        match rng.below(4) {
            0 if at < text.len() => text[at] = rng.pick(ODD),
            1 if at < text.len() => drop(text.remove(at)),
            2 => text.rotate_left(at),
            _ => text.insert(at, rng.pick(ODD)),
        }
    }
    text
}

pub fn cut(rng: &mut Rng, mut text: Vec<u8>) -> Vec<u8> {
    text.truncate(rng.below(text.len() as u64 + 1) as usize);
    text
}
