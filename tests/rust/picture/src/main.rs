//! The archive's writer and reader of pictures, for tests/netpbm/run:
//!
//!     picture again FILE             reads the file and writes the picture again, to standard output
//!     picture dress SEED FILE        the same picture under a header with comments and odd white space
//!     picture damaged SEED N FILE..  N files damaged, of those given: each gets what the rules give
//!     picture writes SEED N          N calls of the writer, of any size: each gets what the rules give, and is read back

mod files;

use ::rules::limits::SIDE_MOST;
use ::rules::picture as rules;
use cases::Rng;
use std::collections::BTreeMap;
use std::io::Write;
use std::{env, fs, process};

/// What memory that is lent holds before.
const BEFORE: u8 = 0xa5;

fn fail(said: String) -> ! {
    eprintln!("picture: {said}");
    process::exit(1)
}

fn bytes_of(name: &str) -> Vec<u8> {
    fs::read(name).unwrap_or_else(|e| fail(format!("{name}: {e}")))
}

fn print(bytes: &[u8]) {
    std::io::stdout().write_all(bytes).unwrap_or_else(|e| fail(e.to_string()));
}

/// Reads a file with so much room, and holds the answer and all the bytes lent against the rules.
fn read_as_ruled(file: &[u8], room: usize) -> Result<(u32, u32, Vec<u8>), u32> {
    let mut out = vec![BEFORE; room];
    let (mut width, mut height) = (u32::MAX, u32::MAX);
    let found = (ours::ppm_read(file, &mut out, &mut width, &mut height), width, height);
    let (answer, lent) = match rules::read(file, room) {
        Ok((width, height, raster)) => ((rules::DONE, width, height), [raster, &vec![BEFORE; room - raster.len()]].concat()),
        Err(number) => ((number, 0, 0), vec![BEFORE; room]),
    };
    if found != answer || out != lent {
        fail(format!("{found:?} in the place of {answer:?}, or other bytes, for room {room} and {:?}", String::from_utf8_lossy(file)));
    }
    match found {
        (rules::DONE, width, height) => Ok((width, height, out)),
        (number, ..) => Err(number),
    }
}

fn write_as_ruled(pixels: &[u32], width: u32, height: u32, room: usize) -> Result<Vec<u8>, u32> {
    let mut out = vec![BEFORE; room];
    let mut size = usize::MAX;
    let found = (ours::ppm_write(pixels, width, height, &mut out, &mut size), size);
    let ruled = rules::write(pixels, width, height, room);
    let (answer, lent) = match &ruled {
        Ok(file) => ((rules::DONE, file.len()), [file, &vec![BEFORE; room - file.len()][..]].concat()),
        Err(number) => ((*number, 0), vec![BEFORE; room]),
    };
    if found != answer || out != lent {
        fail(format!("{found:?} in the place of {answer:?}, or other bytes, for {width} by {height}, {} pixels, room {room}", pixels.len()));
    }
    ruled
}

fn again(name: &str) {
    let file = bytes_of(name);
    let Ok((width, height, raster)) = read_as_ruled(&file, file.len()) else { fail(format!("{name} isn't read")) };
    let raster = &raster[..3 * width as usize * height as usize];
    let pixels: Vec<u32> = raster.chunks_exact(3).map(|p| u32::from_le_bytes([p[0], p[1], p[2], BEFORE])).collect();
    print(&write_as_ruled(&pixels, width, height, file.len() + 32).unwrap_or_else(|no| fail(format!("{name} isn't written: {no}"))));
}

fn told(what: &str, found: BTreeMap<u32, u64>, wanted: &[u32]) {
    let list: Vec<String> = found.iter().map(|(number, n)| format!("{number} {n} times")).collect();
    println!("{what}: {}", list.join(", "));
    for number in wanted {
        if found.get(number).is_none_or(|&n| n < 20) {
            fail(format!("number {number} was met fewer than 20 times"));
        }
    }
}

fn damaged(seed: u64, n: u64, names: &[String]) {
    let good: Vec<Vec<u8>> = names.iter().map(|name| bytes_of(name)).collect();
    let mut found = BTreeMap::new();
    for case in 0..n {
        let mut rng = Rng::of_case(seed, case);
        let base = &good[rng.below(good.len() as u64) as usize];
        let file = files::damaged(base, &mut rng);
        let room = if rng.one_in(3) { rng.below(base.len() as u64) as usize } else { file.len() + rng.below(9) as usize };
        let answer = read_as_ruled(&file, room);
        *found.entry(answer.map_or_else(|number| number, |_| rules::DONE)).or_default() += 1;
    }
    told("damaged files", found, &[rules::DONE, rules::NO_ROOM, rules::BAD_SIZE, rules::BAD_FILE]);
}

fn side(rng: &mut Rng) -> u32 {
    match rng.below(12) {
        0 => rng.pick(&[0, SIDE_MOST + 1, u32::MAX, 1 << 31]),
        1 => SIDE_MOST,
        _ => 1 + rng.below(20) as u32,
    }
}

fn writes(seed: u64, n: u64) {
    let mut found = BTreeMap::new();
    for case in 0..n {
        let mut rng = Rng::of_case(seed, case);
        let (width, height) = (side(&mut rng), side(&mut rng));
        let area = (width as u64 * height as u64).min(400_000) as usize;
        let number = if rng.one_in(5) { area.saturating_add_signed(rng.range(-1, 1) as isize) } else { area };
        let pixels: Vec<u32> = (0..number).map(|_| rng.u32()).collect();
        let size = rules::write(&pixels, width, height, usize::MAX).map_or(40, |file| file.len());
        let room = size.saturating_add_signed(rng.range(-2, 2) as isize);
        let answer = write_as_ruled(&pixels, width, height, room);
        *found.entry(answer.as_ref().map_or_else(|no| *no, |_| rules::DONE)).or_default() += 1;
        let Ok(file) = answer else { continue };
        let raster: Vec<u8> = pixels.iter().flat_map(|p| p.to_le_bytes()[..3].to_vec()).collect();
        if read_as_ruled(&file, raster.len()) != Ok((width, height, raster)) {
            fail(format!("a picture of {width} by {height} isn't read as it was written"));
        }
    }
    told("pictures written and read back", found, &[rules::DONE, rules::NOT_WHOLE, rules::NO_ROOM, rules::BAD_SIZE]);
}

fn main() {
    let words: Vec<String> = env::args().skip(1).collect();
    let number = |k: usize| words.get(k).and_then(|w| w.parse().ok()).unwrap_or_else(|| fail("a number is missing".into()));
    match words.first().map(String::as_str) {
        Some("again") if words.len() == 2 => again(&words[1]),
        Some("dress") if words.len() == 3 => {
            let file = bytes_of(&words[2]);
            let dressed = files::dressed(&file, &mut Rng::new(number(1)));
            print(&dressed.unwrap_or_else(|| fail(format!("{} has no plain header", words[2]))));
        }
        Some("damaged") if words.len() > 3 => damaged(number(1), number(2), &words[3..]),
        Some("writes") if words.len() == 3 => writes(number(1), number(2)),
        _ => fail("again FILE | dress SEED FILE | damaged SEED N FILE.. | writes SEED N".into()),
    }
}
