//! What the program `traces` must print, by the unchanged Rust: `cargo run --profile checked -p gen --bin traces`
//! writes it to standard output, and crates/traces/stdout holds it; with the word `check` it ends with status 1 where that file
//! differs. Hand-out and tags aren't in the Rust: they are the rules'.

use rules::limits::{REF, SEGMENT};
use rules::records::{segment_floats, stamped, Line};
use std::fmt::Write;

/// The beam number of path 0.
const BEAM: u32 = 7;

fn words<T: std::fmt::Display>(words: &[T]) -> String {
    words.iter().map(|w| format!(" {w}")).collect()
}

fn bits(segment: &[f32]) -> String {
    segment.iter().map(|x| format!(" {:x}", x.to_bits())).collect()
}

fn trace(out: &mut String, name: &str, coords: Line, x0: u32) -> std::fmt::Result {
    let (path_nos, paths) = ([0], stamped([x0, 0, x0 + 2, 2], 0, BEAM));
    let (mut backdrops, mut counts, mut refs) = ([0i32; 4], [0u32; 4], [0u32; 4 * REF]);
    let made = oracle::count(&path_nos, &coords, &paths, &mut backdrops, &mut counts, &mut refs, 0, 1, 0).unwrap();
    writeln!(out, "{name}: count 0, references {made}")?;
    writeln!(out, "  counts{}", words(&counts))?;
    writeln!(out, "  backdrops{}", words(&backdrops))?;
    oracle::backdrop(&paths, &mut backdrops).unwrap();
    writeln!(out, "  sums 0:{}", words(&backdrops))?;
    let mut next = 0;
    for count in &mut counts {
        let n = *count;
        *count = if n == 0 { 0 } else { !next };
        next += n;
    }
    writeln!(out, "  hand-out 0:{}", words(&counts))?;
    let mut segments = [0.0f32; 2 * SEGMENT];
    oracle::tile(&path_nos, &coords, &paths, &counts, &refs, 0, made as usize, &mut segments).unwrap();
    writeln!(out, "  tile 0")?;
    writeln!(out, "  slot 0:{}", bits(&segments[segment_floats(0)]))?;
    writeln!(out, "  slot 1:{}", bits(&segments[segment_floats(1)]))?;
    let (mut again, mut tags) = ([0.0f32; 2 * SEGMENT], [0; 2]);
    assert_eq!(rules::tile(&path_nos, &coords, &paths, &counts, &refs, 0, made, &mut again, &mut tags, &mut 0), 0);
    writeln!(out, "  tags{}", words(&tags))
}

fn all() -> Result<String, std::fmt::Error> {
    let mut text = String::new();
    let out = &mut text;
    trace(out, "(8,8)-(8,24)", [8.0, 8.0, 8.0, 24.0], 0)?;
    trace(out, "(0,16)-(32,16)", [0.0, 16.0, 32.0, 16.0], 0)?;
    trace(out, "(0,8)-(32,8)", [0.0, 8.0, 32.0, 8.0], 0)?;
    trace(out, "(8,8)-(8,24), box from column 1", [8.0, 8.0, 8.0, 24.0], 1)?;
    trace(out, "(8,24)-(8,8), box from column 1", [8.0, 24.0, 8.0, 8.0], 1)?;
    trace(out, "(16,0)-(16,16)", [16.0, 0.0, 16.0, 16.0], 0)?;
    trace(out, "(0,4)-(8,8)", [0.0, 4.0, 8.0, 8.0], 0)?;
    Ok(text)
}

fn main() {
    if !oracle::AT_HAND {
        eprintln!("the ported Rust isn't at hand: no trace can be made or checked");
        std::process::exit(oracle::NOT_AT_HAND);
    }
    let text = all().expect("a string takes any text");
    if std::env::args().nth(1).as_deref() != Some("check") {
        return print!("{text}");
    }
    let place = concat!(env!("CARGO_MANIFEST_DIR"), "/../../../crates/traces/stdout");
    let same = std::fs::read_to_string(place).is_ok_and(|stands| stands == text);
    println!("traces: what the program prints {} what the Rust gives", if same { "is" } else { "ISN'T" });
    std::process::exit(!same as i32);
}
