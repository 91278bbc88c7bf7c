//! How long our reader of path data takes, beside svgtypes' (Debian's librust-svgtypes-dev): texts of 10 kB to 10 MB, each whole.
//! svgtypes gives commands with their numbers; ours gives the lines, in two passes over the text after its check.
//!
//!     cd tests/svg/speed && GROATPOCKET_LIB=.. cargo run --release --offline [ROUNDS]

use std::hint::black_box;

/// Lines and curves as drawing programs write them, to about so many bytes.
fn text(kind: &str, bytes: usize) -> String {
    let mut out = String::from("M100.5,200.25");
    let mut n = 1u32;
    while out.len() < bytes {
        n = n.wrapping_mul(1_664_525).wrapping_add(1_013_904_223);
        let (a, b, c) = (n % 1000, n / 1000 % 1000, n / 1_000_000);
        match kind {
            "lines" => out += &format!(" L{a}.{:03},{b}.{:03}", c % 1000, c / 3 % 1000),
            "small steps" => out += &format!("l{}-{}", a % 10, b % 10),
            _ => out += &format!(" q{a}.5 -{b} {}.25 {c}", b % 100),
        }
    }
    out
}

/// This thread's own time on the processor, so that a busy machine disturbs less.
fn now() -> f64 {
    extern "C" {
        fn clock_gettime(clock: i32, time: *mut [i64; 2]) -> i32;
    }
    const THREAD_CPUTIME: i32 = 3;
    let mut time = [0; 2];
    // SAFETY: a timespec of Linux on 64 bits is two i64.
    unsafe { clock_gettime(THREAD_CPUTIME, &mut time) };
    time[0] as f64 + 1e-9 * time[1] as f64
}

fn median(mut times: Vec<f64>) -> f64 {
    times.sort_by(f64::total_cmp);
    times[times.len() / 2]
}

fn main() {
    let rounds: usize = std::env::args()
        .nth(1)
        .and_then(|n| n.parse().ok())
        .unwrap_or(9);
    println!(
        "| Text | Bytes | svgtypes, MB/s | ours, MB/s | ratio of times |\n|---|---|---|---|---|"
    );
    for kind in ["lines", "small steps", "curves, depth 0", "curves, depth 4"] {
        let depth = if kind.ends_with('4') { 4 } else { 0 };
        for bytes in [10_000, 100_000, 1_000_000, 10_000_000] {
            let text = text(kind, bytes);
            let room = bytes / 4 * if depth == 4 { 4 } else { 1 } + 10;
            let (mut path_nos, mut coords) = (vec![0; room], vec![0.0; 4 * room]);
            let mut segments = Vec::with_capacity(room);
            let (mut theirs, mut ours) = (vec![], vec![]);
            for _ in 0..=rounds {
                segments.clear();
                let began = now();
                segments.extend(
                    svgtypes::PathParser::from(black_box(text.as_str()))
                        .map(|s| s.expect("path data")),
                );
                theirs.push(now() - began);
                black_box(&segments);
                let began = now();
                let n = groatpocket::svg_lines(
                    black_box(text.as_bytes()),
                    depth,
                    0,
                    &mut path_nos,
                    &mut coords,
                )
                .expect("path data");
                ours.push(now() - began);
                // all but the move draw, and the outline is closed
                assert_eq!(
                    n,
                    ((segments.len() - 1) << if kind.starts_with("curves") { depth } else { 0 })
                        + 1
                );
            }
            let (theirs, ours) = (median(theirs), median(ours));
            let speed = |seconds: f64| text.len() as f64 / seconds / 1e6;
            println!(
                "| {kind} | {} | {:.0} | {:.0} | {:.2} |",
                text.len(),
                speed(theirs),
                speed(ours),
                ours / theirs
            );
        }
    }
}
