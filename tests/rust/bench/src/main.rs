//! Every stage beside the unchanged Rust: same machine, same run, release builds, buffers cleared beforehand.
//!
//!     tests/rust/run bench [ROUNDS] [lists|pixel|recount|check|check-limits]
//!
//! Runs of the two are interleaved; a row has a stage at its sizes, the median time of each side for one unit of work, and
//! the ratios of ours to the Rust's. A ratio under 1 is faster than the Rust.

mod check;
mod scenes;
mod stages;

use std::fmt::Display;

/// Median nanoseconds of one unit of work, on each side.
pub struct Times {
    pub rust: f64,
    pub ours: f64,
}

/// Runs both sides in turn; each closure clears its buffers, then gives the time of the call alone.
pub fn measured(units: usize, rounds: usize, mut rust: impl FnMut() -> f64, mut ours: impl FnMut() -> f64) -> Times {
    rust();
    ours();
    let (mut theirs, mut mine) = (vec![], vec![]);
    for _ in 0..rounds {
        theirs.push(rust());
        mine.push(ours());
    }
    let each = 1e9 / units.max(1) as f64;
    Times { rust: median(theirs) * each, ours: median(mine) * each }
}

/// Median seconds of each of several forms, run in turn.
pub fn in_turn<const N: usize>(rounds: usize, mut forms: [&mut dyn FnMut() -> f64; N]) -> [f64; N] {
    let mut times = [(); N].map(|_| vec![]);
    for round in 0..=rounds {
        for (form, all) in forms.iter_mut().zip(&mut times) {
            let seconds = form();
            if round > 0 {
                all.push(seconds);
            }
        }
    }
    times.map(median)
}

/// One row: a stage at its sizes, the smallest first.
pub fn row<S: Display>(what: &str, unit: &str, sizes: &[S], times: &[Times]) {
    let all = |each: &dyn Fn(&Times) -> String| times.iter().map(each).collect::<Vec<_>>().join(" / ");
    let sizes = sizes.iter().map(|s| s.to_string()).collect::<Vec<_>>().join(" / ");
    let (rust, ours) = (all(&|t| short(t.rust)), all(&|t| short(t.ours)));
    println!("| {what} | {sizes} | {unit} | {rust} | {ours} | {} |", all(&|t| format!("{:.2}", t.ours / t.rust)));
}

fn short(nanoseconds: f64) -> String {
    format!("{nanoseconds:.*}", if nanoseconds < 100.0 { 1 } else { 0 })
}

fn median(mut times: Vec<f64>) -> f64 {
    times.sort_by(|a, b| a.total_cmp(b));
    times[times.len() / 2]
}

/// This thread's own time on the processor, so that a busy machine disturbs less.
fn now() -> f64 {
    extern "C" {
        fn clock_gettime(clock: i32, time: *mut [i64; 2]) -> i32;
    }
    const THREAD_CPUTIME: i32 = 3;
    let mut time = [0; 2];
    // SAFETY: a timespec of Linux on 64 bits is two i64.
    unsafe { clock_gettime(THREAD_CPUTIME, &mut time) };
    time[0] as f64 + 1e-9 * time[1] as f64
}

/// The seconds that `f` takes.
pub fn timed(f: impl FnOnce()) -> f64 {
    let began = now();
    f();
    now() - began
}

fn main() {
    let rounds = std::env::args().nth(1).and_then(|n| n.parse().ok()).unwrap_or(15);
    if !oracle::AT_HAND {
        println!("The ported Rust isn't at hand: nothing to measure beside.");
        return;
    }
    if ours::BRIDGED {
        println!("The archive is for another processor and would run under an emulator: times would say nothing.");
        return;
    }
    let only = std::env::args().nth(2);
    let wanted = |what: &str| only.as_deref().is_none_or(|only| only == what);
    if only.is_none() {
        beside_the_rust(rounds);
    }
    if ours::has::RECOUNT && ours::has::COUNT && wanted("recount") {
        println!(
            "\n| One path of a frame of 64 | Lines of each | the frame's count, ns | the path's count, ns | the recount, ns | its range, ns | recount to frame | less its range, to count |\n|---|---|---|---|---|---|---|---|"
        );
        stages::recount(rounds);
    }
    const CHECK: &str =
        "\n| A check beside a plain count | Lines | References | the count, ns each | the check, ns each | ratio |\n|---|---|---|---|---|---|";
    if ours::has::CHECK && ours::has::COUNT && ours::has::HAND_OUT {
        if wanted("check") {
            println!("{CHECK}");
            check::scenes(rounds);
        }
        // some 600 megabytes: by name alone
        if only.as_deref() == Some("check-limits") {
            println!("{CHECK}");
            check::limits();
        }
    }
    if ours::has::LISTS && wanted("lists") {
        println!("\n| Lists of a screen | Paths | Covered tiles | ms | a screen tile, ns | a covered tile, ns |\n|---|---|---|---|---|---|");
        stages::lists(rounds);
    }
    if ours::has::PIXEL && ours::has::FINE && wanted("pixel") {
        println!(
            "\n| One pixel beside a whole tile by fine | Fills | a tile, ns | a pixel, ns | reading, ns | its sums in plain Rust, ns | pixel to tile | less reading, 256 times |\n|---|---|---|---|---|---|---|---|"
        );
        stages::pixel(rounds);
    }
}

fn beside_the_rust(rounds: usize) {
    println!("| Stage | Sizes | Unit | the Rust, ns | ours, ns | ratio |\n|---|---|---|---|---|---|");
    if ours::has::FLOATS {
        stages::floats(rounds);
    }
    if ours::has::BACKDROP {
        stages::backdrop(rounds);
    }
    if ours::has::COUNT {
        stages::count(rounds);
    }
    if ours::has::TILE {
        stages::tile(rounds);
    }
    if ours::has::FILL {
        stages::fill(rounds);
    }
    if ours::has::FINE {
        stages::fine(rounds);
    }
    if ours::has::FRAME {
        stages::frame(rounds);
    }
}
