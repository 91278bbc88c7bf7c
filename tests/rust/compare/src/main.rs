//! The comparison at scale.
//!
//!     cargo run --profile checked -p compare -- [MODE] [--stage NAME] [--seconds N] [--cases N] [--seed N] [--threads N] [--by-hand] [--as-found]
//!
//! Modes: `all` (the default: the archive beside the rules and the unchanged Rust, about two minutes in all),
//! `rules-vs-oracle` (no archive needed: build with --no-default-features), `findings` (what was found in the Rust,
//! with the smallest inputs), `lists` (the gate's lists replayed),
//! `leaks` (closed outlines whose marks in a row don't add up to 0; `--cases N`: of each family), `limits` (those that need long slices, some hundreds of megabytes), `all-floats` (every bit pattern of the
//! one-argument helpers), `all-numbers` (every number of six digits and three in a text of SVG; `--cases N`: one in N).
//! `--as-found` leaves a difference as it was found, and doesn't make it smaller.
//! Ends with a status other than 0 where anything differed or an answer was met too seldom: 1; 3 where nothing differed, but
//! the Rust's source isn't at hand.

mod backdrop;
mod borders;
mod boxes;
mod calls;
mod check;
mod count;
#[rustfmt::skip]
mod dispatch;
mod draw;
mod fill;
mod findings;
mod fine;
mod fine_rows;
mod floats;
mod frame;
mod hand_out;
mod hostile;
mod leaks;
mod limits;
mod lists;
mod order;
mod origin;
mod picture;
mod pixel;
mod recount;
mod sizes;
mod stage;
mod svg_lines;
mod table;
mod tiling;
mod write_lists;

use stage::{Budget, Sides, Stage};
use std::time::Duration;

struct Args {
    mode: String,
    only: Option<String>,
    seconds: Option<f64>,
    /// How much longer than in the test script.
    longer: f64,
    cases: Option<u64>,
    seed: u64,
    threads: u64,
    as_found: bool,
}

fn args() -> Args {
    let mut out = Args {
        mode: "all".into(),
        only: None,
        seconds: None,
        longer: 1.0,
        cases: None,
        seed: 1,
        threads: std::thread::available_parallelism().map_or(1, |n| n.get() as u64),
        as_found: false,
    };
    let mut words = std::env::args().skip(1);
    while let Some(word) = words.next() {
        let mut value = || words.next().unwrap_or_else(|| fail(&format!("{word} wants a value")));
        match word.as_str() {
            "--stage" => out.only = Some(value()),
            "--seconds" => out.seconds = Some(number(&value())),
            "--cases" => out.cases = Some(number(&value())),
            "--seed" => out.seed = number(&value()),
            "--threads" => out.threads = number(&value()),
            "--by-hand" => out.longer = 20.0,
            "--as-found" => out.as_found = true,
            w if w.starts_with("--") => out.mode = w[2..].into(),
            w => out.mode = w.into(),
        }
    }
    out
}

fn number<T: std::str::FromStr>(word: &str) -> T {
    word.parse().unwrap_or_else(|_| fail(&format!("{word} isn't a number")))
}

fn fail(said: &str) -> ! {
    eprintln!("{said}");
    std::process::exit(2)
}

fn run<S: Stage>(stage: &S, args: &Args, linked: bool, seconds: f64) -> bool {
    if args.only.as_deref().is_some_and(|only| only != S::NAME) {
        return true;
    }
    let ours = linked && args.mode != "rules-vs-oracle";
    if !ours && args.mode != "rules-vs-oracle" {
        println!("{}: NOT LINKED, LEFT OUT", S::NAME.to_uppercase());
        return true;
    }
    let seconds = args.seconds.unwrap_or(seconds * args.longer);
    let budget =
        Budget { seed: args.seed, time: Duration::from_secs_f64(seconds), cases: args.cases, threads: args.threads, as_found: args.as_found };
    stage::run(stage, Sides { ours, rust: oracle::AT_HAND }, budget)
}

const STAGES: [&str; 20] = [
    "floats",
    "backdrop",
    "hand_out",
    "count",
    "tile",
    "fill",
    "fine",
    "fine_rows",
    "frame",
    "write_lists",
    "picture",
    "draw",
    "pixel",
    "recount",
    "boxes",
    "check",
    "sizes",
    "svg_lines",
    "order",
    hostile::Hostile::NAME,
];

fn stages(args: &Args) -> bool {
    if let Some(only) = args.only.as_deref().filter(|only| !STAGES.contains(only)) {
        fail(&format!("no stage is named {only}: {}", STAGES.join(", ")));
    }
    let mut well = args.mode == "rules-vs-oracle" || run(&floats::Floats, args, ours::has::FLOATS, 5.0);
    if ours::has::FLOATS && args.mode != "rules-vs-oracle" && args.only.as_deref().is_none_or(|o| o == "floats") {
        well &= floats::pairs();
    }
    well &= run(&backdrop::Backdrop, args, ours::has::BACKDROP, 3.0);
    well &= run(&hand_out::HandOut, args, ours::has::HAND_OUT, 2.0);
    well &= run(&count::Count, args, ours::has::COUNT, 24.0);
    well &= run(&tiling::Tile, args, ours::has::TILE, 18.0);
    well &= run(&fill::Fill, args, ours::has::FILL, 6.0);
    well &= run(&fine::Fine, args, ours::has::FINE, 12.0);
    well &= run(&fine_rows::FineRows, args, ours::has::BANDS && ours::has::FINE, 8.0);
    well &= run(&frame::Frame, args, ours::has::FRAME, 12.0);
    well &= run(&write_lists::WriteLists, args, ours::has::LISTS, 12.0);
    well &= picture(args);
    well &= run(&draw::Draw, args, ours::has::DRAW && picture::LINKED, 8.0);
    well &= run(&pixel::Pixel, args, ours::has::PIXEL && ours::has::FILL && ours::has::FINE, 8.0);
    well &= run(&recount::Recount, args, ours::has::RECOUNT && ours::has::COUNT, 6.0);
    well &= run(&boxes::Boxes, args, ours::has::BOXES && ours::has::COUNT, 4.0);
    well &= run(&check::Check, args, ours::has::CHECK, 6.0);
    well &= run(&sizes::Sizes, args, ours::has::SIZES && ours::has::FRAME && ours::has::LISTS, 6.0);
    well &= run(&svg_lines::SvgLines, args, ours::has::SVG, 6.0);
    if ours::has::SVG && args.mode != "rules-vs-oracle" && args.cases.is_none() && args.only.as_deref().is_none_or(|o| o == "svg_lines") {
        well &= svg_lines::fixed();
    }
    if ours::has::COUNT && ours::has::BACKDROP && args.mode != "rules-vs-oracle" && args.only.as_deref().is_none_or(|o| o == "order") {
        well &= order::run(args.seconds.unwrap_or(3.0 * args.longer), args.seed);
    }
    well &= hostile(args);
    let whole = args.only.is_none();
    well & (!whole || limits::run(args.mode != "rules-vs-oracle", false))
}

fn picture(args: &Args) -> bool {
    let well = run(&picture::Picture, args, picture::LINKED, 10.0);
    let scene = picture::LINKED && args.mode != "rules-vs-oracle" && args.cases.is_none() && args.only.as_deref().is_none_or(|o| o == "picture");
    well && (!scene || picture::scene())
}

fn hostile(args: &Args) -> bool {
    let rules_alone = args.mode == "rules-vs-oracle";
    let stage = hostile::Hostile::new(rules_alone);
    run(&stage, args, !stage.kinds.is_empty(), 30.0)
}

/// Long slices are freed and taken again for every case: keep their memory, or page faults take most of the time.
fn keep_memory() {
    #[cfg(all(target_os = "linux", target_env = "gnu"))]
    {
        extern "C" {
            fn mallopt(what: i32, value: i32) -> i32;
        }
        const TRIM_THRESHOLD: i32 = -1;
        const MMAP_THRESHOLD: i32 = -3;
        // SAFETY: two settings of the C library's allocator, before any thread is started.
        unsafe {
            mallopt(TRIM_THRESHOLD, 1 << 30);
            mallopt(MMAP_THRESHOLD, 16 << 20);
        }
    }
}

fn main() {
    keep_memory();
    let args = args();
    if oracle::ALTERED {
        println!("THE RUST IS AN ALTERED COPY: nothing that is shown here counts");
    }
    if args.mode == "rules-vs-oracle" && !oracle::AT_HAND {
        not_at_hand("nothing to hold the rules against");
    }
    let well = match args.mode.as_str() {
        "all" | "rules-vs-oracle" => stages(&args),
        "all-floats" => floats::all_patterns(args.threads),
        "all-numbers" => svg_lines::all_numbers(args.cases.unwrap_or(1), args.seed),
        "lists" => lists::run(),
        "limits" => limits::run(true, true),
        "margins" => findings::margins_alone(args.cases.unwrap_or(2_000_000), args.seed),
        "leaks" => leaks::run(args.cases.unwrap_or(200_000), args.seed),
        "findings" => findings::run(args.cases.unwrap_or(2_000_000), args.seed, args.threads),
        other => fail(&format!("no mode is named {other}")),
    };
    if !well {
        println!("compare: something differed");
        std::process::exit(1);
    }
    match args.mode.as_str() {
        "all" if !oracle::AT_HAND => not_at_hand("ours and the restated rules agree in all that was run; NOTHING WAS HELD AGAINST THE RUST"),
        "all" => println!("compare: ours, the restated rules and the Rust agree in all that was run"),
        "rules-vs-oracle" => println!("compare: the restated rules and the Rust agree in all that was run; ours was not"),
        "findings" => println!("compare: the findings are made"),
        _ => println!("compare: {}: no difference", args.mode),
    }
}

fn not_at_hand(said: &str) -> ! {
    println!("compare: the ported Rust isn't at hand: {said}");
    std::process::exit(oracle::NOT_AT_HAND)
}
