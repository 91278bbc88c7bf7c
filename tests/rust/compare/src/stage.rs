//! Runs a stage's cases over threads, within a budget, and makes a failing case smaller.

use crate::table::{spaced, Table};
use cases::Rng;
use std::sync::atomic::{AtomicBool, AtomicU64, Ordering};
use std::sync::Mutex;
use std::time::{Duration, Instant};

/// What is held against what.
#[derive(Clone, Copy)]
pub struct Sides {
    /// The archive's calls.
    pub ours: bool,
    /// The unchanged Rust, wherever the rules accept.
    pub rust: bool,
}

pub trait Stage: Sync {
    type Case: Clone + Send;
    const NAME: &'static str;
    /// The answers that inputs can meet, each wanted at least `LEAST` times.
    const REACHED: &'static [u32];
    /// Cases to run however long they take.
    const LEAST: u64;

    fn make(&self, rng: &mut Rng) -> Self::Case;
    fn check(&self, case: &Self::Case, sides: Sides, table: &mut Table) -> Result<(), String>;
    /// Cases that are a little smaller.
    fn smaller(&self, case: &Self::Case) -> Vec<Self::Case>;
    fn show(&self, case: &Self::Case) -> String;

    /// Further rows of the table that are wanted, each at least so many times.
    fn rows_wanted(&self) -> Vec<(String, u64)> {
        vec![]
    }
}

#[derive(Clone, Copy)]
pub struct Budget {
    pub seed: u64,
    pub time: Duration,
    /// Where given, exactly so many cases.
    pub cases: Option<u64>,
    pub threads: u64,
    /// A difference isn't made smaller.
    pub as_found: bool,
}

/// How often each answer that can be met is wanted. Through an emulator a call takes many times as long.
const LEAST: u64 = if ours::BRIDGED { 50 } else { 1_000 };

/// A check whose panic (a guard word changed, a call that faulted, a fault of the runner) is a difference too.
fn checked<S: Stage>(stage: &S, case: &S::Case, sides: Sides, table: &mut Table) -> Result<(), String> {
    oracle::caught_saying(|| stage.check(case, sides, table)).unwrap_or_else(|said| Err(format!("panicked: {said}")))
}

fn shrink<S: Stage>(stage: &S, mut case: S::Case, mut said: String, sides: Sides) -> (S::Case, String) {
    let until = Instant::now() + Duration::from_secs(10);
    'again: loop {
        for candidate in stage.smaller(&case) {
            if Instant::now() > until {
                break 'again;
            }
            if let Err(now) = checked(stage, &candidate, sides, &mut Table::default()) {
                case = candidate;
                said = now;
                continue 'again;
            }
        }
        break;
    }
    (case, said)
}

/// Runs the stage; true where nothing differed and every answer was met often enough.
pub fn run<S: Stage>(stage: &S, sides: Sides, budget: Budget) -> bool {
    let began = Instant::now();
    let next = AtomicU64::new(0);
    let halt = AtomicBool::new(false);
    let all = Mutex::new(Table::default());
    let failed: Mutex<Option<(u64, S::Case, String)>> = Mutex::new(None);
    std::thread::scope(|scope| {
        for _ in 0..budget.threads {
            scope.spawn(|| {
                let mut table = Table::default();
                while !halt.load(Ordering::Relaxed) {
                    let from = next.fetch_add(16, Ordering::Relaxed);
                    let over = match budget.cases {
                        Some(n) => from >= n,
                        None => from >= S::LEAST && began.elapsed() >= budget.time,
                    };
                    if over {
                        break;
                    }
                    for n in from..(from + 16).min(budget.cases.unwrap_or(u64::MAX)) {
                        let case = stage.make(&mut Rng::of_case(budget.seed, n));
                        if let Err(said) = checked(stage, &case, sides, &mut table) {
                            halt.store(true, Ordering::Relaxed);
                            let mut failed = failed.lock().unwrap();
                            if failed.is_none() {
                                *failed = Some((n, case, said));
                            }
                            break;
                        }
                        table.add("cases", 1);
                    }
                }
                all.lock().unwrap().join(&table);
            });
        }
    });
    let all = all.into_inner().unwrap();
    println!("{}: {} cases in {:.1} s", S::NAME, spaced(all.get("cases")), began.elapsed().as_secs_f64());
    all.print();
    if let Some((n, case, said)) = failed.into_inner().unwrap() {
        let (case, said) = if budget.as_found { (case, said) } else { shrink(stage, case, said, sides) };
        println!("DIFFERENT: {} case {n} of seed {}: {said}\n{}", S::NAME, budget.seed, stage.show(&case));
        return false;
    }
    let mut well = true;
    for &number in S::REACHED {
        if budget.cases.is_none() && all.answers(number) < LEAST {
            println!("TOO FEW: {} answer {number} was met {} times", S::NAME, all.answers(number));
            well = false;
        }
    }
    for (row, least) in stage.rows_wanted() {
        if budget.cases.is_none() && all.get(&row) < least {
            println!("TOO FEW: {}, {row} was met {} times, not {least}", S::NAME, all.get(&row));
            well = false;
        }
    }
    well
}

/// The first place where two slices differ, in words.
pub fn same_words(what: &str, got: &[u32], wanted: &[u32]) -> Result<(), String> {
    if got == wanted {
        return Ok(());
    }
    if got.len() != wanted.len() {
        return Err(format!("{what}: {} words, not {}", got.len(), wanted.len()));
    }
    let k = got.iter().zip(wanted).position(|(a, b)| a != b).unwrap();
    Err(format!("{what}: word {k} is {:08x}, not {:08x}", got[k], wanted[k]))
}

pub fn same<T: PartialEq + std::fmt::Debug>(what: &str, got: T, wanted: T) -> Result<(), String> {
    if got == wanted {
        return Ok(());
    }
    Err(format!("{what}: {got:?}, not {wanted:?}"))
}

/// A slice's words in hex.
pub fn hex(words: &[u32]) -> String {
    words.iter().map(|w| format!("{w:08x}")).collect::<Vec<_>>().join(" ")
}
