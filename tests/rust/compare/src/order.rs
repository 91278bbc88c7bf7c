//! The order of lines: two orders of the same list through the archive. Where no line is refused in either, counts and
//! backdrops are equal, before and after the sums.

use crate::count::{long_list, Case};
use cases::memory::as_f32;
use cases::Rng;
use rules::records::line_floats;
use std::time::{Duration, Instant};

/// Backdrops, counts, and backdrops after the sums; none where a line is refused.
fn drawn(case: &Case) -> Option<(Vec<i32>, Vec<u32>, Vec<i32>)> {
    let mut backdrops = vec![0i32; case.counts.len()];
    let (mut counts, mut refs) = (vec![0u32; case.counts.len()], case.refs.clone());
    let (mut lines, mut made, mut item) = (0, 0, 0);
    let end = case.path_nos.len() as u32;
    let no =
        ours::count(&case.path_nos, as_f32(&case.coords), &case.paths, &mut backdrops, &mut counts, &mut refs, end, &mut lines, &mut made, &mut item);
    if no != 0 {
        return None;
    }
    let mut sums = backdrops.clone();
    assert_eq!(ours::backdrop(&case.paths, &mut sums, &mut item), 0, "the sums of a count from clear tiles");
    Some((backdrops, counts, sums))
}

/// Takes the lines that are refused by themselves out, so that whole lists go through.
fn kept(case: &Case) -> Case {
    let mut out = case.clone();
    (out.path_nos, out.coords) = (vec![], vec![]);
    for (l, no) in case.path_nos.iter().enumerate() {
        let mut one = case.clone();
        one.path_nos = vec![*no];
        one.coords = case.coords[line_floats(l)].to_vec();
        if drawn(&one).is_some() {
            out.path_nos.push(*no);
            out.coords.extend(&one.coords);
        }
    }
    out
}

fn shuffled(rng: &mut Rng, case: &Case) -> Case {
    let mut order: Vec<usize> = (0..case.path_nos.len()).collect();
    for k in (1..order.len()).rev() {
        order.swap(k, rng.below(k as u64 + 1) as usize);
    }
    let mut out = case.clone();
    out.path_nos = order.iter().map(|&l| case.path_nos[l]).collect();
    out.coords = order.iter().flat_map(|&l| case.coords[line_floats(l)].to_vec()).collect();
    out
}

/// At least 1,000 pairs of orders, and as many as the time allows.
pub fn run(seconds: f64, seed: u64) -> bool {
    let (start, time) = (Instant::now(), Duration::from_secs_f64(seconds));
    let (mut pairs, mut lines, mut refused, mut n) = (0u64, 0u64, 0u64, 0u64);
    while pairs < 1_000 || start.elapsed() < time {
        let mut rng = Rng::of_case(seed ^ 0x0d0e, n);
        n += 1;
        let case = kept(&long_list(&mut rng));
        let other = shuffled(&mut rng, &case);
        let (Some(a), Some(b)) = (drawn(&case), drawn(&other)) else {
            refused += 1;
            continue;
        };
        if a != b {
            println!("order: DIFFERENT at case {n} of seed {seed}: {case:?} and {other:?}");
            return false;
        }
        pairs += 1;
        lines += case.path_nos.len() as u64;
    }
    println!("order: {pairs} pairs of orders of {lines} lines equal, {refused} left out since a line was refused");
    true
}
