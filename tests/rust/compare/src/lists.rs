//! The lists of the gate, replayed by the rules and by ours: the format read as it is written down.

use crate::calls::{by_ours, by_rules, changed, linked, shape, Call, Outcome, NAMES};
use crate::stage::{same, same_words};
use cases::memory::one_nan;
use std::path::PathBuf;

const ALIKE: u32 = 0x8000_0000;
const AS_BEFORE: u32 = 0xffff_ffff;

struct Words<'a>(Box<dyn Iterator<Item = u32> + 'a>);

impl<'a> Words<'a> {
    fn of(text: &'a str) -> Words<'a> {
        let lines = text.lines().filter(|l| !l.starts_with('#'));
        Words(Box::new(lines.flat_map(|l| l.split(' ')).map(|w| u32::from_str_radix(w, 16).expect("a word of eight hex digits"))))
    }

    fn take(&mut self, n: usize) -> Vec<u32> {
        (0..n).map(|_| self.0.next().expect("the list ends with a case")).collect()
    }

    fn slice(&mut self, length: u32) -> Vec<u32> {
        if length & ALIKE == 0 {
            return self.take(length as usize);
        }
        let word = self.take(1)[0];
        vec![word; (length ^ ALIKE) as usize]
    }
}

/// A case as it stands in a list: the call, its answer, the changed slices afterwards.
fn next(words: &mut Words) -> Option<(Call, Vec<u32>, Vec<Vec<u32>>)> {
    let kind = words.0.next()?;
    let (slices, numbers) = shape(kind);
    let lengths = words.take(slices);
    let numbers = words.take(numbers);
    let call = Call { kind, numbers, slices: lengths.iter().map(|&n| words.slice(n)).collect() };
    let answer = words.take(if kind == 1 { 4 } else { 2 });
    let lengths = words.take(changed(kind).len());
    let after = changed(kind).iter().zip(lengths).map(|(&k, n)| if n == AS_BEFORE { call.slices[k].clone() } else { words.slice(n) }).collect();
    Some((call, answer, after))
}

/// The slice of floats that a call of a kind writes: a NaN in it may be any NaN.
fn floats(kind: u32) -> Option<usize> {
    match NAMES[kind as usize] {
        "tile" => Some(5),
        "fill" => Some(1),
        _ => None,
    }
}

fn holds(call: &Call, got: &Outcome, answer: &[u32], after: &[Vec<u32>]) -> Result<(), String> {
    same("answer", got.answer.as_slice(), answer)?;
    for (&k, wanted) in changed(call.kind).iter().zip(after) {
        let one: Vec<u32> = got.slices[k].u32s().iter().map(|&w| if floats(call.kind) == Some(k) { one_nan(w) } else { w }).collect();
        same_words(&format!("slice {k}"), &one, wanted)?;
    }
    Ok(())
}

pub fn run() -> bool {
    let mut well = true;
    for name in ["count", "backdrop", "hand_out", "tiling", "fill", "fine"] {
        let file = PathBuf::from(env!("CARGO_MANIFEST_DIR")).join(format!("../../../crates/replay_{name}/stdin"));
        let Ok(text) = std::fs::read_to_string(&file) else {
            println!("MISSING: crates/replay_{name}/stdin, the list of {name}");
            well = false;
            continue;
        };
        let mut words = Words::of(&text);
        let (mut cases, mut well_done, mut ours) = (0, 0, 0);
        while let Some((call, answer, after)) = next(&mut words) {
            cases += 1;
            let mut said = holds(&call, &by_rules(&call), &answer, &after);
            if linked(call.kind) {
                said = said.and(holds(&call, &by_ours(&call), &answer, &after));
                ours += 1;
            }
            match said {
                Ok(()) => well_done += 1,
                Err(said) => println!("DIFFERENT: case {cases} of {name} ({}): {said}", NAMES[call.kind as usize]),
            }
        }
        println!("{name}: {cases} cases by the rules, {ours} of them by ours; {well_done} as the list has them");
        well &= cases == well_done && cases > 0;
    }
    well
}
