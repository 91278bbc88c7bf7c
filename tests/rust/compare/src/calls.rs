//! A call of any stage as plain words, as the lists of the gate have it (gen/src/list.rs says the order).

pub use crate::dispatch::{by_ours, by_rules, BYTES, NAMES};
use crate::dispatch::{CHANGED, LINKED, SHAPES};
use crate::stage::{same, same_words};
use cases::memory::{one_nan, Lent};

#[derive(Clone, Debug)]
pub struct Call {
    pub kind: u32,
    pub numbers: Vec<u32>,
    pub slices: Vec<Vec<u32>>,
}

/// The refusal number, the item (0 where there is none), all else that is told; and every slice afterwards.
pub struct Outcome {
    pub answer: Vec<u32>,
    pub slices: Vec<Lent>,
}

/// The kind of the call with this name.
pub const fn kind_of(name: &str) -> u32 {
    let mut kind = 1;
    while kind < NAMES.len() {
        if same_bytes(NAMES[kind].as_bytes(), name.as_bytes()) {
            return kind as u32;
        }
        kind += 1;
    }
    panic!("no call has this name")
}

const fn same_bytes(a: &[u8], b: &[u8]) -> bool {
    let mut k = 0;
    while k < a.len() && k < b.len() && a[k] == b[k] {
        k += 1;
    }
    k == a.len() && k == b.len()
}

/// The slices that a call of this kind may change.
pub fn changed(kind: u32) -> &'static [usize] {
    CHANGED[kind as usize]
}

/// How many slices and numbers a call of this kind takes.
pub fn shape(kind: u32) -> (usize, usize) {
    SHAPES[kind as usize]
}

pub fn linked(kind: u32) -> bool {
    LINKED[kind as usize]
}

/// Holds one side's outcome against the other's, and both against what was lent.
pub fn same_outcome(call: &Call, got: &Outcome, wanted: &Outcome) -> Result<(), String> {
    same("answer", &got.answer, &wanted.answer)?;
    for (k, (g, w)) in got.slices.iter().zip(&wanted.slices).enumerate() {
        let what = format!("{}, slice {k}", NAMES[call.kind as usize]);
        // an area that was filled may hold any NaN for a NaN; all else is compared by bits
        if call.kind == 5 && k == 1 && wanted.answer[0] == 0 {
            let one = |l: &Lent| l.u32s().iter().map(|&b| one_nan(b)).collect::<Vec<_>>();
            same_words(&what, &one(g), &one(w))?;
        } else {
            same_words(&what, g.u32s(), w.u32s())?;
        }
        same(&format!("{what}: guards"), g.guards_stand() && w.guards_stand(), true)?;
        if !changed(call.kind).contains(&k) {
            same_words(&format!("{what}: lent to be read"), g.u32s(), &call.slices[k])?;
        }
    }
    Ok(())
}
