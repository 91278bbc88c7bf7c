//! The format of a case, one for all stages.
//!
//! Words of eight hex digits, single spaces between them, at most 16 to a line; a line that begins with `#` is a
//! comment. Line ends mean no more than a space does. A case is
//!
//!     KIND LENGTH..        the stage's number, then a length for each slice that it is lent
//!     NUMBER..             its whole-number parameters (floats as bits)
//!     WORDS..              the slices, in order, as they are lent
//!     ANSWER ITEM ..       the refusal number, the item (0 where there is none), the running numbers if any
//!     LENGTH..             a length for each slice that is lent to be changed
//!     WORDS..              those slices afterwards
//!
//! A length below 80000000 is so many words. 80000000 + n is n words that are all the same, and one word follows.
//! Afterwards, ffffffff is a slice that holds what it held before, and no word follows.
//!
//! | kind | slices lent (* to be changed) | numbers | answer |
//! |---|---|---|---|
//! | 1 count | path_nos, coords, paths, backdrops*, counts*, refs* | end, lines, made | number, item, lines, made |
//! | 2 backdrop | paths, backdrops* | none | number, item |
//! | 3 hand_out | counts*, tally* | room | number, 0 |
//! | 4 tile | path_nos, coords, paths, stored, refs, segments*, tags* | from, to | number, item |
//! | 5 fill | segments, area* | first, number, even_odd, backdrop, x_tile, y_tile | number, 0 |
//! | 6 fine | words, segments, pixels* | width, cols, rows, from, to | number, item |
//!
//! Floats are bits, and a NaN is always 7fc00000. A case after the comment `# refused, by the rules` is one that the
//! unchanged Rust doesn't answer; its answer comes from the rules restated in tests/rust/rules.

use std::fmt::Write;

const ALIKE: u32 = 0x8000_0000;
const AS_BEFORE: u32 = 0xffff_ffff;

/// A case as it is written.
pub struct Written {
    pub kind: u32,
    pub numbers: Vec<u32>,
    pub before: Vec<Vec<u32>>,
    pub answer: Vec<u32>,
    /// Which of the slices are lent to be changed, and their content afterwards.
    pub after: Vec<(usize, Vec<u32>)>,
}

#[derive(Default)]
pub struct List {
    text: String,
    cases: u64,
    refused: u64,
    longest: Vec<usize>,
}

fn length_of(words: &[u32]) -> u32 {
    let alike = words.len() > 1 && words.iter().all(|w| *w == words[0]);
    words.len() as u32 | if alike { ALIKE } else { 0 }
}

impl List {
    pub fn say(&mut self, comment: &str) {
        writeln!(self.text, "# {comment}").unwrap();
    }

    fn line(&mut self, words: &[u32]) {
        for sixteen in words.chunks(16) {
            let hex: Vec<String> = sixteen.iter().map(|w| format!("{w:08x}")).collect();
            writeln!(self.text, "{}", hex.join(" ")).unwrap();
        }
    }

    fn slice(&mut self, words: &[u32]) {
        let alike = length_of(words) & ALIKE != 0;
        self.line(if alike { &words[..1] } else { words });
    }

    pub fn case(&mut self, case: &Written) {
        self.cases += 1;
        if case.answer[0] != 0 {
            self.refused += 1;
            self.say("refused, by the rules");
        }
        self.longest.resize(case.before.len(), 0);
        for (most, words) in self.longest.iter_mut().zip(&case.before) {
            *most = words.len().max(*most);
        }
        let lengths = case.before.iter().map(|w| length_of(w));
        let head: Vec<u32> = std::iter::once(case.kind).chain(lengths).collect();
        self.line(&head);
        self.line(&case.numbers);
        case.before.iter().for_each(|w| self.slice(w));
        self.line(&case.answer);
        let same = |(k, w): &(usize, Vec<u32>)| case.before[*k] == *w;
        let lengths: Vec<u32> = case.after.iter().map(|a| if same(a) { AS_BEFORE } else { length_of(&a.1) }).collect();
        self.line(&lengths);
        case.after.iter().filter(|a| !same(a)).for_each(|a| self.slice(&a.1));
    }

    /// The list with its head: what it is, and how many cases it has.
    pub fn finish(self, title: &str, kind: &str) -> String {
        let longest: Vec<String> = self.longest.iter().map(|n| n.to_string()).collect();
        format!(
            "# {title}\n# Written by tests/rust/gen; the format is in tests/rust/README.md.\n# {kind}\n# Cases: {}. Refused: {}. Longest slices, in words: {}.\n{}",
            self.cases, self.refused, longest.join(", "), self.text
        )
    }
}
