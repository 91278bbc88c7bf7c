//! Command lists made from abstract commands, laid out for each side by its own encoder.

use crate::Rng;
use std::collections::BTreeMap;

/// A command, whatever its numbers are.
#[derive(Clone, Copy, Debug, PartialEq)]
pub enum Command {
    End,
    Fill {
        number: u32,
        even_odd: bool,
        first: u32,
        backdrop: i32,
    },
    Solid,
    Color(u32),
    /// To a word of the panel's list.
    Jump(u32),
    /// A tag that neither side knows.
    Unknown(u32),
}

/// The commands of one side: their numbers, and the words that SOLID takes, of which the first alone is read.
#[derive(Clone, Copy)]
pub struct Side {
    pub end: u32,
    pub fill: u32,
    pub solid: u32,
    pub color: u32,
    pub jump: u32,
    pub solid_words: usize,
}

pub const OURS: Side = Side { end: 0, fill: 1, solid: 2, color: 3, jump: 4, solid_words: 1 };
pub const RUST: Side = Side { end: 0, fill: 1, solid: 3, color: 5, jump: 12, solid_words: 2 };

impl Side {
    /// A command's words; words that aren't read are `spare`.
    pub fn words(&self, command: Command, spare: u32) -> Vec<u32> {
        match command {
            Command::End => vec![self.end],
            Command::Fill { number, even_odd, first, backdrop } => {
                vec![self.fill, number << 1 | even_odd as u32, first, backdrop as u32]
            }
            Command::Solid => {
                let mut words = vec![spare; self.solid_words];
                words[0] = self.solid;
                words
            }
            Command::Color(color) => vec![self.color, color],
            Command::Jump(to) => vec![self.jump, to],
            Command::Unknown(tag) => vec![tag],
        }
    }

    pub fn size(&self, command: Command) -> usize {
        self.words(command, 0).len()
    }

    /// Writes a command at word `at` and says where the next one goes; words past the end are dropped.
    pub fn put(&self, words: &mut [u32], at: usize, command: Command, spare: u32) -> usize {
        let own = self.words(command, spare);
        for (k, &w) in own.iter().enumerate() {
            if let Some(place) = words.get_mut(at + k) {
                *place = w;
            }
        }
        at + own.len()
    }
}

/// The commands of a screen at their places in the panel's list, and that list. The Rust's is laid from the same commands.
#[derive(Clone, Debug, Default)]
pub struct Lists {
    pub ours: Vec<u32>,
    fill: u32,
    commands: BTreeMap<usize, (Command, u32)>,
}

impl Lists {
    pub fn new(words: usize, fill: u32) -> Lists {
        Lists { ours: vec![fill; words], fill, commands: BTreeMap::new() }
    }

    /// Any words, with no commands for the Rust.
    pub fn of_words(ours: Vec<u32>) -> Lists {
        Lists { ours, ..Lists::default() }
    }

    /// Writes a command at word `at` and says where the next one goes; words past the end are dropped.
    pub fn put(&mut self, at: usize, command: Command, spare: u32) -> usize {
        self.commands.insert(at, (command, spare));
        OURS.put(&mut self.ours, at, command, spare)
    }

    /// Whether a command was written at word `at`: from there the Rust's list says the same.
    pub fn begins(&self, at: usize) -> bool {
        self.commands.contains_key(&at)
    }

    /// Leaves so many words.
    pub fn cut(&mut self, words: usize) {
        self.ours.truncate(words);
    }

    /// The Rust's list: the same commands by its own encoder, in the same order, with the same words between them.
    pub fn theirs(&self) -> Theirs {
        let mut longer = vec![];
        let mut total = 0;
        for (&at, &(command, _)) in &self.commands {
            total += RUST.size(command) - OURS.size(command);
            longer.push((at, total));
        }
        let mut theirs = Theirs { words: vec![], longer };
        theirs.words = vec![self.fill; theirs.place(self.ours.len())];
        for (&at, &(command, spare)) in &self.commands {
            let place = theirs.place(at);
            let command = match command {
                Command::Jump(to) => Command::Jump(theirs.place(to as usize) as u32),
                other => other,
            };
            RUST.put(&mut theirs.words, place, command, spare);
        }
        theirs
    }
}

/// Words before all others in the Rust's list: the blend word, and the JUMP that enters a tile.
const ENTRY: usize = 3;

/// The Rust's list, and by how many words its commands up to each of ours are longer.
pub struct Theirs {
    words: Vec<u32>,
    longer: Vec<(usize, usize)>,
}

impl Theirs {
    /// The place there of the panel's word `at`.
    fn place(&self, at: usize) -> usize {
        let before = self.longer.partition_point(|&(place, _)| place < at);
        ENTRY + at + before.checked_sub(1).map_or(0, |k| self.longer[k].1)
    }

    /// As one tile's list, entered by a JUMP at word 1 to the panel's word `start`.
    pub fn for_tile(&mut self, start: u32) -> &[u32] {
        let place = self.place(start as usize) as u32;
        self.words[0] = 0;
        RUST.put(&mut self.words, 1, Command::Jump(place), 0);
        &self.words
    }
}

pub fn color(rng: &mut Rng) -> u32 {
    match rng.below(4) {
        0 => rng.u32() | 0xff,
        1 => 0xffff_ffff,
        2 => 0,
        _ => rng.u32(),
    }
}

/// A FILL of segments that are lent, now and then of ones that aren't.
pub fn fill(rng: &mut Rng, segments: u32, wild: bool) -> Command {
    let (mut first, mut number) = (0, 0);
    if segments > 0 {
        first = rng.below(segments as u64 + 1) as u32;
        number = rng.below((segments - first) as u64 + 1).min(6) as u32;
    }
    if wild {
        match rng.below(4) {
            0 => number = segments - first.min(segments) + 1,
            1 => {
                first = segments + 1;
                number = 0;
            }
            2 => number = rng.u32() >> 1,
            _ => first = rng.pick(&[u32::MAX, u32::MAX - 1, 1 << 31, segments]),
        }
    }
    let backdrop = match rng.below(8) {
        0 => i32::MIN,
        1 => i32::MAX,
        2 => rng.u32() as i32,
        _ => rng.range(-3, 3) as i32,
    };
    Command::Fill { number, even_odd: rng.coin(), first, backdrop }
}
