//! Lines from the path data of SVG: which texts are read, what they draw, and the answers, from the documents and not from our code.
//! Numbers are std's own (`parse::<f32>`).

use crate::limits::*;
use crate::records::Line;

/// Digits of a number before its point, and after it.
pub const WHOLE_MOST: usize = 6;
pub const PART_MOST: usize = 3;
/// How often a curve may be halved.
pub const DEPTH_MOST: u32 = 6;

type Point = [f32; 2];

/// A letter and its numbers.
pub struct Command {
    pub letter: u8,
    pub numbers: Vec<f32>,
}

struct Reader<'a> {
    text: &'a [u8],
    at: usize,
}

/// The place of the first byte that can't stand there.
type Fault = usize;

impl Reader<'_> {
    fn next(&self) -> Option<u8> {
        self.text.get(self.at).copied()
    }

    fn white(&mut self) {
        while matches!(self.next(), Some(b' ' | b'\t' | b'\r' | b'\n')) {
            self.at += 1;
        }
    }

    /// White space with at most one comma in it: whether the comma was there.
    fn comma(&mut self) -> bool {
        self.white();
        let comma = self.next() == Some(b',');
        if comma {
            self.at += 1;
            self.white();
        }
        comma
    }

    /// Up to `most` digits; one more is a fault.
    fn digits(&mut self, most: usize) -> Result<usize, Fault> {
        let mut n = 0;
        while self.next().is_some_and(|b| b.is_ascii_digit()) {
            if n == most {
                return Err(self.at);
            }
            self.at += 1;
            n += 1;
        }
        Ok(n)
    }

    fn number(&mut self) -> Result<f32, Fault> {
        let from = self.at;
        if matches!(self.next(), Some(b'+' | b'-')) {
            self.at += 1;
        }
        let mut digits = self.digits(WHOLE_MOST)?;
        if self.next() == Some(b'.') {
            self.at += 1;
            digits += self.digits(PART_MOST)?;
        }
        if digits == 0 {
            return Err(self.at);
        }
        Ok(std::str::from_utf8(&self.text[from..self.at]).unwrap().parse().unwrap())
    }

    fn begins_number(&self) -> bool {
        matches!(self.next(), Some(b'+' | b'-' | b'.' | b'0'..=b'9'))
    }

    /// One or more groups of `each` numbers. After the last there may be white space, and no comma.
    fn groups(&mut self, each: usize) -> Result<Vec<f32>, Fault> {
        let mut numbers = vec![self.number()?];
        loop {
            let comma = self.comma();
            if numbers.len() % each == 0 && !comma && !self.begins_number() {
                return Ok(numbers);
            }
            numbers.push(self.number()?);
        }
    }
}

/// How many numbers a letter takes at a time.
fn each(letter: u8) -> Option<usize> {
    match letter.to_ascii_uppercase() {
        b'Z' => Some(0),
        b'H' | b'V' => Some(1),
        b'M' | b'L' => Some(2),
        b'Q' => Some(4),
        _ => None,
    }
}

/// A text's commands, or the place of its fault.
pub fn commands(text: &[u8]) -> Result<Vec<Command>, Fault> {
    let mut reader = Reader { text, at: 0 };
    let mut found: Vec<Command> = vec![];
    reader.white();
    while let Some(letter) = reader.next() {
        if found.is_empty() && !matches!(letter, b'M' | b'm') {
            return Err(reader.at);
        }
        let each = each(letter).ok_or(reader.at)?;
        reader.at += 1;
        reader.white();
        let numbers = if each == 0 { vec![] } else { reader.groups(each)? };
        found.push(Command { letter, numbers });
    }
    Ok(found)
}

/// What draws: the current point, the outline's start, whether the outline has drawn since, and the lines so far.
#[derive(Default)]
struct Pen {
    at: Point,
    start: Point,
    open: bool,
    lines: Vec<Line>,
}

impl Pen {
    fn line(&mut self, to: Point) {
        self.lines.push([self.at[0], self.at[1], to[0], to[1]]);
        self.at = to;
    }

    fn draw(&mut self, to: Point) {
        self.line(to);
        self.open = true;
    }

    /// An outline left open is closed; the current point stays where it was.
    fn finish(&mut self) {
        if self.open {
            let kept = self.at;
            self.line(self.start);
            self.at = kept;
            self.open = false;
        }
    }

    fn curve(&mut self, control: Point, end: Point, depth: u32) {
        if depth == 0 {
            return self.draw(end);
        }
        let middle = |a: Point, b: Point| [0, 1].map(|k| (a[k] + b[k]) * 0.5);
        let (left, right) = (middle(self.at, control), middle(control, end));
        let half = middle(left, right);
        self.curve(left, half, depth - 1);
        self.curve(right, end, depth - 1);
    }

    /// A number of a relative command counts from the current point.
    fn from(&self, relative: bool, to: Point) -> Point {
        if relative {
            [self.at[0] + to[0], self.at[1] + to[1]]
        } else {
            to
        }
    }

    fn command(&mut self, command: &Command, depth: u32) {
        let (relative, n) = (command.letter.is_ascii_lowercase(), &command.numbers);
        match command.letter.to_ascii_uppercase() {
            b'M' => {
                self.finish();
                self.at = self.from(relative, [n[0], n[1]]);
                self.start = self.at;
                n[2..].chunks(2).for_each(|p| self.draw(self.from(relative, [p[0], p[1]])));
            }
            b'L' => n.chunks(2).for_each(|p| self.draw(self.from(relative, [p[0], p[1]]))),
            b'H' => n.iter().for_each(|&x| self.draw([if relative { self.at[0] + x } else { x }, self.at[1]])),
            b'V' => n.iter().for_each(|&y| self.draw([self.at[0], if relative { self.at[1] + y } else { y }])),
            b'Q' => n.chunks(4).for_each(|q| {
                let (control, end) = (self.from(relative, [q[0], q[1]]), self.from(relative, [q[2], q[3]]));
                self.curve(control, end, depth);
            }),
            _ => {
                self.line(self.start);
                self.open = false;
            }
        }
    }
}

/// The lines of a text, or the place of its fault.
pub fn outline(text: &[u8], depth: u32) -> Result<Vec<Line>, Fault> {
    let mut pen = Pen::default();
    for command in commands(text)? {
        pen.command(&command, depth);
    }
    pen.finish();
    Ok(pen.lines)
}

/// The number of lines, or the refusal's number and place.
fn answer(text: &[u8], depth: u32, path: u32, path_nos: &mut [u32], coords: &mut [f32]) -> Result<usize, (u32, usize)> {
    if depth > DEPTH_MOST {
        return Err((TOO_DEEP, 0));
    }
    if coords.len() != LINE * path_nos.len() {
        return Err((BAD_SHAPE, 0));
    }
    let lines = outline(text, depth).map_err(|place| (BAD_TEXT, place))?;
    if lines.len() > path_nos.len() {
        return Err((NO_ROOM, 0));
    }
    path_nos[..lines.len()].fill(path);
    coords.chunks_mut(LINE).zip(&lines).for_each(|(c, line)| c.copy_from_slice(line));
    Ok(lines.len())
}

#[rustfmt::skip]
pub fn svg_lines(
    text: &[u8], depth: u32, path: u32, path_nos: &mut [u32], coords: &mut [f32], lines: &mut usize, place: &mut usize,
) -> u32 {
    let found = answer(text, depth, path, path_nos, coords);
    (*lines, *place) = found.map_or_else(|(_, place)| (0, place), |n| (n, 0));
    found.map_or_else(|(number, _)| number, |_| DONE)
}
