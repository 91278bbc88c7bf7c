//! A panel that holds its own memory: outlines of channels in, pixels out, or a fault.
use crate::boxes::{boxes, Boxes, BOX_WORDS};
use crate::draw::{draw, Draw};
use crate::refusal::{Refusal, Refused};
use crate::sizes::{sizes, Sizes};
use crate::{Paint, Screen, PATH_WORDS, REF_WORDS, SEGMENT_FLOATS, TILE_SIDE};
use alloc::vec::Vec;
use core::fmt;

/// Tiles that everything is drawn further in, and that a channel's box has on every side of its lines: so a line whose ends lie at 0
/// or more, and a tile and more from the limit, is never refused with 10 (docs/THEOREMS.md, 19).
const MARGIN: u32 = 1;

/// The side of a tile as the screen's numbers count it.
const TILE: u32 = TILE_SIDE as u32;

/// The pixels above the picture, and left of it, that aren't shown.
const INWARD: usize = TILE_SIDE * MARGIN as usize;

/// A panel of so many pixels. It holds the memory that the calls are lent, and lends more where a picture needs more.
///
/// Channels are painted in the order in which they were added, each over those before it. A channel has a beam number and a
/// paint; its outlines are given for each picture anew. Places are in pixels, from the upper left corner on, y downward; what lies off the
/// picture isn't seen. All is drawn a tile further in than it is shown, since lines a hair beside 0 are what counting refuses most: 16 is added to each
/// coordinate, and the sum rounded.
///
/// ```
/// use groatpocket::{Paint, Panel};
/// let mut panel = Panel::new(64, 32);
/// let treble = panel.channel(301, Paint { colour: 0xff0000ff, even_odd: false });
/// let tenor = panel.channel(302, Paint { colour: 0x0000ffff, even_odd: false });
/// panel.outline(treble, &[[4.0, 28.0], [16.0, 4.0], [28.0, 28.0]]);
/// panel.outline(tenor, &[[36.0, 28.0], [36.0, 20.0], [60.0, 20.0], [60.0, 28.0]]);
/// let picture = panel.draw().unwrap();
/// assert_eq!(picture.row(20)[16], 0xff0000ff); // red is in the lowest byte
/// assert_eq!(picture.row(24)[50], 0xffff0000);
/// assert_eq!(picture.row(0)[0], 0);
///
/// // A gauge sends something that is no number: the fault says whose.
/// panel.clear();
/// panel.outline(treble, &[[4.0, 28.0], [16.0, 4.0], [28.0, 28.0]]);
/// panel.outline(tenor, &[[36.0, 28.0], [36.0, f32::NAN], [60.0, 28.0]]);
/// let fault = panel.draw().unwrap_err();
/// assert_eq!(fault.to_string(), "channel 1, beam 302, line 0: refusal 6: a coordinate not finite, or over 65,536 in size");
/// assert_eq!(fault.channel(), Some(tenor));
/// ```
#[derive(Clone, Debug)]
pub struct Panel {
    width: u32,
    height: u32,
    beams: Vec<u32>,
    paints: Vec<u32>,
    path_nos: Vec<u32>,
    coords: Vec<f32>,
    paths: Vec<u32>,
    work: Vec<u32>,
    backdrops: Vec<i32>,
    stored: Vec<u32>,
    tally: Vec<u32>,
    refs: Vec<u32>,
    segments: Vec<f32>,
    tags: Vec<u32>,
    words: Vec<u32>,
    pixels: Vec<u32>,
}

/// A channel of a [`Panel`]: the number of its path.
#[derive(Clone, Copy, Debug, PartialEq, Eq, Hash, PartialOrd, Ord)]
pub struct Channel(u32);

impl Channel {
    /// Its number: 0 for the first.
    pub fn number(self) -> u32 {
        self.0
    }
}

/// The pixels of a picture, row by row, red in the lowest byte of each.
#[derive(Clone, Copy, Debug)]
pub struct Picture<'a> {
    pixels: &'a [u32],
    stride: usize,
    width: usize,
    height: usize,
}

impl<'a> Picture<'a> {
    /// Its rows, from the top.
    pub fn rows(&self) -> impl Iterator<Item = &'a [u32]> {
        let picture = *self;
        (0..self.height).map(move |y| picture.row(y))
    }

    /// Row y. Panics where there is none.
    pub fn row(&self, y: usize) -> &'a [u32] {
        assert!(y < self.height, "no row {y}");
        &self.pixels[self.stride * (y + INWARD) + INWARD..][..self.width]
    }
}

/// Why there is no picture.
#[derive(Clone, Copy, Debug, PartialEq, Eq, Hash)]
pub enum Fault {
    /// A channel's own lines are at fault. It is to be shown as faulty: left out alone it would look quiet.
    Channel {
        /// Whose lines.
        channel: Channel,
        /// Its beam number.
        beam: u32,
        /// Which of the channel's lines, in the order in which they were given; none where no one line is at fault.
        line: Option<u32>,
        /// Why.
        refusal: Refusal,
    },
    /// The panel itself: too many channels, lines, tiles or references, or a screen too large. No channel is to blame.
    Panel(Refused),
}

impl Fault {
    /// The channel at fault, if one is.
    pub fn channel(&self) -> Option<Channel> {
        match self {
            Fault::Channel { channel, .. } => Some(*channel),
            Fault::Panel(_) => None,
        }
    }
}

impl fmt::Display for Fault {
    fn fmt(&self, f: &mut fmt::Formatter<'_>) -> fmt::Result {
        match self {
            Fault::Channel { channel, beam, line: Some(line), refusal } => {
                write!(f, "channel {}, beam {beam}, line {line}: {refusal}", channel.0)
            }
            Fault::Channel { channel, beam, line: None, refusal } => {
                write!(f, "channel {}, beam {beam}: {refusal}", channel.0)
            }
            Fault::Panel(refused) => write!(f, "the panel itself is at fault: {refused}"),
        }
    }
}

impl core::error::Error for Fault {}

/// At least so many, the new ones at zero.
fn grow<T: Clone + Default>(all: &mut Vec<T>, many: usize) {
    if all.len() < many {
        all.resize(many, T::default());
    }
}

impl Panel {
    /// A panel of so many pixels with no channel. It holds no memory yet.
    pub fn new(width: u32, height: u32) -> Panel {
        Panel {
            width,
            height,
            beams: Vec::new(),
            paints: Vec::new(),
            path_nos: Vec::new(),
            coords: Vec::new(),
            paths: Vec::new(),
            work: Vec::new(),
            backdrops: Vec::new(),
            stored: Vec::new(),
            tally: Vec::new(),
            refs: Vec::new(),
            segments: Vec::new(),
            tags: Vec::new(),
            words: Vec::new(),
            pixels: Vec::new(),
        }
    }

    /// A channel more, painted over those before it, with the number stamped on its beam.
    pub fn channel(&mut self, beam: u32, paint: Paint) -> Channel {
        let channel = Channel(self.beams.len() as u32);
        self.beams.push(beam);
        self.paints.extend(paint.words());
        channel
    }

    /// An outline more of a channel: a line from each point to the next, and one from the last back to the first. One point makes no line.
    pub fn outline(&mut self, channel: Channel, points: &[[f32; 2]]) {
        let ends = points.iter().zip(points.iter().cycle().skip(1));
        if points.len() > 1 {
            self.path_nos.extend(points.iter().map(|_| channel.0));
            let inward = INWARD as f32;
            self.coords
                .extend(ends.flat_map(|(from, to)| [from[0], from[1], to[0], to[1]]).map(|v| v + inward));
        }
    }

    /// Takes all outlines out. The channels stay, and so does the memory.
    pub fn clear(&mut self) {
        self.path_nos.clear();
        self.coords.clear();
    }

    /// The beam number on each segment of the last picture: of the references that it made, in the order of their slots.
    pub fn tags(&self) -> &[u32] {
        &self.tags
    }

    fn screen(&self) -> Screen {
        let (cols, rows) = (self.width.div_ceil(TILE) + MARGIN, self.height.div_ceil(TILE) + MARGIN);
        Screen { width: cols.saturating_mul(TILE), cols, rows }
    }

    /// The boxes of the channels, and what the calls are to be lent for these lines.
    fn measured(&mut self, screen: Screen) -> Result<Sizes, Fault> {
        self.paths.resize(PATH_WORDS * self.beams.len(), 0);
        grow(&mut self.work, BOX_WORDS * self.beams.len());
        let lent = Boxes {
            path_nos: &self.path_nos,
            coords: &self.coords,
            beams: &self.beams,
            margin: MARGIN,
            paths: &mut self.paths,
            work: &mut self.work,
        };
        boxes(lent).map_err(|refused| match refused.refusal {
            Refusal::BadBox => self.blamed(refused.item, None, refused),
            _ => self.of_line(refused),
        })?;
        sizes(&self.path_nos, &self.coords, &self.paths, screen.cols, screen.rows)
            .map_err(|refused| self.of_line(refused))
    }

    fn blamed(&self, path: u32, line: Option<u32>, refused: Refused) -> Fault {
        match self.beams.get(path as usize) {
            Some(&beam) => Fault::Channel { channel: Channel(path), beam, line, refusal: refused.refusal },
            None => Fault::Panel(refused),
        }
    }

    /// Whose fault a refusal is whose item is a line.
    fn of_line(&self, refused: Refused) -> Fault {
        use Refusal::{Coordinate, CountOver, Crooked, NoSuch, Outside};
        let line = refused.item as usize;
        match (refused.refusal, self.path_nos.get(line)) {
            (Coordinate | NoSuch | CountOver | Outside | Crooked, Some(&path)) => {
                let before = self.path_nos[..line].iter().filter(|no| **no == path).count();
                self.blamed(path, Some(before as u32), refused)
            }
            _ => Fault::Panel(refused),
        }
    }

    /// Draws all channels. Where it answers `Ok`, the pixels are those of painting the channels in order (docs/THEOREMS.md opens with it).
    pub fn draw(&mut self) -> Result<Picture<'_>, Fault> {
        let screen = self.screen();
        let Sizes { tiles, references, words } = self.measured(screen)?;
        let (tiles, references) = (tiles as usize, references as usize);
        for all in [&mut self.stored, &mut self.tally] {
            all.resize(tiles, 0);
        }
        self.backdrops.resize(tiles, 0);
        grow(&mut self.refs, REF_WORDS * references);
        self.segments.resize(SEGMENT_FLOATS * references, 0.0);
        self.tags.resize(references, 0);
        grow(&mut self.words, words as usize);
        grow(&mut self.pixels, screen.width as usize * (TILE * screen.rows) as usize);
        let lent = Draw {
            path_nos: &self.path_nos,
            coords: &self.coords,
            paths: &self.paths,
            paints: &self.paints,
            backdrops: &mut self.backdrops,
            stored: &mut self.stored,
            tally: &mut self.tally,
            refs: &mut self.refs,
            segments: &mut self.segments,
            tags: &mut self.tags,
            width: screen.width,
            cols: screen.cols,
            rows: screen.rows,
            words: &mut self.words,
            pixels: &mut self.pixels,
        };
        draw(lent).map_err(|stopped| match stopped.line(&self.refs) {
            Some(line) => self.of_line(Refused { item: line as u32, ..stopped.refused }),
            None => Fault::Panel(stopped.refused),
        })?;
        let (stride, width, height) = (screen.width as usize, self.width as usize, self.height as usize);
        Ok(Picture { pixels: &self.pixels, stride, width, height })
    }
}
