//! A panel of three channels, a strip each, drawn in three calls: frame, command lists, pixels. A channel whose lines are
//! refused gets a fault mark in its strip. examples/c/panel.c does the same in C, and both print examples/panel.out. Once
//! `./archive` has written the archive: `cargo run`. Two numbers may follow: the references that there is
//! room for at first, and the most that may be lent.
use groatpocket::{
    fine, frame, outlines, words_needed, write_lists, Frame, FrameStopped, Outlines, Paint, Path, Refusal,
    Refused, Running, Screen, WriteLists, LINE_FLOATS, OUTLINE_WORDS, REF_WORDS, SEGMENT_FLOATS, TILE_PIXELS,
};
use std::error::Error;

// A tile around the strips that are shown: a line that has a tile of its box on every side of it is never refused with 10.
const MARGIN: u32 = 1;
const CHANNELS: u32 = 3;
const SCREEN: Screen =
    Screen { width: 16 * (4 + 2 * MARGIN), cols: 4 + 2 * MARGIN, rows: CHANNELS + 2 * MARGIN };
// A strip is a row of tiles, and its box has the margin around it.
const BOX: u32 = SCREEN.cols * (1 + 2 * MARGIN);
// Each channel has two paths, its trace and its fault mark.
const TILES: usize = (2 * CHANNELS * BOX) as usize;
const BEAMS: [u32; CHANNELS as usize] = [301, 302, 417];
const ROOM: usize = 64;
const MOST: usize = 1024;

/// All lines, each with its path's number: a channel's for its trace, `CHANNELS` more for its mark.
#[derive(Default)]
struct Lines {
    path_nos: Vec<u32>,
    coords: Vec<f32>,
}

impl Lines {
    /// Adds lines of a path that stand at these places in the channel's strip.
    fn add(&mut self, path: u32, places: &[f32]) {
        let (across, down) = ((16 * MARGIN) as f32, (16 * (MARGIN + path % CHANNELS)) as f32);
        self.path_nos.extend(places.chunks(LINE_FLOATS).map(|_| path));
        self.coords.extend(places.chunks(2).flat_map(|end| [end[0] + across, end[1] + down]));
    }

    /// Takes a faulty channel's lines out. Left out alone it would look quiet: its mark is drawn in its place, slanted bars
    /// along its strip, each a closed outline.
    fn mark(&mut self, channel: u32) {
        let mut kept = self.path_nos.iter().map(|&no| no != channel);
        self.coords = self
            .coords
            .chunks(LINE_FLOATS)
            .filter(|_| kept.next() == Some(true))
            .flatten()
            .copied()
            .collect();
        self.path_nos.retain(|&no| no != channel);
        for bar in 0..6 {
            let x = (2 + 10 * bar) as f32;
            let corners = [[x, 15.0], [x + 5.0, 1.0], [x + 10.0, 1.0], [x + 5.0, 15.0], [x, 15.0]];
            corners.windows(2).for_each(|side| self.add(CHANNELS + channel, &side.concat()));
        }
    }

    /// Whether every outline comes back to where it began. A forgotten closing line would leak a fill across its strip, and a
    /// frame doesn't refuse it.
    fn closed(&self) -> Result<(), Refused> {
        let mut work = [0; 2 * CHANNELS as usize * OUTLINE_WORDS];
        outlines(Outlines {
            path_nos: &self.path_nos,
            coords: &self.coords,
            path_count: 2 * CHANNELS,
            work: &mut work,
        })
    }

    /// The channel that a frame's refusal is the fault of, and its line. Too little room, too many lines, wrong boxes and a
    /// refused mark are the program's own faults, and no channel is to blame for them.
    fn blamed(&self, stopped: &FrameStopped, refs: &[u32]) -> Option<(u32, usize)> {
        use Refusal::{Coordinate, CountOver, Crooked, NoSuch, Outside};
        let of_lines = matches!(stopped.refused.refusal, Coordinate | NoSuch | CountOver | Outside | Crooked);
        let line = stopped.line(refs).filter(|_| of_lines)?;
        let channel = self.path_nos.get(line).copied().filter(|path| *path < CHANNELS)?;
        Some((channel, line))
    }
}

/// What a frame is made into: words of each tile, and room for so many references and their segments.
struct Memory {
    backdrops: [i32; TILES],
    stored: [u32; TILES],
    tally: [u32; TILES],
    refs: Vec<u32>,
    segments: Vec<f32>,
    tags: Vec<u32>,
}

impl Memory {
    fn new(room: usize) -> Memory {
        Memory {
            backdrops: [0; TILES],
            stored: [0; TILES],
            tally: [0; TILES],
            refs: vec![0; REF_WORDS * room],
            segments: vec![0.0; SEGMENT_FLOATS * room],
            tags: vec![0; room],
        }
    }

    fn frame(&mut self, lines: &Lines, paths: &[u32]) -> Result<Running, FrameStopped> {
        frame(Frame {
            path_nos: &lines.path_nos,
            coords: &lines.coords,
            paths,
            backdrops: &mut self.backdrops,
            stored: &mut self.stored,
            tally: &mut self.tally,
            refs: &mut self.refs,
            segments: &mut self.segments,
            tags: &mut self.tags,
        })
    }

    /// The segments in a path's slots that have its channel's beam number on them.
    fn own_tags(&self, beams: &[u32]) -> usize {
        let own = |t: usize| {
            let beam = beams[t / BOX as usize];
            (0..self.tally[t]).filter(|k| self.tags[(!self.stored[t] + k) as usize] == beam).count()
        };
        (0..TILES).map(own).sum()
    }
}

/// Makes the frame of all channels in so much room, or in more where it doesn't suffice.
fn framed(
    lines: &mut Lines,
    paths: &[u32],
    mut room: usize,
    most: usize,
) -> Result<(Memory, Running), FrameStopped> {
    let mut memory = Memory::new(room);
    loop {
        let stopped = match memory.frame(lines, paths) {
            Ok(done) => return Ok((memory, done)),
            Err(stopped) => stopped,
        };
        if let Some((channel, line)) = lines.blamed(&stopped, &memory.refs) {
            println!(
                "channel {channel} is faulty: refusal {} at line {line}",
                stopped.refused.refusal.number()
            );
            lines.mark(channel);
        } else if stopped.refused.refusal == Refusal::NoRoom && room < most {
            let more = (2 * room).clamp(1, most);
            println!("no room for more than {room} references: lending room for {more}");
            room = more;
            memory = Memory::new(room);
        } else {
            return Err(stopped);
        }
    }
}

/// A letter for a pixel: red is in its lowest byte, blue in its third; M, red and green, is a mark.
fn letter(pixel: &u32) -> char {
    match pixel.to_le_bytes() {
        [.., 0..=63] => '.',
        [red, green, ..] if red > 0 && green > 0 => 'M',
        [red, _, blue, _] if red > blue => 'r',
        [_, _, 0, _] => 'g',
        _ => 'b',
    }
}

fn main() -> Result<(), Box<dyn Error>> {
    let mut asked = std::env::args().skip(1).map(|number| number.parse::<usize>());
    let room = asked.next().unwrap_or(Ok(ROOM))?.min(MOST);
    let most = asked.next().unwrap_or(Ok(MOST))?.min(MOST);

    // Channel 0 swings, 1 is nearly quiet; a gauge of channel 2 sends something that is no number. Places are those in the strip.
    let mut lines = Lines::default();
    #[rustfmt::skip]
    lines.add(0, &[
        4.0, 14.0, 16.0, 2.0,  16.0, 2.0, 28.0, 12.0,  28.0, 12.0, 40.0, 4.0,  40.0, 4.0, 60.0, 14.0,  60.0, 14.0, 4.0, 14.0,
    ]);
    #[rustfmt::skip]
    lines.add(1, &[4.0, 12.0, 60.0, 12.0,  60.0, 12.0, 60.0, 14.0,  60.0, 14.0, 4.0, 14.0,  4.0, 14.0, 4.0, 12.0]);
    lines.add(2, &[4.0, 14.0, 40.0, f32::NAN, 40.0, 8.0, 4.0, 14.0]);

    // A mark has the box and the beam number of its channel.
    let beams = [BEAMS, BEAMS].concat();
    let strip = |(path, &beam): (u32, &u32)| {
        let y0 = path % CHANNELS;
        Path { x0: 0, y0, x1: SCREEN.cols, y1: y0 + 1 + 2 * MARGIN, first: path * BOX, beam }.words()
    };
    let paths = (0..).zip(&beams).flat_map(strip).collect::<Vec<u32>>();
    // Red, blue and green traces; yellow, which no trace has, for the marks.
    let mark = (0xffff00ff, false);
    let painted = |(colour, even_odd)| Paint { colour, even_odd }.words();
    let paints = [(0xff0000ff, false), (0x0000ffff, true), (0x00ff00ff, false), mark, mark, mark]
        .map(painted)
        .concat();

    let (memory, done) = framed(&mut lines, &paths, room, most)
        .map_err(|stopped| format!("the panel itself is at fault: {stopped}"))?;
    lines.closed().map_err(|refused| format!("the panel itself is at fault: {refused}"))?;
    println!("frame: 0, lines {}, references {}", done.lines, done.references);

    // Before anything is shown: every segment in a channel's slots has that channel's beam on it.
    let own = memory.own_tags(&beams);
    println!("tags: {own} of {} segments are their own beam's", done.references);
    if own != done.references as usize {
        return Err("a segment with another beam's number".into());
    }

    let mut words = vec![0; words_needed(SCREEN.cols, SCREEN.rows, beams.len())];
    write_lists(WriteLists {
        paths: &paths,
        paints: &paints,
        backdrops: &memory.backdrops,
        stored: &memory.stored,
        tally: &memory.tally,
        cols: SCREEN.cols,
        rows: SCREEN.rows,
        room: done.references,
        words: &mut words,
    })?;
    println!("lists: 0");

    let tiles = SCREEN.cols * SCREEN.rows;
    let mut pixels = vec![0; TILE_PIXELS * tiles as usize];
    fine(&words, &memory.segments, SCREEN, 0, tiles, &mut pixels)?;
    println!("fine: 0");

    // The margin isn't shown.
    let edge = 16 * MARGIN as usize;
    let (width, height) = (SCREEN.width as usize, 16 * SCREEN.rows as usize);
    for row in pixels.chunks(width).take(height - edge).skip(edge).step_by(2) {
        println!("{}", row[edge..width - edge].iter().map(letter).collect::<String>());
    }
    Ok(())
}
