//! One screen drawn by two threads at once: each draws a band of its tile rows in its own part of the pixels, and they share the
//! words and segments, which are only read. Then the pixels are held against those of one call. examples/c/threads.c does the same
//! in C, and both print examples/threads.out.
use groatpocket::{
    fine, fine_rows, frame, words_needed, write_lists, Frame, Paint, Path, Refused, Screen, WriteLists,
    REF_WORDS, SEGMENT_FLOATS, TILE_SIDE,
};
use std::thread;

const SCREEN: Screen = Screen { width: 64, cols: 4, rows: 5 };
const TILES: usize = (SCREEN.cols * SCREEN.rows) as usize;
/// Pixels to a row of tiles.
const ROW: usize = SCREEN.width as usize * TILE_SIDE;
/// The rows of tiles that a thread draws: the first has three, the second the two that are left.
const BAND: usize = 3;
const PATHS: usize = 2;
const ROOM: usize = 256;

/// The lists of commands and the segments of a red triangle, and over it a blue square; the box of each is the whole screen.
fn lists() -> (Vec<u32>, Vec<f32>) {
    let path_nos = [0, 0, 0, 1, 1, 1, 1];
    #[rustfmt::skip]
    let coords = [
        4., 76., 32., 4.,  32., 4., 60., 76.,  60., 76., 4., 76.,
        22., 38., 42., 38.,  42., 38., 42., 58.,  42., 58., 22., 58.,  22., 58., 22., 38.,
    ];
    let path = |first, beam| Path { x0: 0, y0: 0, x1: SCREEN.cols, y1: SCREEN.rows, first, beam }.words();
    let paths = [path(0, 7), path(TILES as u32, 8)].concat();
    let paints = [0xff0000ff, 0x0000ffff].map(|colour| Paint { colour, even_odd: false }.words()).concat();
    let (mut backdrops, mut stored, mut tally) = ([0; PATHS * TILES], [0; PATHS * TILES], [0; PATHS * TILES]);
    let (mut refs, mut segments, mut tags) =
        ([0; ROOM * REF_WORDS], vec![0.0; ROOM * SEGMENT_FLOATS], [0; ROOM]);
    let done = frame(Frame {
        path_nos: &path_nos,
        coords: &coords,
        paths: &paths,
        backdrops: &mut backdrops,
        stored: &mut stored,
        tally: &mut tally,
        refs: &mut refs,
        segments: &mut segments,
        tags: &mut tags,
    })
    .expect("the frame");
    println!("frame: 0, lines {}, references {}", done.lines, done.references);
    let mut words = vec![0; words_needed(SCREEN.cols, SCREEN.rows, PATHS)];
    write_lists(WriteLists {
        paths: &paths,
        paints: &paints,
        backdrops: &backdrops,
        stored: &stored,
        tally: &tally,
        cols: SCREEN.cols,
        rows: SCREEN.rows,
        room: ROOM as u32,
        words: &mut words,
    })
    .expect("the lists");
    println!("lists: 0");
    (words, segments)
}

fn number(answer: Result<(), Refused>) -> u32 {
    answer.map_or_else(|no| no.refusal.number(), |()| 0)
}

fn main() {
    let (words, segments) = lists();
    let (words, segments) = (&words, &segments);

    let mut bands = vec![0; ROW * SCREEN.rows as usize];
    thread::scope(|threads| {
        let spawned: Vec<_> = bands
            .chunks_mut(BAND * ROW)
            .enumerate()
            .map(|(k, pixels)| {
                let first = BAND * k;
                let end = first + pixels.len() / ROW;
                let draw = move || fine_rows(words, segments, SCREEN, first as u32, end as u32, pixels);
                (first, end, threads.spawn(draw))
            })
            .collect();
        for (first, end, thread) in spawned {
            println!("rows {first} to {end}: {}", number(thread.join().expect("a thread")));
        }
    });

    let mut whole = vec![0; bands.len()];
    let one = number(fine(words, segments, SCREEN, 0, TILES as u32, &mut whole));
    let differ = whole.iter().zip(&bands).filter(|(a, b)| a != b).count();
    println!("one call: {one}, pixels that differ: {differ}");

    for row in bands.chunks_exact(SCREEN.width as usize).step_by(2) {
        // Red is in the lowest byte, blue in the third.
        let letter = |p: &u32| match p {
            p if p >> 24 < 64 => '.',
            p if p >> 16 & 255 > 127 => 'b',
            _ => 'r',
        };
        println!("{}", row.iter().map(letter).collect::<String>());
    }
    assert!(one == 0 && differ == 0, "the bands aren't the screen");
}
