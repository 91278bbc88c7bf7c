//! A call of any kind as plain words (calls.rs), by the rules and by ours.
//! Made from include/groatpocket.h by tests/rust/signatures (`-- write`), which `./test` holds it against: edit there.

use crate::calls::{Call, Outcome};
use cases::memory::{Lent, LentBytes};

/// What stands in a number that is only written, before the call.
const UNTOLD: u32 = 0xabcd;

/// The calls' names, by kind; none has the kind 0.
pub const NAMES: &[&str] = &[
    "",
    "count",
    "backdrop",
    "hand_out",
    "tile",
    "fill",
    "fine",
    "frame",
    "write_lists",
    "ppm_write",
    "ppm_read",
    "pixel_area",
    "pixel",
    "recount",
    "boxes",
    "check",
    "outlines",
    "sizes",
    "svg_lines",
    "fine_rows",
    "draw",
    "present",
];

/// The slices that a call of a kind may change.
pub const CHANGED: &[&[usize]] = &[
    &[],
    &[3, 4, 5],
    &[1],
    &[0, 1],
    &[5, 6],
    &[1],
    &[2],
    &[3, 4, 5, 6, 7, 8],
    &[5],
    &[1],
    &[1],
    &[],
    &[],
    &[4, 5, 6, 7, 8],
    &[3, 4],
    &[7],
    &[2],
    &[],
    &[1, 2],
    &[2],
    &[4, 5, 6, 7, 8, 9, 10, 11],
    &[1],
];

/// The slices that are bytes, a word for each.
pub const BYTES: &[&[usize]] = &[
    &[],
    &[],
    &[],
    &[],
    &[],
    &[],
    &[],
    &[],
    &[],
    &[1],
    &[0, 1],
    &[],
    &[],
    &[],
    &[],
    &[],
    &[],
    &[],
    &[0],
    &[],
    &[],
    &[1],
];

/// How many slices and numbers a call of a kind takes.
pub const SHAPES: &[(usize, usize)] = &[
    (0, 0),
    (6, 3),
    (2, 0),
    (2, 1),
    (7, 2),
    (2, 6),
    (3, 5),
    (9, 0),
    (6, 3),
    (2, 2),
    (2, 0),
    (1, 9),
    (2, 4),
    (9, 1),
    (5, 1),
    (8, 1),
    (3, 1),
    (3, 2),
    (3, 2),
    (3, 5),
    (12, 3),
    (2, 5),
];

/// Whether a call of a kind is linked.
pub const LINKED: &[bool] = &[
    false,
    ours::has::COUNT,
    ours::has::BACKDROP,
    ours::has::HAND_OUT,
    ours::has::TILE,
    ours::has::FILL,
    ours::has::FINE,
    ours::has::FRAME,
    ours::has::LISTS,
    ours::has::PICTURE,
    ours::has::PICTURE,
    ours::has::PIXEL,
    ours::has::PIXEL,
    ours::has::RECOUNT,
    ours::has::BOXES,
    ours::has::CHECK,
    ours::has::OUTLINES,
    ours::has::SIZES,
    ours::has::SVG,
    ours::has::BANDS,
    ours::has::DRAW,
    ours::has::PRESENT,
];

macro_rules! answered_by {
    ($name:ident, $side:ident) => {
        pub fn $name(call: &Call) -> Outcome {
            let mut slices: Vec<Lent> = call.slices.iter().map(|w| Lent::new(w)).collect();
            let n = &call.numbers;
            let answer = match (call.kind, slices.as_mut_slice()) {
                (1, [path_nos, coords, paths, backdrops, counts, refs]) => {
                    let mut lines = n[1];
                    let mut made = n[2];
                    let mut item = UNTOLD;
                    let no = $side::count(
                        path_nos.u32s(),
                        coords.f32s(),
                        paths.u32s(),
                        backdrops.i32s_mut(),
                        counts.u32s_mut(),
                        refs.u32s_mut(),
                        n[0],
                        &mut lines,
                        &mut made,
                        &mut item,
                    );
                    vec![no, item, lines, made]
                }
                (2, [paths, backdrops]) => {
                    let mut item = UNTOLD;
                    let no = $side::backdrop(
                        paths.u32s(),
                        backdrops.i32s_mut(),
                        &mut item,
                    );
                    vec![no, item]
                }
                (3, [counts, tally]) => {
                    let no = $side::hand_out(
                        counts.u32s_mut(),
                        tally.u32s_mut(),
                        n[0],
                    );
                    vec![no, 0]
                }
                (4, [path_nos, coords, paths, stored, refs, segments, tags]) => {
                    let mut item = UNTOLD;
                    let no = $side::tile(
                        path_nos.u32s(),
                        coords.f32s(),
                        paths.u32s(),
                        stored.u32s(),
                        refs.u32s(),
                        n[0],
                        n[1],
                        segments.f32s_mut(),
                        tags.u32s_mut(),
                        &mut item,
                    );
                    vec![no, item]
                }
                (5, [segments, area]) => {
                    let no = $side::fill(
                        segments.f32s(),
                        n[0],
                        n[1],
                        n[2],
                        n[3] as i32,
                        f32::from_bits(n[4]),
                        f32::from_bits(n[5]),
                        area.f32s_mut(),
                    );
                    vec![no, 0]
                }
                (6, [words, segments, pixels]) => {
                    let mut item = UNTOLD;
                    let no = $side::fine(
                        words.u32s(),
                        segments.f32s(),
                        n[0],
                        n[1],
                        n[2],
                        n[3],
                        n[4],
                        pixels.u32s_mut(),
                        &mut item,
                    );
                    vec![no, item]
                }
                (7, [path_nos, coords, paths, backdrops, stored, tally, refs, segments, tags]) => {
                    let mut stage = UNTOLD;
                    let mut item = UNTOLD;
                    let mut lines = UNTOLD;
                    let mut made = UNTOLD;
                    let no = $side::frame(
                        path_nos.u32s(),
                        coords.f32s(),
                        paths.u32s(),
                        backdrops.i32s_mut(),
                        stored.u32s_mut(),
                        tally.u32s_mut(),
                        refs.u32s_mut(),
                        segments.f32s_mut(),
                        tags.u32s_mut(),
                        &mut stage,
                        &mut item,
                        &mut lines,
                        &mut made,
                    );
                    vec![no, item, stage, lines, made]
                }
                (8, [paths, paints, backdrops, stored, tally, words]) => {
                    let mut item = UNTOLD;
                    let no = $side::write_lists(
                        paths.u32s(),
                        paints.u32s(),
                        backdrops.i32s(),
                        stored.u32s(),
                        tally.u32s(),
                        n[0],
                        n[1],
                        n[2],
                        words.u32s_mut(),
                        &mut item,
                    );
                    vec![no, item]
                }
                (9, [pixels, out]) => {
                    let mut size = UNTOLD as usize;
                    let mut out_bytes = LentBytes::of(out.u32s());
                    let no = $side::ppm_write(
                        pixels.u32s(),
                        n[0],
                        n[1],
                        out_bytes.u8s_mut(),
                        &mut size,
                    );
                    out_bytes.give_back(out.u32s_mut());
                    vec![no, 0, size as u32]
                }
                (10, [file, out]) => {
                    let mut width = UNTOLD;
                    let mut height = UNTOLD;
                    let file_bytes = LentBytes::of(file.u32s());
                    let mut out_bytes = LentBytes::of(out.u32s());
                    let no = $side::ppm_read(
                        file_bytes.u8s(),
                        out_bytes.u8s_mut(),
                        &mut width,
                        &mut height,
                    );
                    file_bytes.give_back(file.u32s_mut());
                    out_bytes.give_back(out.u32s_mut());
                    vec![no, 0, width, height]
                }
                (11, [segments]) => {
                    let mut area = f32::from_bits(n[8]);
                    let no = $side::pixel_area(
                        segments.f32s(),
                        n[0],
                        n[1],
                        n[2],
                        n[3] as i32,
                        f32::from_bits(n[4]),
                        f32::from_bits(n[5]),
                        n[6],
                        n[7],
                        &mut area,
                    );
                    vec![no, 0, if no == 0 { cases::memory::one_nan(area.to_bits()) } else { area.to_bits() }]
                }
                (12, [words, segments]) => {
                    let mut pixel = n[3];
                    let no = $side::pixel(
                        words.u32s(),
                        segments.f32s(),
                        n[0],
                        n[1],
                        n[2],
                        &mut pixel,
                    );
                    vec![no, 0, pixel]
                }
                (13, [line_nos, path_nos, coords, paths, backdrops, counts, refs, kept_backdrops, kept_counts]) => {
                    let mut made = UNTOLD;
                    let mut item = UNTOLD;
                    let no = $side::recount(
                        n[0],
                        line_nos.u32s(),
                        path_nos.u32s(),
                        coords.f32s(),
                        paths.u32s(),
                        backdrops.i32s_mut(),
                        counts.u32s_mut(),
                        refs.u32s_mut(),
                        kept_backdrops.i32s_mut(),
                        kept_counts.u32s_mut(),
                        &mut made,
                        &mut item,
                    );
                    vec![no, item, made]
                }
                (14, [path_nos, coords, beams, paths, work]) => {
                    let mut tiles = UNTOLD;
                    let mut item = UNTOLD;
                    let no = $side::boxes(
                        path_nos.u32s(),
                        coords.f32s(),
                        beams.u32s(),
                        n[0],
                        paths.u32s_mut(),
                        work.u32s_mut(),
                        &mut tiles,
                        &mut item,
                    );
                    vec![no, item, tiles]
                }
                (15, [path_nos, coords, paths, refs, counts, backdrops, stored, work]) => {
                    let mut found = UNTOLD;
                    let mut item = UNTOLD;
                    let no = $side::check(
                        path_nos.u32s(),
                        coords.f32s(),
                        paths.u32s(),
                        refs.u32s(),
                        counts.u32s(),
                        backdrops.i32s(),
                        stored.u32s(),
                        n[0],
                        work.u32s_mut(),
                        &mut found,
                        &mut item,
                    );
                    vec![no, item, found]
                }
                (16, [path_nos, coords, work]) => {
                    let mut item = UNTOLD;
                    let no = $side::outlines(
                        path_nos.u32s(),
                        coords.f32s(),
                        n[0],
                        work.u32s_mut(),
                        &mut item,
                    );
                    vec![no, item]
                }
                (17, [path_nos, coords, paths]) => {
                    let mut tiles = UNTOLD;
                    let mut made = UNTOLD;
                    let mut words = UNTOLD;
                    let mut item = UNTOLD;
                    let no = $side::sizes(
                        path_nos.u32s(),
                        coords.f32s(),
                        paths.u32s(),
                        n[0],
                        n[1],
                        &mut tiles,
                        &mut made,
                        &mut words,
                        &mut item,
                    );
                    vec![no, item, tiles, made, words]
                }
                (18, [text, path_nos, coords]) => {
                    let mut lines = UNTOLD as usize;
                    let mut place = UNTOLD as usize;
                    let text_bytes = LentBytes::of(text.u32s());
                    let no = $side::svg_lines(
                        text_bytes.u8s(),
                        n[0],
                        n[1],
                        path_nos.u32s_mut(),
                        coords.f32s_mut(),
                        &mut lines,
                        &mut place,
                    );
                    text_bytes.give_back(text.u32s_mut());
                    vec![no, 0, lines as u32, place as u32]
                }
                (19, [words, segments, pixels]) => {
                    let mut item = UNTOLD;
                    let no = $side::fine_rows(
                        words.u32s(),
                        segments.f32s(),
                        n[0],
                        n[1],
                        n[2],
                        n[3],
                        n[4],
                        pixels.u32s_mut(),
                        &mut item,
                    );
                    vec![no, item]
                }
                (20, [path_nos, coords, paths, paints, backdrops, stored, tally, refs, segments, tags, words, pixels]) => {
                    let mut stage = UNTOLD;
                    let mut item = UNTOLD;
                    let mut lines = UNTOLD;
                    let mut made = UNTOLD;
                    let no = $side::draw(
                        path_nos.u32s(),
                        coords.f32s(),
                        paths.u32s(),
                        paints.u32s(),
                        backdrops.i32s_mut(),
                        stored.u32s_mut(),
                        tally.u32s_mut(),
                        refs.u32s_mut(),
                        segments.f32s_mut(),
                        tags.u32s_mut(),
                        n[0],
                        n[1],
                        n[2],
                        words.u32s_mut(),
                        pixels.u32s_mut(),
                        &mut stage,
                        &mut item,
                        &mut lines,
                        &mut made,
                    );
                    vec![no, item, stage, lines, made]
                }
                (21, [pixels, out]) => {
                    let mut out_bytes = LentBytes::of(out.u32s());
                    let no = $side::present(
                        pixels.u32s(),
                        n[0],
                        n[1],
                        n[2],
                        n[3],
                        n[4],
                        out_bytes.u8s_mut(),
                    );
                    out_bytes.give_back(out.u32s_mut());
                    vec![no, 0]
                }
                _ => panic!("no call of kind {}", call.kind),
            };
            Outcome { answer, slices }
        }
    };
}

answered_by!(by_rules, rules);
answered_by!(by_ours, ours);
