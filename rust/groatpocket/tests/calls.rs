//! The safe calls: a trace through all stages, batches, and the refusals as a caller meets them.
use groatpocket::*;

/// The number on the beam.
const BEAM: u32 = 0xbea3;

/// A path of so many columns and rows from the upper left on.
const fn boxed(x1: u32, y1: u32, first: u32) -> [u32; PATH_WORDS] {
    Path { x0: 0, y0: 0, x1, y1, first, beam: BEAM }.words()
}

const PATHS: [u32; PATH_WORDS] = boxed(2, 2, 0);

fn counted(coords: &[f32], paths: &[u32], refs: &mut [u32]) -> Result<Running, Stopped> {
    let path_nos = vec![0; coords.len() / LINE_FLOATS];
    let end = path_nos.len() as u32;
    let (mut b, mut c) = ([0; 4], [0; 4]);
    let (backdrops, counts) = (&mut b[..], &mut c[..]);
    count(Running::default(), Count { path_nos: &path_nos, coords, paths, backdrops, counts, refs, end })
}

#[test]
fn numbers_and_names_agree() {
    let numbers: Vec<u32> = Refusal::ALL.iter().map(|r| r.number()).collect();
    assert!(numbers.is_sorted_by(|a, b| a < b) && numbers[0] == 1, "{numbers:?}");
    let refused = Refused { refusal: Refusal::Outside, item: 3 };
    assert_eq!(refused.to_string(), "refusal 10: a step outside its path's box; item 3");
}

#[cfg(feature = "svg")]
#[test]
fn an_outline_is_read_or_refused_at_its_place() {
    let (mut path_nos, mut coords) = ([7; 6], [0.5; 6 * LINE_FLOATS]);
    // a curve of two lines, then the line back, and a second outline that draws nothing
    assert_eq!(svg_lines(b"M0,0 q8 16 16,0 M5 5", 1, 2, &mut path_nos, &mut coords), Ok(3));
    assert_eq!(path_nos, [2, 2, 2, 7, 7, 7]);
    assert_eq!(coords[..3 * LINE_FLOATS], [0.0, 0.0, 8.0, 8.0, 8.0, 8.0, 16.0, 0.0, 16.0, 0.0, 0.0, 0.0]);
    assert_eq!(coords[3 * LINE_FLOATS..], [0.5; 3 * LINE_FLOATS]);
    let before = (path_nos, coords);
    let mut refused = |text: &[u8], depth, room| {
        let no =
            svg_lines(text, depth, 2, &mut path_nos[..room], &mut coords[..LINE_FLOATS * room]).unwrap_err();
        assert_eq!((path_nos, coords), before, "a refusal wrote");
        (no.refusal.number(), no.place)
    };
    assert_eq!(refused(b"?", 7, 1), (22, 0));
    assert_eq!(refused(b"M1 2,", 0, 6), (21, 5));
    assert_eq!(refused(b"M1234567 2", 0, 6), (21, 7));
    assert_eq!(refused(b"M0 0h1z", 0, 1), (9, 0));
    let no = svg_lines(b"?", 0, 2, &mut path_nos, &mut coords[..6 * LINE_FLOATS - 1]).unwrap_err();
    assert_eq!((no.refusal, no.place), (Refusal::NotWhole, 0));
    let no = svg_lines(b"L", 0, 2, &mut path_nos, &mut coords).unwrap_err();
    assert_eq!(no.to_string(), "refusal 21: a text that is no path data of SVG; byte 0");
}

#[cfg(feature = "outlines")]
#[test]
fn outlines_are_closed_or_named() {
    let square = [4.0, 4.0, 20.0, 4.0, 20.0, 4.0, 20.0, 20.0, 20.0, 20.0, 4.0, 20.0, 4.0, 20.0, 4.0, 4.0];
    let mut work = [7; 2 * OUTLINE_WORDS + 1];
    let mut told = |path_nos: &[u32], coords: &[f32], path_count, room: usize| {
        let answer = outlines(Outlines { path_nos, coords, path_count, work: &mut work[..room] });
        let left = work;
        work = [7; 2 * OUTLINE_WORDS + 1];
        (answer.map_err(|no| (no.refusal.number(), no.item)), left)
    };
    let all = 2 * OUTLINE_WORDS;
    assert_eq!(told(&[1; 4], &square, 2, all), (Ok(()), [0, 0, 0, 0, 7]));
    // the closing line is forgotten
    assert_eq!(told(&[1; 3], &square[..12], 2, all), (Err((23, 2)), [0, 0, 0, 0, 7]));
    assert_eq!(told(&[1, 1, 2, 1], &square, 2, all), (Err((7, 2)), [7; 5]));
    assert_eq!(told(&[0; 4], &square, 2, all - 1), (Err((9, 0)), [7; 5]));
    assert_eq!(told(&[0; 3], &square, 2, all), (Err((1, 0)), [7; 5]));
    assert_eq!(told(&[], &[], 4_097, all), (Err((2, 0)), [7; 5]));
}

#[test]
fn batches_make_what_one_batch_makes() {
    let path_nos = [0, 0, 0];
    let coords = [4.0, 4.0, 28.0, 4.0, 28.0, 4.0, 16.0, 28.0, 16.0, 28.0, 4.0, 4.0];
    let mut whole = ([0; 4], [0; 4], [0; 16 * REF_WORDS]);
    let mut cut = whole;
    type Tiles = ([i32; 4], [u32; 4], [u32; 16 * REF_WORDS]);
    let batch = |running, end, (backdrops, counts, refs): &mut Tiles| {
        let (path_nos, coords, paths) = (&path_nos[..], &coords[..], &PATHS[..]);
        count(running, Count { path_nos, coords, paths, backdrops, counts, refs, end }).unwrap()
    };
    let all = batch(Running::default(), 3, &mut whole);
    let mut running = Running::default();
    for end in [1, 1, 3] {
        running = batch(running, end, &mut cut);
    }
    assert_eq!((running, cut), (all, whole));
    assert_eq!((all.lines, all.references), (3, 6));
}

#[test]
fn a_refused_line_has_its_number_and_changes_nothing() {
    let mut refs = [7; 4 * REF_WORDS];
    let coords = [8.0, 8.0, 8.0, 12.0, 1.0, 2.0, f32::MAX, 3.0];
    let stopped = counted(&coords, &PATHS, &mut refs).unwrap_err();
    assert_eq!((stopped.refused.refusal, stopped.refused.item), (Refusal::Coordinate, 1));
    assert_eq!(stopped.running, Running { lines: 1, references: 1 });
    assert_eq!(Reference::of(&refs), Reference { line: 0, slice: 0, step: 0 });
    assert_eq!(refs[REF_WORDS..], [7; 3 * REF_WORDS]);
}

#[test]
fn what_is_lent_is_checked() {
    let line = [8.0, 8.0, 8.0, 24.0];
    let number = |coords: &[f32], paths: &[u32], room: usize| {
        let mut refs = vec![0; room * REF_WORDS];
        counted(coords, paths, &mut refs).map_err(|s| s.refused.refusal.number())
    };
    assert_eq!(number(&line, &PATHS[1..], 4), Err(1));
    assert_eq!(number(&line, &[0; PATH_WORDS * 4_097], 4), Err(2));
    assert_eq!(number(&line, &boxed(u32::MAX, 2, 0), 4), Err(3));
    assert_eq!(number(&line, &boxed(2, 2, 1), 4), Err(4));
    assert_eq!(number(&line, &[], 4), Err(7));
    assert_eq!(number(&line, &PATHS, 1), Err(9));
    assert_eq!(number(&line, &PATHS, 2).map(|r| r.references), Ok(2));
}

#[test]
fn sums_slots_and_segments() {
    let mut backdrops = [i32::MAX, 1];
    let refused = backdrop(&boxed(2, 1, 0), &mut backdrops).unwrap_err();
    assert_eq!(refused.refusal, Refusal::SumOver);
    let (mut counts, mut tally) = ([1, 0, 1, 0], [0; 4]);
    let refused = hand_out(HandOut { counts: &mut counts, tally: &mut tally, room: 1 }).unwrap_err();
    assert_eq!((refused.refusal, counts), (Refusal::NoRoom, [1, 0, 1, 0]));
    hand_out(HandOut { counts: &mut counts, tally: &mut tally, room: 2 }).unwrap();

    let (path_nos, coords) = ([0], [8.0, 8.0, 8.0, 24.0]);
    let (mut segments, mut tags) = ([0.0; 2 * SEGMENT_FLOATS], [5, 5]);
    let refs = [0, 1, 9].map(|step| Reference { line: 0, slice: 0, step }.words()).concat();
    let tiled = |from, to, segments: &mut [f32], tags: &mut [u32]| {
        let (path_nos, coords, paths) = (&path_nos[..], &coords[..], &PATHS[..]);
        tile(Tile { path_nos, coords, paths, stored: &counts, refs: &refs, from, to, segments, tags })
    };
    tiled(0, 1, &mut segments, &mut tags).unwrap();
    assert_eq!(tags, [BEAM, 5]);
    tiled(1, 2, &mut segments, &mut tags).unwrap();
    assert_eq!(tags, [BEAM, BEAM]);
    let first = Segment { point0: [7.999999, 8.0], point1: [7.999999, 16.0], y_edge: Segment::NO_EDGE };
    assert_eq!(Segment::of(&segments), first);
    let refused = tiled(2, 3, &mut segments, &mut tags);
    assert_eq!(refused.unwrap_err().refusal, Refusal::Outside);
}

/// Paths 0 and 2 carry one number, path 1 another; line 0 is of path 1, 1 of path 2, 2 of path 0, and each has a tile of its own.
#[test]
fn a_tag_is_the_number_of_its_lines_path() {
    let path = |first, beam| Path { x0: 0, y0: 0, x1: 1, y1: 1, first, beam };
    let paths = [path(0, 7), path(1, u32::MAX), path(2, 7)].map(Path::words).concat();
    let (path_nos, coords) = ([1, 2, 0], [8.5, 2.0, 8.5, 6.0].repeat(3));
    let refs = [0, 1, 2].map(|line| Reference { line, slice: 0, step: 0 }.words()).concat();
    let asked = |stored: [u32; 3], from: u32, to: u32, slots: usize, tags: usize| {
        let (mut segments, mut tags) = (vec![0.5; SEGMENT_FLOATS * slots], vec![5; tags]);
        let answer = tile(Tile {
            path_nos: &path_nos,
            coords: &coords,
            paths: &paths,
            stored: &stored,
            refs: &refs,
            from,
            to,
            segments: &mut segments,
            tags: &mut tags,
        });
        let written: Vec<bool> =
            segments.chunks(SEGMENT_FLOATS).map(|s| s != [0.5; SEGMENT_FLOATS]).collect();
        assert!(answer.is_err_and(|no| no.refusal == Refusal::NotWhole) || written.len() == tags.len());
        assert!(
            written.iter().zip(&tags).all(|(written, tag)| *written == (*tag != 5)),
            "{written:?}, {tags:?}"
        );
        (answer.map_or_else(|no| (no.refusal.number(), no.item), |()| (0, 0)), tags)
    };
    assert_eq!(asked([!2, !0, !1], 0, 3, 4, 4), ((0, 0), vec![u32::MAX, 7, 7, 5]));
    assert_eq!(asked([!2, !0, !1], 1, 2, 4, 4), ((0, 0), vec![5, 7, 5, 5]));
    // a tile with no slot is skipped, one past the room refused: neither slot is touched
    assert_eq!(asked([!2, 0, !1], 0, 3, 4, 4), ((0, 0), vec![5, 7, 7, 5]));
    assert_eq!(asked([!2, !0, !4], 0, 3, 4, 4), ((9, 1), vec![u32::MAX, 5, 5, 5]));
    for tags in [0, 3, 5] {
        assert_eq!(asked([!2, !0, !1], 0, 3, 4, tags), ((1, 0), vec![5; tags]));
    }
}

#[test]
fn a_screen_and_its_commands() {
    let screen = Screen { width: 16, cols: 1, rows: 1 };
    let mut pixels = [5; 256];
    let mut number =
        |words: &[u32]| fine(words, &[], screen, 0, 1, &mut pixels).map_err(|r| r.refusal.number());
    assert_eq!(number(&[]), Err(13));
    assert_eq!(number(&[0, 9]), Err(14));
    assert_eq!(number(&[0, 4, 1]), Err(15));
    assert_eq!(number(&[0, 1, 2, 0, 0, 0]), Err(13));
    assert_eq!(number(&[0, 0]), Ok(()));
    let narrow = Screen { width: 15, ..screen };
    let refused = fine(&[0, 0], &[], narrow, 0, 1, &mut pixels).unwrap_err();
    assert_eq!(refused.refusal, Refusal::BadScreen);
    assert_eq!(pixels, [0; 256]);
}

#[cfg(all(feature = "frame", feature = "lists"))]
#[test]
fn a_frame_is_drawn() {
    let coords = [4.0, 0.0, 4.0, 16.0, 12.0, 16.0, 12.0, 0.0];
    let (mut b, mut t, mut y) = ([9; 4], [9; 4], [9; 4]);
    let (mut refs, mut segments, mut tags) = ([0; 4 * REF_WORDS], [0.0; 4 * SEGMENT_FLOATS], [5; 4]);
    let done = frame(Frame {
        path_nos: &[0, 0],
        coords: &coords,
        paths: &PATHS,
        backdrops: &mut b,
        stored: &mut t,
        tally: &mut y,
        refs: &mut refs,
        segments: &mut segments,
        tags: &mut tags,
    });
    assert_eq!((done.unwrap().references, tags), (2, [BEAM, BEAM, 5, 5]));
    let mut words = vec![7; words_needed(2, 2, 1)];
    let lent = WriteLists {
        paths: &PATHS,
        paints: &Paint { colour: 0xffffffff, even_odd: false }.words(),
        backdrops: &b,
        stored: &t,
        tally: &y,
        cols: 2,
        rows: 2,
        room: 4,
        words: &mut words,
    };
    write_lists(lent).unwrap();
    let screen = Screen { width: 32, cols: 2, rows: 2 };
    let mut pixels = [0; 1_024];
    fine(&words, &segments, screen, 0, 4, &mut pixels).unwrap();
    let row: Vec<u32> = pixels[..32].iter().map(|p| p >> 24).collect();
    assert!(row[..4].iter().all(|a| *a == 0) && row[4..12].iter().all(|a| *a >= 254));
    assert!(row[12..].iter().all(|a| *a <= 1));
}

#[cfg(feature = "frame")]
#[test]
fn a_frame_says_which_part_refused() {
    let line = [8.0, 8.0, 8.0, 24.0];
    let tagged = |coords: &[f32], tally: usize, refs: usize, slots: usize, tags: usize| {
        let (mut b, mut t, mut y) = ([9; 4], [9; 4], vec![9; tally]);
        let (mut refs, mut segments) = (vec![0; REF_WORDS * refs], vec![0.0; SEGMENT_FLOATS * slots]);
        let mut tags = vec![5; tags];
        let lent = Frame {
            path_nos: &[0],
            coords,
            paths: &PATHS,
            backdrops: &mut b,
            stored: &mut t,
            tally: &mut y,
            refs: &mut refs,
            segments: &mut segments,
            tags: &mut tags,
        };
        frame(lent).map_err(|s| (s.stage, s.refused.refusal, b[0]))
    };
    let stage =
        |coords: &[f32], tally: usize, refs: usize, slots: usize| tagged(coords, tally, refs, slots, slots);
    assert_eq!(tagged(&line, 4, 2, 2, 3).unwrap_err(), (Stage::Lent, Refusal::NotWhole, 9));
    assert_eq!(tagged(&line, 4, 2, 2, 1).unwrap_err(), (Stage::Lent, Refusal::NotWhole, 9));
    assert_eq!(stage(&line, 3, 2, 2).unwrap_err(), (Stage::Lent, Refusal::NotWhole, 9));
    assert_eq!(stage(&line, 4, 1, 2).unwrap_err(), (Stage::Count, Refusal::NoRoom, 0));
    assert_eq!(stage(&line, 4, 2, 1).unwrap_err(), (Stage::HandOut, Refusal::NoRoom, 0));
    let low = f32::from_bits(0x80000008);
    assert_eq!(stage(&[0.0, low, 0.0, 16.0], 4, 2, 2).unwrap_err().0, Stage::Tile);
    assert!(stage(&line, 4, 2, 2).is_ok());
}

#[cfg(feature = "lists")]
#[test]
fn lists_are_refused_whole() {
    let mut words = [7; TILE_WORDS];
    let paint = Paint { colour: 1, even_odd: false }.words();
    let mut number = |tally: u32, stored: u32, room: u32, tiles: u32| {
        let lent = WriteLists {
            paths: &boxed(1, 1, 0),
            paints: &paint,
            backdrops: &[1],
            stored: &[stored],
            tally: &[tally],
            cols: tiles,
            rows: 1,
            room,
            words: &mut words,
        };
        write_lists(lent).map_err(|r| r.refusal.number())
    };
    assert_eq!(number(1, !4, 4, 1), Err(9));
    assert_eq!(number(1, 0, 4, 1), Err(9));
    assert_eq!(number(0, 0, 4, 2), Err(9));
    assert_eq!(number(0, 0, 4, 1_048_577), Err(2));
    assert_eq!(number(1, !3, 4, 1), Ok(()));
    assert_eq!(words[..8], [7, 1, 2, 3, 1, 3, 1, 0]);
    assert!(words[8..].iter().all(|w| *w == 7));
}

#[cfg(feature = "pixel")]
#[test]
fn one_pixel_is_what_the_tile_has() {
    let down = Segment { point0: [2.0, 0.0], point1: [13.5, 16.0], y_edge: Segment::NO_EDGE };
    let up = Segment { point0: [13.5, 16.0], point1: [2.0, 4.25], y_edge: 3.0 };
    let segments = [down.floats(), up.floats()].concat();
    let of = |even_odd| Fill { first: 0, number: 2, even_odd, backdrop: 1, x_tile: 0.0, y_tile: 0.0 };
    // FILL of both by even-odd, COLOR, then a FILL of the second by non-zero, COLOR
    let words = [0, 1, 5, 0, 1, 3, 0x204060ff, 1, 2, 1, 0, 3, 0x80ff0180, 0];
    let screen = Screen { width: 16, cols: 1, rows: 1 };
    let (mut odd, mut whole, mut pixels) = ([0.0; 256], [0.0; 256], [0; 256]);
    fill(&segments, of(true), &mut odd).unwrap();
    fill(&segments, of(false), &mut whole).unwrap();
    fine(&words, &segments, screen, 0, 1, &mut pixels).unwrap();
    for k in 0..TILE_PIXELS {
        let (column, row) = ((k % TILE_SIDE) as u32, (k / TILE_SIDE) as u32);
        assert_eq!(pixel_area(&segments, of(true), column, row), Ok(odd[k]));
        assert_eq!(pixel_area(&segments, of(false), column, row), Ok(whole[k]));
        assert_eq!(pixel(&words, &segments, 0, column, row), Ok(pixels[k]));
    }
}

#[cfg(feature = "pixel")]
#[test]
fn nineteen_comes_first() {
    let number = |r: Result<u32, Refused>| r.unwrap_err().refusal.number();
    assert_eq!(number(pixel(&[], &[0.0], 0, 16, 0)), 19);
    assert_eq!(number(pixel(&[], &[0.0], 0, 0, 16)), 19);
    assert_eq!(number(pixel(&[], &[0.0], 0, 15, 15)), 1);
    assert_eq!(number(pixel(&[0; 64], &[], u32::MAX, 15, 15)), 13);
    assert_eq!(number(pixel(&[0, 9], &[], 0, 15, 15)), 14);
    assert_eq!(number(pixel(&[0, 4, 1], &[], 0, 15, 15)), 15);
    assert_eq!(number(pixel(&[0, 1, 2, 0, 0, 0], &[], 0, 15, 15)), 13);
    let one = Fill { first: 0, number: 1, even_odd: false, backdrop: 0, x_tile: 0.0, y_tile: 0.0 };
    let number = |r: Result<f32, Refused>| r.unwrap_err().refusal.number();
    assert_eq!(number(pixel_area(&[0.0], one, 16, 0)), 19);
    assert_eq!(number(pixel_area(&[0.0], one, 0, 0)), 1);
    assert_eq!(number(pixel_area(&[], one, 0, 0)), 13);
}

/// A fill of three segments, the second with one float altered: 20 in every call that takes it, and nothing changes.
#[test]
fn twenty_at_every_border() {
    let within = [0.0, -0.0, f32::from_bits(1), 15.999999, 16.0];
    let outside = [-f32::from_bits(1), 16.000002, f32::MAX, f32::NEG_INFINITY, f32::INFINITY, f32::NAN];
    let edges = [f32::NEG_INFINITY, f32::INFINITY, f32::NAN];
    let three = Fill { first: 0, number: 3, even_odd: false, backdrop: 0, x_tile: 0.0, y_tile: 0.0 };
    let words = [0, 1, 6, 0, 0, 3, 0xffff_ffff, 0];
    let screen = Screen { width: 16, cols: 1, rows: 1 };
    let asked = |at: usize, v: f32| {
        let straight = Segment { point0: [1.0, 2.0], point1: [3.0, 4.0], y_edge: Segment::NO_EDGE };
        let mut segments = straight.floats().repeat(3);
        segments[SEGMENT_FLOATS + at] = v;
        let (mut area, mut pixels) = ([7.0; 256], [7; 256]);
        let number = |r: Result<(), Refused>| r.map_or_else(|no| no.refusal.number(), |()| 0);
        let all = [
            number(fill(&segments, three, &mut area)),
            number(fine(&words, &segments, screen, 0, 1, &mut pixels)),
            number(pixel_area(&segments, three, 3, 3).map(|_| ())),
            number(pixel(&words, &segments, 0, 3, 3).map(|_| ())),
        ];
        assert_eq!(
            fill(&segments, Fill { number: 1, ..three }, &mut [7.0; 256]),
            Ok(()),
            "one that the fill doesn't name"
        );
        let kept = area == [7.0; 256] && pixels == [7; 256];
        (all, kept)
    };
    let y_edge = SEGMENT_FLOATS - 1; // the ends stand before it
    for at in 0..y_edge {
        within.iter().for_each(|&v| assert_eq!(asked(at, v), ([0; 4], false), "float {at}: {v}"));
        outside.iter().for_each(|&v| assert_eq!(asked(at, v), ([20; 4], true), "float {at}: {v}"));
    }
    edges.iter().for_each(|&v| assert_eq!(asked(y_edge, v), ([20; 4], true), "y_edge {v}"));
    [-f32::MAX, f32::MAX].iter().for_each(|&v| assert_eq!(asked(y_edge, v), ([0; 4], false), "y_edge {v}"));
}

#[cfg(feature = "picture")]
#[test]
fn a_picture_comes_back() {
    let pixels: Vec<u32> = (0..12).map(|k| 0xff000000 | (0x123456 * k)).collect();
    let (mut file, mut back) = (vec![0; 64], vec![0; 36]);
    let n = ppm_write(&pixels, 4, 3, &mut file).unwrap();
    assert_eq!(ppm_read(&file[..n], &mut back).unwrap(), (4, 3));
    assert!(pixels.iter().zip(back.chunks(3)).all(|(p, b)| p.to_le_bytes()[..3] == *b));
    let number = |r: Result<(u32, u32), Refused>| r.unwrap_err().refusal.number();
    assert_eq!(number(ppm_read(&file[..n - 1], &mut back)), 18);
    assert_eq!(number(ppm_read(b"P6 0 3 255\n", &mut back)), 17);
    assert_eq!(number(ppm_read(&file[..n], &mut back[..35])), 9);
    assert_eq!(ppm_write(&pixels, 0, 3, &mut file).unwrap_err().refusal, Refusal::BadSize);
}

#[cfg(feature = "check")]
#[test]
fn another_s_tables_are_checked() {
    let (path_nos, coords) = ([0, 0], [8.0, 8.0, 8.0, 24.0, 8.0, 8.0, 24.0, 8.0]);
    let (mut backdrops, mut stored, mut counts, mut refs) = ([0; 4], [0; 4], [0; 4], [0; 8]);
    let lent = Count {
        path_nos: &path_nos,
        coords: &coords,
        paths: &PATHS,
        backdrops: &mut backdrops,
        counts: &mut stored,
        refs: &mut refs,
        end: 2,
    };
    count(Running::default(), lent).unwrap();
    hand_out(HandOut { counts: &mut stored, tally: &mut counts, room: 4 }).unwrap();
    let mut work = [7; 45];
    let mut said = |refs: &[u32], backdrops: &[i32], room: u32, words: usize| {
        work.fill(7);
        let (path_nos, coords, paths, counts, stored) =
            (&path_nos[..], &coords[..], &PATHS[..], &counts[..], &stored[..]);
        let found = check(Check {
            path_nos,
            coords,
            paths,
            refs,
            counts,
            backdrops,
            stored,
            room,
            work: &mut work[..words],
        });
        (found.map_err(|r| (r.refusal.number(), r.item)), work[..words].iter().filter(|&&w| w == 0).count())
    };
    let needed = work_needed(4, 2, 4);
    assert_eq!(needed, 40);
    assert_eq!(said(&refs, &backdrops, 4, 45), (Ok(Found::Yes), 40));
    assert_eq!(said(&refs, &backdrops, 4, 39), (Err((9, 0)), 0));
    assert_eq!(said(&refs, &backdrops[..3], 4, 45), (Err((1, 0)), 0));
    assert_eq!(said(&refs, &[1, 0, 0, 0], 4, 40), (Ok(Found::Backdrop(0)), 40));
    assert_eq!(said(&refs, &backdrops, 3, 40), (Ok(Found::Slots(2)), 40));
    assert_eq!(said(&refs[..6], &backdrops, 4, 40), (Ok(Found::Reference(3)), 36));
    let mut other = refs;
    other[1] = 5; // a step that the line doesn't make
    assert_eq!(said(&other, &backdrops, 4, 40), (Ok(Found::Reference(0)), 40));
}

#[cfg(all(feature = "sizes", feature = "frame", feature = "lists"))]
#[test]
fn just_so_much_room_is_enough() {
    let (path_nos, coords) = ([0, 0], [8.0, 8.0, 8.0, 24.0, 8.0, 8.0, 24.0, 8.0]);
    let told = sizes(&path_nos, &coords, &PATHS, 2, 2).unwrap();
    assert_eq!(told, Sizes { tiles: 4, references: 4, words: 4 * 64 });
    let drawn = |refs: u32, slots: u32| {
        let (mut backdrops, mut stored, mut tally) = ([0; 4], [0; 4], [0; 4]);
        let (mut refs, mut segments) =
            (vec![0; REF_WORDS * refs as usize], vec![0.0; SEGMENT_FLOATS * slots as usize]);
        let mut tags = vec![0; slots as usize];
        let done = frame(Frame {
            path_nos: &path_nos,
            coords: &coords,
            paths: &PATHS,
            backdrops: &mut backdrops,
            stored: &mut stored,
            tally: &mut tally,
            refs: &mut refs,
            segments: &mut segments,
            tags: &mut tags,
        });
        let mut words = vec![0; told.words as usize];
        let paints = Paint { colour: 0x204060ff, even_odd: false }.words();
        let listed = write_lists(WriteLists {
            paths: &PATHS,
            paints: &paints,
            backdrops: &backdrops,
            stored: &stored,
            tally: &tally,
            cols: 2,
            rows: 2,
            room: slots,
            words: &mut words,
        });
        (done.map(|r| r.references).map_err(|s| s.refused.refusal), listed)
    };
    assert_eq!(drawn(told.references, told.references), (Ok(told.references), Ok(())));
    assert_eq!(drawn(told.references - 1, told.references).0, Err(Refusal::NoRoom));
    assert_eq!(drawn(told.references, told.references - 1).0, Err(Refusal::NoRoom));
    // refused as counting refuses, and told of no size
    let refused = sizes(&[0, 5], &coords, &PATHS, 2, 2).unwrap_err();
    assert_eq!((refused.refusal, refused.item), (Refusal::NoSuch, 1));
    assert_eq!(sizes(&path_nos, &coords, &PATHS, 1 << 20, 2).unwrap_err().refusal, Refusal::TooMany);
}

/// A panel draws what the calls draw over boxes and sizes asked for by hand, a tile further in, at a size that is no whole number of tiles,
/// and again in the memory that it holds.
#[test]
fn a_panel_draws_what_the_calls_draw() {
    let (width, height) = (40u32, 21u32);
    let paints = [0xff0000ff, 0x00ff00ff].map(|colour| Paint { colour, even_odd: false });
    let outlines = [[[3.0, 18.0], [20.0, 2.0], [37.0, 18.0]], [[10.0, 20.0], [25.0, 5.0], [30.0, 20.0]]];
    let mut panel = Panel::new(width, height);
    let channels = paints.map(|paint| panel.channel(7, paint));
    for _ in 0..2 {
        panel.clear();
        channels.iter().zip(&outlines).for_each(|(channel, points)| panel.outline(*channel, points));
        let picture = panel.draw().unwrap();
        assert_eq!(picture.rows().count(), height as usize);
        assert!(picture.rows().all(|row| row.len() == width as usize));

        let path_nos = [0, 0, 0, 1, 1, 1];
        let coords: Vec<f32> = outlines
            .iter()
            .flat_map(|p| (0..3).flat_map(move |k| [p[k], p[(k + 1) % 3]].concat()))
            .map(|v| v + 16.0)
            .collect();
        let (mut paths, mut work) = ([0; 2 * PATH_WORDS], [0; 2 * BOX_WORDS]);
        let lent = Boxes {
            path_nos: &path_nos,
            coords: &coords,
            beams: &[7, 7],
            margin: 1,
            paths: &mut paths,
            work: &mut work,
        };
        let tiles = boxes(lent).unwrap() as usize;
        let told = sizes(&path_nos, &coords, &paths, 4, 3).unwrap();
        let references = told.references as usize;
        let (mut backdrops, mut stored, mut tally) = (vec![0; tiles], vec![0; tiles], vec![0; tiles]);
        let mut refs = vec![0; REF_WORDS * references];
        let (mut segments, mut tags) = (vec![0.0; SEGMENT_FLOATS * references], vec![0; references]);
        let (mut words, mut pixels) = (vec![0; told.words as usize], vec![0; 64 * 48]);
        draw(Draw {
            path_nos: &path_nos,
            coords: &coords,
            paths: &paths,
            paints: &paints.map(Paint::words).concat(),
            backdrops: &mut backdrops,
            stored: &mut stored,
            tally: &mut tally,
            refs: &mut refs,
            segments: &mut segments,
            tags: &mut tags,
            width: 64,
            cols: 4,
            rows: 3,
            words: &mut words,
            pixels: &mut pixels,
        })
        .unwrap();
        let mut painted = 0;
        for (y, row) in picture.rows().enumerate() {
            assert_eq!(row, &pixels[64 * (y + 16) + 16..][..width as usize], "row {y}");
            painted += row.iter().filter(|p| **p != 0).count();
        }
        assert!(painted > 200);
    }
}

/// Whose fault it is: a channel's for its own places, the panel's own for too many channels.
#[test]
fn a_panel_says_whose_fault_it_is() {
    let paint = Paint { colour: 0xff0000ff, even_odd: false };
    let mut panel = Panel::new(16, 16);
    let channel = panel.channel(301, paint);
    panel.outline(channel, &[[0.0, 0.0], [65520.0, 8.0]]);
    let refusal = Refusal::BadBox;
    assert_eq!(panel.draw().unwrap_err(), Fault::Channel { channel, beam: 301, line: None, refusal });
    panel.clear();
    panel.outline(channel, &[[0.0, 0.0]]);
    assert!(panel.draw().unwrap().rows().all(|row| row.iter().all(|p| *p == 0)));
    (0..4096).for_each(|_| _ = panel.channel(302, paint));
    assert_eq!(panel.draw().unwrap_err(), Fault::Panel(Refused { refusal: Refusal::TooMany, item: 0 }));
}
