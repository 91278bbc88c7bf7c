//! Calls that lead to the answers which altered words seldom meet, and the answers that each call can give.

use crate::calls::{Call, NAMES};
use cases::Rng;
use rules::limits::{COORD_MOST, COUNT_MOST, LINE, PAINT, PATH, PATHS_MOST, REF, REGION, SEGMENT, SIDE_MOST, TILES_MOST};
use rules::records::{path, reference, Line};

/// The answers that a call of a kind can give, all of which the hostile runs want to meet.
pub fn answers(kind: u32) -> &'static [u32] {
    rules::answers(NAMES[kind as usize])
}

fn bits(line: Line) -> Vec<u32> {
    line.map(f32::to_bits).to_vec()
}

/// Paths, one more than are allowed or a few.
fn many_paths(rng: &mut Rng) -> Vec<u32> {
    rules::records::no_tiles(rules::limits::PATHS_MOST as usize + rng.range(0, 2) as usize)
}

/// Line numbers at the end of those allowed: the path numbers, the coordinates, the lines so far.
fn many_lines(rng: &mut Rng) -> (Vec<u32>, Vec<u32>, u32) {
    let most = rules::limits::LINES_MOST as usize;
    let n = most + rng.range(0, 2) as usize;
    (vec![0; n], vec![0; LINE * n], most as u32)
}

/// A count of one line down the first column of two by two tiles, over tiles that hold these words.
fn one_line(line: Line, paths: &[u32], backdrop: u32, count: u32, refs: usize) -> Call {
    let tiles = 12;
    let slices = vec![vec![0], bits(line), paths.to_vec(), vec![backdrop; tiles], vec![count; tiles], vec![9; refs]];
    Call { kind: 1, numbers: vec![1, 0, 0], slices }
}

fn count(rng: &mut Rng) -> Call {
    let (down, square) = ([8.0, 8.0, 8.0, 24.0], path([0, 0, 2, 2], 0));
    match rng.below(12) {
        0 => one_line(down, &many_paths(rng), 0, 0, 4 * REF),
        1 => {
            let (path_nos, coords, lines) = many_lines(rng);
            let numbers = vec![path_nos.len() as u32, lines, 0];
            Call { kind: 1, numbers, slices: vec![path_nos, coords, square.to_vec(), vec![0; 4], vec![0; 4], vec![9; 4 * REF]] }
        }
        2..=4 => one_line(down, &square, 0, rng.pick(&[COUNT_MOST as u32, COUNT_MOST as u32 + 1, u32::MAX]), 4 * REF),
        5 | 6 => one_line(down, &square, rng.pick(&[i32::MIN as u32, i32::MIN as u32 + 1, i32::MAX as u32]), 0, 4 * REF),
        7 | 8 => one_line([8.0, 24.0, 8.0, 8.0], &square, i32::MAX as u32, 0, 4 * REF),
        _ => one_line([80.0, 0.0, 80.0, f32::from_bits(rng.range(1, 2_000) as u32)], &path([0, 0, 6, 1], 0), 0, 0, 4 * REF),
    }
}

/// A line from a coordinate a few denormals below 0: its piece ends off the tile.
fn off_its_tile(rng: &mut Rng) -> Line {
    [0.0, f32::from_bits(0x8000_0000 + rng.range(1, 9) as u32), 0.0, 16.0]
}

fn tile(rng: &mut Rng) -> Call {
    let slices = match rng.below(3) {
        0 => vec![
            vec![0],
            bits([8.0, 8.0, 8.0, 24.0]),
            many_paths(rng),
            vec![u32::MAX; 4],
            reference(0, 0, 0).to_vec(),
            vec![0; 2 * SEGMENT],
            vec![5; 2],
        ],
        1 => {
            vec![
                vec![0],
                bits(off_its_tile(rng)),
                path([0, 0, 1, 1], 0).to_vec(),
                vec![u32::MAX],
                reference(0, 0, 0).to_vec(),
                vec![0; SEGMENT],
                vec![5],
            ]
        }
        _ => vec![
            vec![0],
            bits([8.0, 8.0, 8.0, 24.0]),
            rules::records::path([0, 0, 2, 2], 0).to_vec(),
            vec![!rng.range(0, 2) as u32; 4],
            reference(0, 0, 0).to_vec(),
            vec![0; SEGMENT],
            vec![5],
        ],
    };
    Call { kind: 4, numbers: vec![0, 1], slices }
}

fn frame(rng: &mut Rng) -> Call {
    let (path_nos, coords, paths, tiles) = match rng.below(12) {
        0 => (vec![0], bits([8.0, 8.0, 8.0, 24.0]), many_paths(rng), 4),
        2..=6 => (vec![0], bits(off_its_tile(rng)), path([0, 0, 1, 1], 0).to_vec(), 1),
        1 => {
            let (path_nos, coords, _) = many_lines(rng);
            (path_nos, coords, rules::records::path([0, 0, 2, 2], 0).to_vec(), 4)
        }
        _ => (vec![0], bits([80.0, 0.0, 80.0, f32::from_bits(rng.range(1, 2_000) as u32)]), path([0, 0, 6, 1], 0).to_vec(), 6),
    };
    let slices = vec![path_nos, coords, paths, vec![7; tiles], vec![7; tiles], vec![7; tiles], vec![9; 4 * REF], vec![0; 4 * SEGMENT], vec![5; 4]];
    Call { kind: 7, numbers: vec![], slices }
}

/// The same of a drawing, on a screen of one tile; or paths over that tile, about as many as its commands allow.
fn draw(rng: &mut Rng, kind: u32) -> Call {
    let mut slices = frame(rng).slices;
    if rng.one_in(5) {
        let (path_nos, coords, _) = many_lines(rng);
        (slices[0], slices[1], slices[2]) = (path_nos, coords, path([0, 0, 1, 1], 0).to_vec());
    } else if rng.one_in(4) {
        // each is covered by the sum of a line left of the tile, which marks its row
        let n = rules::limits::COMMANDS_MOST / 2 - 2 + rng.below(4) as u32;
        let down = bits([8.0, 0.0, 8.0, 16.0]);
        slices[0] = (0..n).collect();
        slices[1] = down.repeat(n as usize);
        slices[2] = (0..n).flat_map(|k| path([1, 0, 2, 1], k)).collect();
        for k in 3..6 {
            slices[k] = vec![7; n as usize];
        }
    }
    let paints = vec![0; PAINT * slices[2].len() / rules::limits::PATH];
    slices.insert(3, paints);
    slices.extend([vec![7; REGION * 1000], vec![7; 512]]);
    Call { kind, numbers: vec![32, 2, 1], slices }
}

/// Paths over the one screen tile, all of which its backdrop covers, about as many as its commands allow.
fn write_lists(rng: &mut Rng) -> Call {
    let n = rules::limits::COMMANDS_MOST / 2 - rng.below(160) as u32;
    let paths = (0..n).flat_map(|k| rules::records::path([0, 0, 1, 1], k)).collect();
    let words = REGION * (n as usize / 10 + 1);
    let slices = vec![paths, vec![0; PAINT * n as usize], vec![1; n as usize], vec![0; n as usize], vec![0; n as usize], vec![7; words]];
    Call { kind: 8, numbers: vec![1, 1, 0], slices }
}

/// A pixel on the tile or just off it, under commands about as many as a tile may have, an endless list, or one that is unknown.
fn pixel(rng: &mut Rng, kind: u32) -> Call {
    use rules::fine::{COLOR, END, JUMP, SOLID};
    let words = match rng.below(4) {
        0 => vec![0, JUMP, 1],
        1 => {
            let n = rules::limits::COMMANDS_MOST as usize - rng.below(2) as usize + rng.below(2) as usize;
            [vec![0], vec![SOLID; n], vec![END]].concat()
        }
        2 => vec![0, SOLID, COLOR, rng.u32(), rng.pick(&[JUMP + 1, u32::MAX])],
        _ => vec![0, SOLID, COLOR, rng.u32(), END],
    };
    Call { kind, numbers: vec![0, rng.range(14, 16) as u32, rng.range(14, 16) as u32, rng.u32()], slices: vec![words, vec![]] }
}

/// A recount of the last path: paths at the limit, a step off its box, a line number at the limit, or a tile so often taken, by
/// lines of one number, that its count is at the limit.
fn recount(rng: &mut Rng, kind: u32) -> Call {
    let down = bits([8.0, 4.0, 8.0, 12.0]);
    let (paths, wide) = (many_paths(rng), [80.0, 0.0, 80.0, f32::from_bits(rng.range(1, 2_000) as u32)]);
    let boxed = |columns: u32| path([0, 0, columns, 1], 0).to_vec();
    let often = rules::limits::COUNT_MOST as usize + rng.range(0, 2) as usize;
    let (line_no, coords, paths, tiles) = match rng.below(12) {
        0 | 6 | 7 => (0, down, paths, 0),
        1 | 2 => (0, down.repeat(often), boxed(1), 1),
        3..=5 => (rules::limits::LINES_MOST as u32 - rng.below(2) as u32, down, boxed(1), 1),
        _ => (0, bits(wide), boxed(6), 6),
    };
    let lines = coords.len() / LINE;
    let slices = vec![
        vec![line_no; lines],
        vec![0; lines],
        coords,
        paths,
        vec![7; tiles],
        vec![7; tiles],
        vec![9; REF * (lines + 4)],
        vec![5; tiles],
        vec![5; tiles],
    ];
    Call { kind, numbers: vec![0], slices }
}

/// Boxes of as many paths as there may be, or one more; of as many lines; of an end at the coordinate's limit; of boxes that
/// take about as many tiles as there may be.
fn boxes(rng: &mut Rng, kind: u32) -> Call {
    let far = COORD_MOST - 0.0078125;
    let side = (TILES_MOST as f32).sqrt() / rules::walk::TILE_SCALE - 1.0;
    let (path_nos, coords, n) = match rng.below(8) {
        0 => (vec![0], bits([8.0, 8.0, 8.0, 24.0]), PATHS_MOST as usize + rng.range(0, 2) as usize),
        1 => {
            let (path_nos, coords, _) = many_lines(rng);
            (path_nos, coords, 1)
        }
        2 | 3 => (vec![1, 0], [bits([8.0, 8.0, 8.0, 24.0]), bits([8.0, rng.pick(&[COORD_MOST, far]), 0.0, 0.0])].concat(), 2),
        4 => (vec![0], bits([0.0, 0.0, far, far]), 1),
        _ => (vec![0, 1], [bits([0.0, 0.0, side, side]), bits([0.0, 0.0, 1.0, rng.pick(&[1.0, 0.0])])].concat(), rng.pick(&[1, 2, 2])),
    };
    let work = vec![7; rules::boxes::work_words(n)];
    Call { kind, numbers: vec![rng.pick(&[0, 0, 1, u32::MAX])], slices: vec![path_nos, coords, vec![3; n], vec![9; PATH * n], work] }
}

/// A check of another's tables over paths or lines at the limit, or over a line whose step leaves its box.
fn check(rng: &mut Rng, kind: u32) -> Call {
    let wide = bits([80.0, 0.0, 80.0, f32::from_bits(rng.range(1, 2_000) as u32)]);
    let (path_nos, coords, paths, tiles) = match rng.below(6) {
        0 | 1 => (vec![0], bits([8.0, 8.0, 8.0, 24.0]), many_paths(rng), 4),
        2 => {
            let (path_nos, coords, _) = many_lines(rng);
            (path_nos, coords, path([0, 0, 2, 2], 0).to_vec(), 4)
        }
        _ => (vec![0], wide, path([0, 0, 6, 1], 0).to_vec(), 6),
    };
    let work = vec![7; rules::check::work_words(tiles, path_nos.len(), 0)];
    let slices = vec![path_nos, coords, paths, vec![], vec![0; tiles], vec![0; tiles], vec![0; tiles], work];
    Call { kind, numbers: vec![u32::MAX], slices }
}

/// Lines about as many as have numbers, each an outline of its own, or paths about as many as are allowed.
fn outlines(rng: &mut Rng, kind: u32) -> Call {
    let paths = (rules::limits::PATHS_MOST + rng.range(-1, 2)) as u32;
    let (path_nos, coords) = if rng.one_in(4) {
        let (path_nos, coords, _) = many_lines(rng);
        (path_nos, coords)
    } else {
        (vec![rng.pick(&[0, paths - 1, paths])], vec![0; LINE])
    };
    let room = rules::outlines::ROOM_EACH * paths as usize + rng.below(2) as usize - rng.below(2) as usize;
    Call { kind, numbers: vec![paths], slices: vec![path_nos, coords, vec![7; room]] }
}

/// Sizes over paths or lines at the limit, or of lines so long that the references of all are about as many as there can be.
fn sizes(rng: &mut Rng, kind: u32) -> Call {
    let (path_nos, coords, _) = many_lines(rng);
    let lines = rules::limits::LINES_MOST as usize - rng.below(2) as usize;
    let columns = (rules::limits::ROOM_MOST / rules::limits::LINES_MOST) as u32 + rng.below(2) as u32;
    let long = bits([0.0, 8.0, 16.0 * columns as f32, 8.0]);
    let slices = match rng.below(4) {
        0 => vec![vec![0], bits([8.0, 8.0, 8.0, 24.0]), many_paths(rng)],
        1 => vec![path_nos, coords, path([0, 0, 2, 2], 0).to_vec()],
        _ => vec![vec![0; lines], long.repeat(lines), path([0, 0, columns, 1], 0).to_vec()],
    };
    Call { kind, numbers: vec![1, 1], slices }
}

/// A call that leads to a rare answer of the kind, where it has one.
pub fn toward(rng: &mut Rng, kind: u32) -> Option<Call> {
    Some(match NAMES[kind as usize] {
        "count" => count(rng),
        "backdrop" => {
            let paths = if rng.coin() { many_paths(rng) } else { rules::records::path([0, 0, 2, 2], 0).to_vec() };
            let ends = rng.pick(&[[i32::MAX as u32, 1], [i32::MIN as u32, u32::MAX], [i32::MAX as u32, 0]]);
            Call { kind, numbers: vec![], slices: vec![paths, [ends, ends].concat()] }
        }
        "hand_out" if rng.one_in(10) => {
            let tiles = rules::limits::TILES_MOST as usize + rng.range(0, 1) as usize;
            Call { kind, numbers: vec![u32::MAX], slices: vec![vec![0; tiles], vec![1; tiles]] }
        }
        "tile" => tile(rng),
        "frame" => frame(rng),
        "draw" => draw(rng, kind),
        "recount" => recount(rng, kind),
        "boxes" => boxes(rng, kind),
        "check" => check(rng, kind),
        "outlines" => outlines(rng, kind),
        "sizes" if rng.coin() => sizes(rng, kind),
        "write_lists" if rng.one_in(4) => write_lists(rng),
        "ppm_read" => {
            let (width, height) = (rng.pick(&[0, 1, SIDE_MOST, SIDE_MOST + 1, u32::MAX]), rng.pick(&[0, 1, SIDE_MOST + 1]));
            let file = format!("P6\n{width} {height}\n255\nabc").bytes().map(u32::from).collect();
            Call { kind, numbers: vec![], slices: vec![file, vec![7; 9]] }
        }
        "pixel" => pixel(rng, kind),
        _ => return None,
    })
}
