//! The limits that need long slices: the last that passes and the first that is refused.

use crate::calls::{by_ours, by_rules, linked, same_outcome, Call, NAMES};
use rules::limits::{COORD_MOST, EDGE_MOST, LINE, LINES_MOST, PAINT, PATHS_MOST, REF, REGION, ROOM_MOST, SEGMENT, TILES_MOST};
use rules::records::{no_tiles, path, reference, Line};

const TILES: usize = TILES_MOST as usize;
const ROOM: usize = ROOM_MOST as usize;
const EDGE: u32 = EDGE_MOST as u32;

fn bits(line: Line) -> Vec<u32> {
    line.map(f32::to_bits).to_vec()
}

/// Calls and the refusal number that each must give.
fn calls(long: bool) -> Vec<(&'static str, Call, u32)> {
    let one = || (vec![0u32], bits([8.0, 8.0, 8.0, 12.0]), path([0, 0, 2, 2], 0).to_vec());
    let mut out = vec![];
    for (tiles, number) in [(TILES, 0), (TILES + 1, 2)] {
        let (path_nos, coords, paths) = one();
        let refs = vec![9; 2 * REF];
        let count = vec![path_nos.clone(), coords.clone(), paths.clone(), vec![0; tiles], vec![0; tiles], refs];
        out.push(("tiles", Call { kind: 1, numbers: vec![1, 0, 0], slices: count }, number));
        out.push(("tiles", Call { kind: 2, numbers: vec![], slices: vec![paths.clone(), vec![1; tiles]] }, number));
        out.push(("tiles", Call { kind: 3, numbers: vec![u32::MAX], slices: vec![vec![1; tiles], vec![5; tiles]] }, number));
        let tile = vec![path_nos, coords, paths, vec![u32::MAX; tiles], reference(0, 0, 0).to_vec(), vec![0; SEGMENT], vec![5]];
        out.push(("tiles", Call { kind: 4, numbers: vec![0, 1], slices: tile }, number));
    }
    // a box as wide or as high as may be, one wider, and one that takes all tiles
    let rows = TILES as u32 / EDGE;
    for (edge, number) in [(EDGE, 0), (EDGE + 1, 3)] {
        for paths in [path([0, 0, edge, rows - 1], 0).to_vec(), path([0, 0, rows - 1, edge], 0).to_vec(), path([edge, edge, EDGE, EDGE], 0).to_vec()]
        {
            let slices = vec![vec![0], bits([8.0, 8.0, 8.0, 12.0]), paths.clone(), vec![0; TILES], vec![0; TILES], vec![9; 2 * REF]];
            out.push(("box edge", Call { kind: 1, numbers: vec![1, 0, 0], slices }, number));
            out.push(("box edge", Call { kind: 2, numbers: vec![], slices: vec![paths, vec![0; TILES]] }, number));
        }
    }
    // a line from one corner of what coordinates reach to the other, and one float more
    for (k, over) in (0..4).flat_map(|k| [(k, false), (k, true)]) {
        let mut line = [-COORD_MOST, -COORD_MOST, COORD_MOST, COORD_MOST];
        if over {
            line[k] = f32::from_bits(line[k].to_bits() + 1);
        }
        let number = if over { 6 } else { 0 };
        let paths = path([0, 0, EDGE, rows], 0).to_vec();
        let slices = vec![vec![0], bits(line), paths.clone(), vec![0; TILES], vec![0; TILES], vec![9; REF * 8 * EDGE as usize]];
        out.push(("coordinate", Call { kind: 1, numbers: vec![1, 0, 0], slices }, number));
        let slices = vec![vec![0], bits(line), paths, vec![u32::MAX; TILES], reference(0, 0, 0).to_vec(), vec![0; SEGMENT], vec![5]];
        out.push(("coordinate", Call { kind: 4, numbers: vec![0, 1], slices }, if over { 6 } else { 10 }));
    }
    for (first, number) in [(0, 0), (1, 4)] {
        let paths = path([0, 0, EDGE, rows], first).to_vec();
        out.push(("first tile", Call { kind: 2, numbers: vec![], slices: vec![paths, vec![0; TILES]] }, number));
    }
    for (n, number) in [(PATHS_MOST as usize, 0), (PATHS_MOST as usize + 1, 2)] {
        let paths = no_tiles(n);
        out.push(("paths", Call { kind: 2, numbers: vec![], slices: vec![paths, vec![]] }, number));
    }
    for (sum, number) in [(ROOM, 0), (ROOM + 1, 9)] {
        let counts = vec![sum as u32 - 1, 0, 1];
        out.push(("slots", Call { kind: 3, numbers: vec![u32::MAX], slices: vec![counts, vec![0; 3]] }, number));
    }
    // a line too many in a frame: all are of no length, so the walk skips them
    for (n, number) in [(LINES_MOST as usize, 0), (LINES_MOST as usize + 1, 5)] {
        let (tiles, refs, segments) = (vec![1; 4], vec![7; 2 * REF], vec![9; SEGMENT]);
        let slices =
            vec![vec![0; n], vec![0; LINE * n], path([0, 0, 2, 2], 0).to_vec(), tiles.clone(), tiles.clone(), tiles, refs, segments, vec![5]];
        out.push(("lines", Call { kind: 7, numbers: vec![], slices }, number));
    }
    for (cols, rows, number) in [(EDGE, rows, 9), (EDGE, rows + 1, 2)] {
        let slices = vec![path([0, 0, 1, 1], 0).to_vec(), vec![0; PAINT], vec![0], vec![0], vec![0], vec![7; REGION]];
        out.push(("screen tiles", Call { kind: 8, numbers: vec![cols, rows, 0], slices }, number));
    }
    if long {
        for (made, number) in [(ROOM as u32 - 1, 0), (ROOM as u32, 9)] {
            let (path_nos, coords, paths) = one();
            let slices = vec![path_nos, coords, paths, vec![0; 4], vec![0; 4], vec![7; REF * (ROOM + 2)]];
            out.push(("references", Call { kind: 1, numbers: vec![1, 0, made], slices }, number));
        }
    }
    out
}

/// `long` adds those that take some hundreds of megabytes.
pub fn run(use_ours: bool, long: bool) -> bool {
    let mut well = true;
    let (mut held, mut called) = (0, 0);
    for (what, call, number) in calls(long) {
        let wanted = by_rules(&call);
        let name = NAMES[call.kind as usize];
        if wanted.answer[0] != number {
            println!("DIFFERENT: the rules say {} at the limit of {what} ({name}), not {number}", wanted.answer[0]);
            well = false;
        }
        held += 1;
        if use_ours && linked(call.kind) {
            called += 1;
            if let Err(said) = same_outcome(&call, &by_ours(&call), &wanted) {
                println!("DIFFERENT: at the limit of {what} ({name}): {said}");
                well = false;
            }
        }
    }
    println!("limits: {held} calls by the rules, {called} by ours");
    well
}
