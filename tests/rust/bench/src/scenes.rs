//! What is measured: lines over a path of 50 by 40 tiles, segments, a screen.

use cases::Rng;
use oracle::{PathSegment, SegmentCount, Tile};
use rules::limits::{LINE, REF};
use rules::records::{self, path, Line};

pub const COLS: u32 = 50;
pub const ROWS: u32 = 40;

#[derive(Clone, Copy)]
pub enum Kind {
    Short,
    Medium,
    Long,
    HalfOutside,
}

pub const KINDS: [(Kind, &str); 4] = [
    (Kind::Short, "short, up to 8 px"),
    (Kind::Medium, "medium, up to 60 px"),
    (Kind::Long, "long, anywhere in the box"),
    (Kind::HalfOutside, "half outside"),
];

/// A list of lines that the rules accept, with what the calls are lent.
pub struct Scene {
    pub path_nos: Vec<u32>,
    pub coords: Vec<f32>,
    pub paths: Vec<u32>,
    pub tiles: usize,
    pub room: usize,
}

fn line(rng: &mut Rng, kind: Kind) -> Line {
    let (w, h) = (16.0 * COLS as f32, 16.0 * ROWS as f32);
    let inside = |rng: &mut Rng| [rng.between(0.0, w), rng.between(0.0, h)];
    let near = |rng: &mut Rng, most: f32| {
        let p = inside(rng);
        [p[0], p[1], (p[0] + rng.between(-most, most)).clamp(0.0, w), (p[1] + rng.between(-most, most)).clamp(0.0, h)]
    };
    match kind {
        Kind::Short => near(rng, 8.0),
        Kind::Medium => near(rng, 60.0),
        Kind::Long => {
            let (p, q) = (inside(rng), inside(rng));
            [p[0], p[1], q[0], q[1]]
        }
        Kind::HalfOutside => {
            let p = inside(rng);
            let q = [rng.between(-w, 2.0 * w), rng.between(-h, 2.0 * h)];
            [p[0], p[1], q[0], q[1]]
        }
    }
}

impl Scene {
    pub fn new(kind: Kind, n: usize) -> Scene {
        let mut rng = Rng::new(n as u64 + 1);
        let paths = path([0, 0, COLS, ROWS], 0).to_vec();
        let mut scene = Scene { path_nos: vec![0; n], coords: vec![], paths, tiles: (COLS * ROWS) as usize, room: 0 };
        while scene.coords.len() < LINE * n {
            let line = line(&mut rng, kind);
            let (number, made) = scene.alone(&line);
            if number == 0 {
                scene.coords.extend(line);
                scene.room += made as usize;
            }
        }
        scene
    }

    fn alone(&self, line: &Line) -> (u32, u32) {
        let (mut b, mut c, mut r) = (vec![0; self.tiles], vec![0; self.tiles], vec![0; REF * 200]);
        let (mut lines, mut made, mut item) = (0, 0, 0);
        let number = rules::count(&[0], line, &self.paths, &mut b, &mut c, &mut r, 1, &mut lines, &mut made, &mut item);
        (number, made)
    }

    /// References and first slots, by the Rust and the rule of hand-out.
    pub fn counted(&self) -> Counted {
        let lines = oracle::lines_of(&self.path_nos, &self.coords);
        let paths = oracle::paths_of(&self.paths);
        let mut tiles = vec![Tile::default(); self.tiles];
        let mut records = vec![SegmentCount::default(); self.room];
        let mut bump = oracle::BumpAllocators { lines: lines.len() as u32, seg_counts: 0 };
        oracle::raw::count(&mut bump, &lines, &paths, &mut tiles, &mut records);
        let mut stored: Vec<u32> = tiles.iter().map(|t| t.segment_count_or_ix).collect();
        let mut tally = stored.clone();
        assert_eq!(rules::hand_out(&mut stored, &mut tally, self.room as u32), 0);
        let refs = records.iter().flat_map(oracle::words_of).collect();
        Counted { refs, stored, records }
    }
}

pub struct Counted {
    pub refs: Vec<u32>,
    pub stored: Vec<u32>,
    pub records: Vec<SegmentCount>,
}

/// Segments as tiling leaves them, ends in the tile, of which some start at the left edge.
pub fn segments(rng: &mut Rng, n: usize) -> Vec<f32> {
    (0..n)
        .flat_map(|_| {
            let (mut p, q) = ([0; 2].map(|_| rng.between(0.0, 16.0)), [0; 2].map(|_| rng.between(0.0, 16.0)));
            let mut edge = 1e9;
            if rng.one_in(6) {
                (p[0], edge) = (0.0, p[1]);
            }
            records::segment(p, q, edge)
        })
        .collect()
}

/// The same segments at a tile's place on the screen, for the Rust, which subtracts the tile's origin.
pub fn moved(segments: &[f32], x: f32, y: f32) -> Vec<PathSegment> {
    let edge = |e: f32| if e < 1e9 { e + y } else { e };
    let at = |p: [f32; 2]| [p[0] + x, p[1] + y];
    let placed = |s: PathSegment| PathSegment { point0: at(s.point0), point1: at(s.point1), y_edge: edge(s.y_edge), _padding: 0 };
    oracle::segments_of(segments).into_iter().map(placed).collect()
}
