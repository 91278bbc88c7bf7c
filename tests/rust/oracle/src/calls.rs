//! Calls over the panel's slices, and `raw` ones over the records for the benchmarks.

use crate::records::*;
use rules::limits::{LINE, REF, SEGMENT, STEP_RANGE};
use rules::records::{self, box_at, first_at, line_floats, paths_in, points, ref_words, segment_floats, Y_EDGE};
use std::cell::Cell;
use std::panic::{catch_unwind, AssertUnwindSafe};
use std::sync::Once;

/// The Rust panicked.
#[derive(Clone, Copy, Debug, PartialEq)]
pub struct Stopped;

thread_local!(static QUIET: Cell<bool> = const { Cell::new(false) });
static HOOK: Once = Once::new();

/// Runs `f`; a panic in it is `Stopped`, with nothing printed.
pub fn caught<T>(f: impl FnOnce() -> T) -> Result<T, Stopped> {
    caught_saying(f).map_err(|_| Stopped)
}

/// Runs `f`; a panic in it gives its message, with nothing printed.
pub fn caught_saying<T>(f: impl FnOnce() -> T) -> Result<T, String> {
    HOOK.call_once(|| {
        let before = std::panic::take_hook();
        std::panic::set_hook(Box::new(move |info| {
            if !QUIET.with(|q| q.get()) {
                before(info);
            }
        }));
    });
    let was = QUIET.with(|q| q.replace(true));
    let answer = catch_unwind(AssertUnwindSafe(f)).map_err(|said| match said.downcast::<String>() {
        Ok(said) => *said,
        Err(said) => said.downcast_ref::<&str>().map_or("a panic".into(), |s| s.to_string()),
    });
    QUIET.with(|q| q.set(was));
    answer
}

pub fn lines_of(path_nos: &[u32], coords: &[f32]) -> Vec<LineSoup> {
    path_nos
        .iter()
        .zip(coords.chunks_exact(LINE))
        .map(|(&path_ix, c)| (path_ix, points(c)))
        .map(|(path_ix, (p0, p1))| LineSoup { path_ix, _padding: 0, p0, p1 })
        .collect()
}

pub fn paths_of(paths: &[u32]) -> Vec<Path> {
    (0..paths_in(paths)).map(|k| Path { bbox: box_at(paths, k), tiles: first_at(paths, k), _padding: [0; 3] }).collect()
}

pub fn segments_of(segments: &[f32]) -> Vec<PathSegment> {
    let record = |s: &[f32]| {
        let (point0, point1) = records::ends(s);
        PathSegment { point0, point1, y_edge: s[Y_EDGE], _padding: 0 }
    };
    segments.chunks_exact(SEGMENT).map(record).collect()
}

/// A segment's floats.
pub fn floats_of(record: &PathSegment) -> [f32; SEGMENT] {
    records::segment(record.point0, record.point1, record.y_edge)
}

/// A reference's words, and the record of such words: both sides pack slice and step alike.
pub fn words_of(record: &SegmentCount) -> [u32; REF] {
    records::reference(record.line_ix, record.counts / STEP_RANGE, record.counts % STEP_RANGE)
}

pub fn reference_of(words: &[u32]) -> SegmentCount {
    let (slice, step) = records::slice_and_step(words);
    SegmentCount { line_ix: records::named(words), counts: slice * STEP_RANGE + step }
}

fn tiles_of(backdrops: &[i32], counts: &[u32]) -> Vec<Tile> {
    backdrops.iter().zip(counts).map(|(&backdrop, &segment_count_or_ix)| Tile { backdrop, segment_count_or_ix }).collect()
}

/// Lines `from..to`, the lines before `from` left out, with `made` references so far. Gives the references so far afterwards.
pub fn count(
    path_nos: &[u32],
    coords: &[f32],
    paths: &[u32],
    backdrops: &mut [i32],
    counts: &mut [u32],
    refs: &mut [u32],
    from: usize,
    to: usize,
    made: u32,
) -> Result<u32, Stopped> {
    let mut lines = lines_of(&path_nos[..to], &coords[..line_floats(to).start]);
    lines[..from].fill(LineSoup::default()); // of no length, so the walk skips them
    let paths = if paths.is_empty() { vec![Path::default()] } else { paths_of(paths) };
    let mut tiles = tiles_of(backdrops, counts);
    let mut made_refs: Vec<SegmentCount> = refs.chunks_exact(REF).map(reference_of).collect();
    let mut bump = BumpAllocators { lines: to as u32, seg_counts: made };
    caught(|| raw::count(&mut bump, &lines, &paths, &mut tiles, &mut made_refs))?;
    for (t, tile) in tiles.iter().enumerate() {
        backdrops[t] = tile.backdrop;
        counts[t] = tile.segment_count_or_ix;
    }
    for (r, made) in made_refs.iter().enumerate() {
        refs[ref_words(r)].copy_from_slice(&words_of(made));
    }
    Ok(bump.seg_counts)
}

/// The references `from..to`.
pub fn tile(
    path_nos: &[u32],
    coords: &[f32],
    paths: &[u32],
    stored: &[u32],
    refs: &[u32],
    from: usize,
    to: usize,
    segments: &mut [f32],
) -> Result<(), Stopped> {
    let lines = lines_of(path_nos, coords);
    let paths = paths_of(paths);
    let tiles: Vec<Tile> = stored.iter().map(|&i| Tile { backdrop: 0, segment_count_or_ix: i }).collect();
    let refs: Vec<SegmentCount> = refs[ref_words(from).start..ref_words(to).start].chunks_exact(REF).map(reference_of).collect();
    let mut records = segments_of(segments);
    let mut bump = BumpAllocators { lines: lines.len() as u32, seg_counts: refs.len() as u32 };
    caught(|| raw::tile(&mut bump, &refs, &lines, &paths, &tiles, &mut records))?;
    for (k, record) in records.iter().enumerate() {
        segments[segment_floats(k)].copy_from_slice(&floats_of(record));
    }
    Ok(())
}

/// The paths given, over all backdrops.
pub fn backdrop(paths: &[u32], backdrops: &mut [i32]) -> Result<(), Stopped> {
    let paths = paths_of(paths);
    let mut tiles: Vec<Tile> = backdrops.iter().map(|&backdrop| Tile { backdrop, segment_count_or_ix: 0 }).collect();
    caught(|| raw::backdrop(&paths, &mut tiles))?;
    for (b, tile) in backdrops.iter_mut().zip(&tiles) {
        *b = tile.backdrop;
    }
    Ok(())
}

/// `fill_path` with the command's words: number of segments times 2 plus the rule, first segment, backdrop.
pub fn fill(segments: &[f32], words: [u32; 3], x_tile: f32, y_tile: f32, area: &mut [f32]) -> Result<(), Stopped> {
    let segments = segments_of(segments);
    caught(|| raw::fill(area, &segments, words, x_tile, y_tile))
}

/// One tile's 256 pixels, from a list in the Rust's command numbers that is entered at word 1.
pub fn fine_tile(ptcl: &[u32], segments: &[PathSegment]) -> Result<Vec<u32>, Stopped> {
    caught(|| raw::fine(ptcl, segments, 1, 1, vec![0; 256]))
}

/// The private functions as they are.
#[cfg(at_hand)]
pub mod raw {
    use super::*;
    use crate::cpu;

    #[inline(never)]
    pub fn count(bump: &mut BumpAllocators, lines: &[LineSoup], paths: &[Path], tiles: &mut [Tile], refs: &mut [SegmentCount]) {
        cpu::path_count::run(bump, lines, paths, tiles, refs);
    }

    #[inline(never)]
    pub fn tile(bump: &mut BumpAllocators, refs: &[SegmentCount], lines: &[LineSoup], paths: &[Path], tiles: &[Tile], segments: &mut [PathSegment]) {
        cpu::path_tiling::run(bump, refs, lines, paths, tiles, segments);
    }

    #[inline(never)]
    pub fn backdrop(paths: &[Path], tiles: &mut [Tile]) {
        let layout = Layout { n_draw_objects: paths.len() as u32, draw_tag_base: 0 };
        cpu::backdrop::run(&ConfigUniform { layout, ..Default::default() }, paths, tiles);
    }

    #[inline(never)]
    pub fn fill(area: &mut [f32], segments: &[PathSegment], words: [u32; 3], x_tile: f32, y_tile: f32) {
        cpu::fine::run_fill(area, segments, words, x_tile, y_tile);
    }

    #[inline(never)]
    pub fn fine(ptcl: &[u32], segments: &[PathSegment], cols: u32, rows: u32, pixels: Vec<u32>) -> Vec<u32> {
        let width = 16 * cols as usize;
        let mut output = cpu::CpuTexture { width, height: 16 * rows as usize, pixels };
        let config = ConfigUniform { width_in_tiles: cols, height_in_tiles: rows, ..Default::default() };
        cpu::fine::run(&config, segments, &mut output, ptcl);
        output.pixels
    }
}

/// Nothing to run: every call panics, so every answer is `Stopped`.
#[cfg(not(at_hand))]
pub mod raw {
    use super::*;

    pub fn count(_: &mut BumpAllocators, _: &[LineSoup], _: &[Path], _: &mut [Tile], _: &mut [SegmentCount]) {
        panic!("the ported Rust isn't at hand")
    }
    pub fn tile(_: &mut BumpAllocators, _: &[SegmentCount], _: &[LineSoup], _: &[Path], _: &[Tile], _: &mut [PathSegment]) {
        panic!("the ported Rust isn't at hand")
    }
    pub fn backdrop(_: &[Path], _: &mut [Tile]) {
        panic!("the ported Rust isn't at hand")
    }
    pub fn fill(_: &mut [f32], _: &[PathSegment], _: [u32; 3], _: f32, _: f32) {
        panic!("the ported Rust isn't at hand")
    }
    pub fn fine(_: &[u32], _: &[PathSegment], _: u32, _: u32, _: Vec<u32>) -> Vec<u32> {
        panic!("the ported Rust isn't at hand")
    }
}
