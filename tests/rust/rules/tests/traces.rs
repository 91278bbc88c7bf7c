//! The traces of docs/RULES.md, so that the rules as restated here are seen to be the rules.

use rules::limits::{COMMANDS_MOST, COORD_MOST, COUNT_MOST, EDGE_MOST, REF, REGION, SEGMENT};
use rules::records::{named, paint, path, reference, slice_and_step, stamped, Line, Y_EDGE};
use rules::{backdrop, count, fill, fine, frame, hand_out, tile, write_lists};

struct Counted {
    number: u32,
    item: u32,
    backdrops: Vec<i32>,
    counts: Vec<u32>,
    refs: Vec<[u32; REF]>,
}

fn counted(b: [u32; 4], line: Line, counts: &[u32]) -> Counted {
    let paths = path(b, 0);
    let mut backdrops = vec![0; counts.len()];
    let (mut counts, mut refs) = (counts.to_vec(), vec![0; 20]);
    let (mut lines, mut made, mut item) = (0, 0, 0);
    let number = count(&[0], &line, &paths, &mut backdrops, &mut counts, &mut refs, 1, &mut lines, &mut made, &mut item);
    assert_eq!(lines, (number == 0) as u32);
    let refs = refs[..REF * made as usize].chunks(REF).map(|r| r.try_into().unwrap()).collect();
    Counted { number, item, backdrops, counts, refs }
}

fn segments(line: Line) -> Vec<Vec<u32>> {
    let c = counted([0, 0, 2, 2], line, &[0; 4]);
    let (mut stored, mut tally) = (c.counts.clone(), vec![0; 4]);
    assert_eq!(hand_out(&mut stored, &mut tally, 16), 0);
    let refs = c.refs.concat();
    let (mut out, mut tags) = (vec![0.0; SEGMENT * c.refs.len()], vec![0; c.refs.len()]);
    let mut item = 0;
    let paths = stamped([0, 0, 2, 2], 0, 7);
    assert_eq!(tile(&[0], &line, &paths, &stored, &refs, 0, c.refs.len() as u32, &mut out, &mut tags, &mut item), 0);
    assert_eq!(tags, vec![7; c.refs.len()]);
    out.chunks(SEGMENT).map(|s| s.iter().map(|v| v.to_bits()).collect()).collect()
}

fn bits(values: [f32; SEGMENT]) -> Vec<u32> {
    values.map(f32::to_bits).to_vec()
}

#[test]
fn counting() {
    let c = counted([0, 0, 2, 2], [8.0, 8.0, 8.0, 24.0], &[0; 4]);
    assert_eq!((c.number, c.refs, c.counts, c.backdrops), (0, vec![reference(0, 0, 0), reference(0, 0, 1)], vec![1, 0, 1, 0], vec![0, 0, 0, -1]));
    for line in [[0.0, 16.0, 32.0, 16.0], [5.0; 4]] {
        let c = counted([0, 0, 2, 2], line, &[0; 4]);
        assert_eq!((c.number, c.refs, c.counts, c.backdrops), (0, vec![], vec![0; 4], vec![0; 4]));
    }
    let c = counted([0, 0, 2, 2], [0.0, 8.0, 32.0, 8.0], &[0; 4]);
    assert_eq!((c.number, c.counts, c.backdrops), (0, vec![1, 1, 0, 0], vec![0; 4]));
    let c = counted([1, 0, 3, 2], [8.0, 8.0, 8.0, 24.0], &[0; 4]);
    assert_eq!((c.number, c.refs, c.backdrops), (0, vec![], vec![0, 0, -1, 0]));
    let c = counted([1, 0, 3, 2], [8.0, 24.0, 8.0, 8.0], &[0; 4]);
    assert_eq!((c.number, c.refs, c.backdrops), (0, vec![], vec![0, 0, 1, 0]));
}

#[test]
fn refused_lines() {
    let c = counted([0, 0, 6, 1], [80.0, 0.0, 80.0, f32::from_bits(1_000)], &[0; 6]);
    assert_eq!((c.number, c.item, c.counts, c.backdrops), (10, 0, vec![0; 6], vec![0; 6]));
    for k in 0..4 {
        for sign in [1.0, -1.0] {
            let mut line = [5.0, 3.0, 6.0, 20.0];
            line[k] = sign * COORD_MOST;
            assert_eq!(counted([0, 0, 2, 2], line, &[0; 4]).number, 0);
            line[k] = sign * COORD_MOST.next_up();
            assert_eq!(counted([0, 0, 2, 2], line, &[0; 4]).number, 6);
        }
    }
    for (over, number) in [(0, 0), (1, 3)] {
        let edge = EDGE_MOST as u32 + over;
        let tiles = vec![0; edge as usize];
        assert_eq!(counted([0, 0, edge, 1], [1.0, 3.0, 5.0, 20.0], &tiles).number, number);
        assert_eq!(counted([0, 0, 1, edge], [1.0, 3.0, 5.0, 20.0], &tiles).number, number);
    }
    let full = COUNT_MOST as u32;
    let c = counted([0, 0, 2, 2], [8.0, 8.0, 8.0, 24.0], &[0, 0, full, 0]);
    assert_eq!((c.number, named(&c.refs[1]), slice_and_step(&c.refs[1])), (0, 0, (0xffff, 1)));
    assert_eq!(counted([0, 0, 2, 2], [8.0, 8.0, 8.0, 24.0], &[0, 0, full + 1, 0]).number, 8);
}

#[test]
fn slots_and_segments() {
    let (mut counts, mut tally) = (vec![1, 0, 1, 0], vec![7; 4]);
    assert_eq!(hand_out(&mut counts, &mut tally, 2), 0);
    assert_eq!((counts, tally), (vec![4_294_967_295, 0, 4_294_967_294, 0], vec![1, 0, 1, 0]));
    let x = f32::from_bits(0x40ff_fffe);
    let two = segments([8.0, 8.0, 8.0, 24.0]);
    assert_eq!(two, [bits([x, 8.0, x, 16.0, 1e9]), bits([x, 0.0, x, 8.0, 1e9])]);
    assert_eq!(segments([16.0, 0.0, 16.0, 16.0]), [bits([1e-6, 0.0, 1e-6, 16.0, 1e9])]);
    assert_eq!(segments([16.0, 4.0, 16.0, 12.0]), [bits([1e-6, 4.0, 2e-6, 4.0, 1e9])]);
    assert_eq!(segments([0.0, 4.0, 8.0, 8.0])[0][Y_EDGE], 4f32.to_bits());
}

/// Two paths of one number and one of another, over a tile each; references of the three lines in another order.
#[test]
fn tags() {
    let paths = [stamped([0, 0, 1, 1], 0, 7), stamped([0, 0, 1, 1], 1, 9), stamped([0, 0, 1, 1], 2, 7)].concat();
    let (path_nos, coords) = ([2, 1, 0], [8.5, 2.0, 8.5, 6.0].repeat(3));
    let refs = [1, 0, 2, 1].map(|line| reference(line, 0, 0)).concat();
    let tiled = |stored: [u32; 3], from: u32, tags: usize| {
        let (mut segments, mut tags, mut item) = (vec![0.5; 4 * SEGMENT], vec![5; tags], 8);
        let number = tile(&path_nos, &coords, &paths, &stored, &refs, from, 4, &mut segments, &mut tags, &mut item);
        assert!(number == 1 || segments.chunks(SEGMENT).zip(&tags).all(|(s, &tag)| (s == [0.5; SEGMENT]) == (tag == 5)));
        (number, item, tags)
    };
    assert_eq!(tiled([!3, !0, !2], 0, 4), (0, 0, vec![9, 5, 7, 7]));
    // one tile is skipped; one has a slot past the room, and the references after it are not tiled
    assert_eq!(tiled([!3, 0, !2], 0, 4), (0, 0, vec![5, 5, 7, 7]));
    assert_eq!(tiled([!3, !0, !4], 0, 4), (9, 1, vec![9, 5, 5, 5]));
    assert_eq!(tiled([!3, !0, !2], 3, 4), (0, 0, vec![9, 5, 5, 5]));
    for n in [0, 3, 5] {
        assert_eq!(tiled([!3, !0, !2], 0, n), (1, 0, vec![5; n]));
    }
}

#[test]
fn sums() {
    let mut backdrops = vec![1, 2, -5, i32::MAX, 9];
    let mut item = 7;
    assert_eq!(backdrop(&path([0, 0, 2, 2], 0), &mut backdrops, &mut item), 0);
    assert_eq!((item, backdrops), (0, vec![1, 3, -5, i32::MAX - 5, 9]));
    let mut backdrops = vec![1, i32::MAX, 4];
    assert_eq!(backdrop(&[path([0, 0, 1, 1], 0), path([0, 0, 2, 1], 0)].concat(), &mut backdrops, &mut item), 4);
    assert_eq!(backdrop(&path([0, 0, 2, 1], 0), &mut backdrops, &mut item), 11);
    assert_eq!((item, backdrops), (0, vec![1, i32::MAX, 4]));
}

#[test]
fn coverage() {
    for (backdrop, even_odd, wanted) in [(2, 1, 0.0), (2, 0, 1.0), (-1, 1, 1.0), (-1, 0, 1.0)] {
        let mut area = [0.5; 256];
        assert_eq!(fill(&[], 0, 0, even_odd, backdrop, 0.0, 0.0, &mut area), 0);
        assert!(area.iter().all(|&a| a == wanted));
    }
}

fn screen(words: &[u32], segments: &[f32]) -> (u32, u32) {
    let mut pixels = vec![0xdead_beef; 256];
    let mut item = 0;
    (fine(words, segments, 16, 1, 1, 0, 1, &mut pixels, &mut item), pixels[0])
}

#[test]
fn commands() {
    assert_eq!(screen(&[0, 2, 3, 0x2040_60ff, 0], &[]), (0, 0xff60_4020));
    // a word 0 after SOLID, as fine.rs has one there, is END
    assert_eq!(screen(&[0, 2, 0, 3, 0x2040_60ff, 0], &[]), (0, 0));
    // SOLID may be the last word lent: 13 is for the next command
    assert_eq!(screen(&[0, 2], &[]), (13, 0xdead_beef));
    let mut words = vec![0];
    words.extend(vec![2; COMMANDS_MOST as usize]);
    words.push(0);
    assert_eq!(screen(&words, &[]).0, 0);
    words.insert(1, 2);
    assert_eq!(screen(&words, &[]), (15, 0xdead_beef));
    assert_eq!(screen(&[0, 4, 1], &[]).0, 15);
    assert_eq!(screen(&[0, 9], &[]).0, 14);
    assert_eq!(screen(&[0, 1, 2, 0], &[]).0, 13);
    assert_eq!(screen(&[0, 1, 2, 0, 0, 0], &[]).0, 13);
    assert_eq!(screen(&[0, 1, 0, 1, 0, 0], &[]).0, 13);
}

#[test]
fn frames() {
    let (line, paths) = ([8.0, 8.0, 8.0, 24.0], stamped([0, 0, 2, 2], 0, 3));
    let framed = |tally: usize, slots: usize| {
        let (mut b, mut t, mut y) = (vec![9; 4], vec![9; 4], vec![9; tally]);
        let (mut refs, mut segments, mut tags, mut told) = (vec![0; 2 * REF], vec![0.0; SEGMENT * slots], vec![5; slots], [7; 4]);
        let [stage, item, lines, made] = &mut told;
        let number = frame(&[0], &line, &paths, &mut b, &mut t, &mut y, &mut refs, &mut segments, &mut tags, stage, item, lines, made);
        assert_eq!(tags, vec![if number == 0 { 3 } else { 5 }; slots]);
        (number, told, b, t, y)
    };
    let stored = vec![4_294_967_295, 0, 4_294_967_294, 0];
    assert_eq!(framed(4, 2), (0, [0, 0, 1, 2], vec![0, 0, 0, -1], stored, vec![1, 0, 1, 0]));
    assert_eq!(framed(3, 2), (1, [1, 0, 0, 0], vec![9; 4], vec![9; 4], vec![9; 3]));
    assert_eq!(framed(4, 1), (9, [4, 0, 1, 2], vec![0, 0, 0, -1], vec![1, 0, 1, 0], vec![9; 4]));
}

/// So many paths over the only screen tile, each with this tally, first slot and backdrop.
fn listed(n: usize, tally: u32, backdrop: i32, rule: u32, words: usize) -> (u32, u32, Vec<u32>) {
    let paths: Vec<u32> = (0..n as u32).flat_map(|k| path([0, 0, 1, 1], k)).collect();
    let paints: Vec<u32> = (0..n as u32).flat_map(|k| paint(0xc000 + k, rule)).collect();
    let (mut words, mut item) = (vec![7; words], 9);
    let stored = vec![if tally > 0 { !3 } else { 0 }; n];
    let number = write_lists(&paths, &paints, &vec![backdrop; n], &stored, &vec![tally; n], 1, 1, 5, &mut words, &mut item);
    (number, item, words)
}

#[test]
fn lists() {
    assert_eq!(listed(1, 2, -1, 1, 64).2[..9], [7, 1, 5, 3, u32::MAX, 3, 0xc000, 0, 7]);
    for (backdrop, rule, covers) in [(-1, 0, true), (2, 0, true), (0, 0, false), (-3, 1, true), (-2, 1, false), (i32::MIN, 1, false)] {
        let words = listed(1, 0, backdrop, rule, 64).2;
        assert_eq!(words[..7], if covers { [7, 2, 3, 0xc000, 0, 7, 7] } else { [7, 0, 7, 7, 7, 7, 7] });
    }
    // twenty pairs in the tile's own region, the next at the first word of the fresh one
    assert_eq!(listed(20, 0, 1, 0, 64).2[58..64], [2, 3, 0xc013, 0, 7, 7]);
    let (number, _, words) = listed(21, 0, 1, 0, 128);
    assert_eq!((number, &words[61..69]), (0, &[4, 64, 7, 2, 3, 0xc014, 0, 7][..]));
    assert_eq!(listed(21, 0, 1, 0, 127), (9, 0, vec![7; 127]));
    // slots 3 and 4 of five
    assert_eq!((listed(1, 2, 0, 0, 64).0, listed(1, 3, 0, 0, 64).0), (0, 9));
    // up to 4,096 commands, and more; 15 comes before 9
    assert_eq!((listed(1_998, 0, 1, 0, REGION * 100).0, listed(1_999, 0, 1, 0, 0).0), (0, 15));
    assert_eq!((listed(1_950, 1, 1, 0, REGION * 195).0, listed(1_951, 1, 1, 0, 0).0), (0, 15));
}
