//! Pictures whose pixels a person can say, so that the page is seen to draw them.

use rules::picture_of;
use rules::records::{paint, path, Line};

/// As a paint has them, and as a pixel has them: opaque red and green.
const RED: u32 = 0xff00_00ff;
const GREEN: u32 = 0x00ff_00ff;
const RED_PIXEL: u32 = 0xff00_00ff;
const GREEN_PIXEL: u32 = 0xff00_ff00;
const OLD: u32 = 0x1234_5678;

const NON_ZERO: u32 = 0;
const EVEN_ODD: u32 = 1;

/// Two upright sides over one row of tiles: up at x0, down at x1.
fn sides(x0: f32, x1: f32) -> [Line; 2] {
    [[x0, 16.0, x0, 0.0], [x1, 0.0, x1, 16.0]]
}

/// The first row of pixels of a screen of four tiles in one row, one pixel wider than they are; every row of it shows the same.
fn row(path_nos: &[u32], lines: &[Line], paths: &[u32], paints: &[u32]) -> Vec<u32> {
    let (cols, width) = (4, 65);
    let shown = picture_of(path_nos, &lines.concat(), paths, paints, cols, 1, width, &vec![OLD; 16 * width as usize + 3]);
    assert!(shown.chunks_exact(width as usize).all(|pixels| pixels == &shown[..width as usize]));
    assert_eq!(shown[16 * width as usize..], [OLD; 3]);
    assert_eq!(shown[64], OLD);
    shown[..64].to_vec()
}

/// Pixels of a row: so many of each.
fn runs(of: &[(u32, usize)]) -> Vec<u32> {
    of.iter().flat_map(|&(pixel, n)| vec![pixel; n]).collect()
}

#[test]
fn a_bar_is_red_between_its_sides() {
    let shown = row(&[0, 0], &sides(8.0, 56.0), &path([0, 0, 4, 1], 0), &paint(RED, NON_ZERO));
    assert_eq!(shown, runs(&[(0, 8), (RED_PIXEL, 48), (0, 8)]));
}

#[test]
fn two_windings_are_a_hole_by_the_one_rule_alone() {
    let lines = [sides(8.0, 56.0), sides(16.0, 48.0)].concat();
    let shown = |rule| row(&[0; 4], &lines, &path([0, 0, 4, 1], 0), &paint(RED, rule));
    assert_eq!(shown(NON_ZERO), runs(&[(0, 8), (RED_PIXEL, 48), (0, 8)]));
    assert_eq!(shown(EVEN_ODD), runs(&[(0, 8), (RED_PIXEL, 8), (0, 32), (RED_PIXEL, 8), (0, 8)]));
}

#[test]
fn the_later_path_is_on_top() {
    let (both, lines) = ([path([0, 0, 4, 1], 0), path([0, 0, 4, 1], 4)].concat(), [sides(8.0, 40.0), sides(24.0, 56.0)].concat());
    let shown = row(&[0, 0, 1, 1], &lines, &both, &[paint(RED, NON_ZERO), paint(GREEN, EVEN_ODD)].concat());
    assert_eq!(shown, runs(&[(0, 8), (RED_PIXEL, 16), (GREEN_PIXEL, 32), (0, 8)]));
}

#[test]
fn a_path_shows_nothing_outside_its_box() {
    let shown = row(&[0, 0], &sides(8.0, 56.0), &path([1, 0, 3, 1], 0), &paint(RED, NON_ZERO));
    assert_eq!(shown, runs(&[(0, 16), (RED_PIXEL, 32), (0, 16)]));
}
