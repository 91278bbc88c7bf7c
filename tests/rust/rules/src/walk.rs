//! The walk of a line: its numbers, the skip rules, the clip to the box, a step's tile.
//! "Clipping follows the file line by line", so this stands beside path_count.rs.

use crate::floats::{max, min};
use crate::limits::*;
use crate::records::{box_at, first_at, points};

pub const TILE_SCALE: f32 = 1.0 / 16.0;
pub const ONE_MINUS_ULP: f32 = 0.99999994;
pub const ROBUST_EPSILON: f32 = 2e-7;

/// A box, right and bottom edges outside, and the first tile.
#[derive(Clone, Copy, Debug)]
pub struct Place {
    pub x0: i64,
    pub y0: i64,
    pub x1: i64,
    pub y1: i64,
    pub first: i64,
}

impl Place {
    pub fn of(path: &[u32]) -> Place {
        let [x0, y0, x1, y1] = box_at(path, 0).map(i64::from);
        Place { x0, y0, x1, y1, first: i64::from(first_at(path, 0)) }
    }

    pub fn tile(&self, x: i64, y: i64) -> usize {
        (self.first + (y - self.y0) * (self.x1 - self.x0) + (x - self.x0)) as usize
    }
}

/// Coordinates that pass check 6.
pub fn good_coords(line: &[f32]) -> bool {
    line.iter().all(|c| c.is_finite() && c.abs() <= COORD_MOST)
}

/// The numbers of a line's walk, before any box.
#[derive(Clone, Copy, Debug)]
pub struct Walk {
    pub down: bool,
    /// The ends by y, as given and scaled to tiles.
    pub upper: [f32; 2],
    pub lower: [f32; 2],
    pub s0: [f32; 2],
    pub s1: [f32; 2],
    pub count: i64,
    pub dx: f32,
    pub dy: f32,
    pub a: f32,
    pub b: f32,
    pub rightward: bool,
    pub sign: f32,
    pub x0: f32,
    pub y0: f32,
}

/// Ceil of the larger less floor of the smaller, at least 1.
fn span(a: f32, b: f32) -> i64 {
    max(max(a, b).ceil() - min(a, b).floor(), 1.0) as u32 as i64
}

impl Walk {
    pub fn of(line: &[f32]) -> Walk {
        let (p0, p1) = points(line);
        let down = p1[1] >= p0[1];
        let (upper, lower) = if down { (p0, p1) } else { (p1, p0) };
        let s0 = upper.map(|v| v * TILE_SCALE);
        let s1 = lower.map(|v| v * TILE_SCALE);
        let count_x = span(s0[0], s1[0]) - 1;
        let count = count_x + span(s0[1], s1[1]);
        let dx = (s1[0] - s0[0]).abs();
        let dy = s1[1] - s0[1];
        let reciprocal = 1.0 / (dx + dy);
        let rightward = s1[0] >= s0[0];
        let sign = if rightward { 1.0 } else { -1.0 };
        let xt0 = (s0[0] * sign).floor();
        let c = s0[0] * sign - xt0;
        let y0 = s0[1].floor();
        let ytop = if s0[1] == s1[1] { s0[1].ceil() } else { y0 + 1.0 };
        let b = min((dy * c + dx * (ytop - s0[1])) * reciprocal, ONE_MINUS_ULP);
        let mut a = dx * reciprocal;
        let error = (a * (count as f32 - 1.0) + b).floor() - count_x as f32;
        if error != 0.0 {
            a -= ROBUST_EPSILON.copysign(error);
        }
        let x0 = xt0 * sign + if rightward { 0.0 } else { -1.0 };
        Walk { down, upper, lower, s0, s1, count, dx, dy, a, b, rightward, sign, x0, y0 }
    }

    /// The skip rules, the box's among them.
    pub fn skipped(&self, at: &Place) -> bool {
        let no_length = self.dx + self.dy == 0.0;
        let on_a_row = self.dy == 0.0 && self.s0[1].floor() == self.s0[1];
        let below = self.s0[1] >= at.y1 as f32;
        let above = self.s1[1] < at.y0 as f32;
        let right = min(self.s0[0], self.s1[0]) >= at.x1 as f32;
        let no_width = at.x1 == at.x0;
        no_length || on_a_row || below || above || right || no_width
    }

    pub fn z_at(&self, i: f32) -> f32 {
        (self.a * i + self.b).floor()
    }

    /// The tile of step i, where its z is finite and it lies in the box.
    pub fn step(&self, i: i64, at: &Place) -> Option<(i64, i64)> {
        let z = self.z_at(i as f32);
        if !z.is_finite() {
            return None;
        }
        let x = (self.x0 + self.sign * z) as i32 as i64;
        let y = (self.y0 + i as f32 - z) as i32 as i64;
        let inside = at.x0 <= x && x < at.x1 && at.y0 <= y && y < at.y1;
        inside.then_some((x, y))
    }

    /// The tile of step i by path_tiling.rs's two casts.
    pub fn step_by_two_casts(&self, i: i64, at: &Place) -> Option<(i64, i64)> {
        let z = self.z_at(i as f32);
        if !z.is_finite() {
            return None;
        }
        let x = self.x0 as i32 as i64 + (self.sign * z) as i32 as i64;
        let y = (self.y0 + i as f32 - z) as i32 as i64;
        let inside = at.x0 <= x && x < at.x1 && at.y0 <= y && y < at.y1;
        inside.then_some((x, y))
    }
}

/// The clipped walk: its steps from..to, and the rows top..bottom passed left of the box.
#[derive(Clone, Copy, Debug)]
pub struct Clip {
    pub from: i64,
    pub to: i64,
    pub top: i64,
    pub bottom: i64,
}

fn step_no(f: f32) -> i64 {
    f as u32 as i64
}

fn row_no(f: f32) -> i64 {
    f as i32 as i64
}

impl Walk {
    /// The first step at row `edge`, as the file finds it.
    fn row_step(&self, edge: f32) -> i64 {
        let mut i = ((edge - self.y0 + self.b - self.a) / (1.0 - self.a)).round() - 1.0;
        if self.y0 + i - self.z_at(i) < edge {
            i += 1.0;
        }
        step_no(i)
    }

    /// The step that crosses column `edge`, as the file finds it.
    fn column_step(&self, edge: f32) -> f32 {
        let fudge = if self.rightward { 0.0 } else { 1.0 };
        let mut f = ((self.sign * (edge - self.x0) - self.b + fudge) / self.a).round();
        if (self.x0 + self.sign * self.z_at(f) < edge) == self.rightward {
            f += 1.0;
        }
        f
    }

    pub fn clip(&self, at: &Place) -> Clip {
        let (left, top, right, bottom) = (at.x0 as f32, at.y0 as f32, at.x1 as f32, at.y1 as f32);
        let mut from = if self.s0[1] < top { self.row_step(top) } else { 0 };
        let mut to = if self.s1[1] > bottom { self.row_step(bottom) } else { self.count };
        let xmin = min(self.s0[0], self.s1[0]);
        let xmax = max(self.s0[0], self.s1[0]);
        let mut rows = (0, 0);
        if xmax < left {
            rows = (row_no(self.s0[1].ceil()), row_no(self.s1[1].ceil()));
            to = from;
        } else {
            if xmin < left {
                let f = self.column_step(left);
                let next_row = row_no(self.y0 + f - self.z_at(f) + 1.0);
                if self.rightward && step_no(f) > from {
                    let start = if self.y0 == self.s0[1] { 0.0 } else { 1.0 };
                    rows = (row_no(self.y0 + start), next_row);
                    from = step_no(f);
                } else if !self.rightward && step_no(f) < to {
                    rows = (next_row, row_no(self.s1[1].ceil()));
                    to = step_no(f);
                }
            }
            if xmax > right {
                let f = step_no(self.column_step(right));
                if self.rightward {
                    to = to.min(f);
                } else {
                    from = from.max(f);
                }
            }
        }
        Clip { from, to: from.max(to), top: rows.0.max(at.y0), bottom: rows.1.min(at.y1) }
    }

    /// Whether step i's top edge is crossed within the walk.
    pub fn crosses_top(&self, i: i64) -> bool {
        if i == 0 {
            return self.y0 == self.s0[1];
        }
        self.z_at((i - 1) as f32) == self.z_at(i as f32)
    }
}
