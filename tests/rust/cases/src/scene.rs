//! The demo scene, read from its program's own files, which are Rust as well.

#[allow(dead_code)]
#[rustfmt::skip]
mod panel {
    pub mod readings { include!("../../../../crates/scene/src/readings.rt"); }
    pub mod letters { include!("../../../../crates/scene/src/letters.rt"); }
    pub mod labels { include!("../../../../crates/scene/src/labels.rt"); }
    pub mod paths { include!("../../../../crates/scene/src/paths.rt"); }
    pub mod pen { include!("../../../../crates/scene/src/pen.rt"); }
    pub mod drawing { include!("../../../../crates/scene/src/drawing.rt"); }
}

pub use panel::paths::{COLS, PAINTS, PATHS, ROWS};
use rules::records::{box_at, first_at, line_floats, paths_in};

/// Its lines: path numbers and coordinates.
pub fn lines() -> (Vec<u32>, Vec<f32>) {
    let panel::pen::Pen { lines, path_nos, coords, .. } = panel::drawing::panel();
    assert!(lines < panel::pen::LINES);
    (path_nos[..lines].to_vec(), coords[..line_floats(lines).start].to_vec())
}

/// How many tiles its paths have.
pub fn tiles() -> usize {
    let last = paths_in(&PATHS) - 1;
    let [x0, y0, x1, y1] = box_at(&PATHS, last);
    (first_at(&PATHS, last) + (x1 - x0) * (y1 - y0)) as usize
}
