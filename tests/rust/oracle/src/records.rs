//! Stand-ins for the records of vello_encoding: the fields that the five files use, in the layout
//! (paddings included) that the crate gives them, so that times are comparable.

#[derive(Clone, Copy, Default, Debug, PartialEq)]
#[repr(C)]
pub struct LineSoup {
    pub path_ix: u32,
    pub _padding: u32,
    pub p0: [f32; 2],
    pub p1: [f32; 2],
}

#[derive(Clone, Copy, Default, Debug, PartialEq)]
#[repr(C)]
pub struct Path {
    pub bbox: [u32; 4],
    pub tiles: u32,
    pub _padding: [u32; 3],
}

#[derive(Clone, Copy, Default, Debug, PartialEq)]
#[repr(C)]
pub struct Tile {
    pub backdrop: i32,
    pub segment_count_or_ix: u32,
}

#[derive(Clone, Copy, Default, Debug, PartialEq)]
#[repr(C)]
pub struct SegmentCount {
    pub line_ix: u32,
    pub counts: u32,
}

#[derive(Clone, Copy, Default, Debug, PartialEq)]
#[repr(C)]
pub struct PathSegment {
    pub point0: [f32; 2],
    pub point1: [f32; 2],
    pub y_edge: f32,
    pub _padding: u32,
}

#[derive(Clone, Copy, Default, Debug)]
#[repr(C)]
pub struct BumpAllocators {
    pub lines: u32,
    pub seg_counts: u32,
}

#[derive(Clone, Copy, Default, Debug)]
#[repr(C)]
pub struct Layout {
    pub n_draw_objects: u32,
    pub draw_tag_base: u32,
}

#[derive(Clone, Copy, Default, Debug)]
#[repr(C)]
pub struct ConfigUniform {
    pub width_in_tiles: u32,
    pub height_in_tiles: u32,
    pub layout: Layout,
}
