//! The limits, the widths of records and the refusal numbers, each named once: every run and every generator takes them from here.

pub const PATHS_MOST: i64 = 4_096;
pub const TILES_MOST: i64 = 1_048_576;
pub const EDGE_MOST: i64 = 4_096;
pub const LINES_MOST: i64 = 65_536;
pub const COORD_MOST: f32 = 65_536.0;
pub const STEP_MOST: i64 = 65_535;
pub const COUNT_MOST: i64 = 65_535;
pub const ROOM_MOST: i64 = 16_777_216;
pub const COMMANDS_MOST: u32 = 4_096;
/// A picture's width, and its height.
pub const SIDE_MOST: u32 = 16_384;

/// Words of a record.
pub const PATH: usize = 6;
pub const LINE: usize = 4;
pub const REF: usize = 2;
pub const SEGMENT: usize = 5;
pub const PAINT: usize = 2;
/// Words of a region of commands.
pub const REGION: usize = 64;
/// A reference's second word is slice number times this plus step number.
pub const STEP_RANGE: u32 = 65_536;

/// A checked line has fewer steps than this: its ends are at most twice the coordinate's limit apart, across and down.
pub const WALK_MOST: i64 = 4 * (COORD_MOST * crate::walk::TILE_SCALE) as i64;

pub const DONE: u32 = 0;
pub const BAD_SHAPE: u32 = 1;
pub const TOO_MANY: u32 = 2;
pub const BAD_BOX: u32 = 3;
pub const BAD_FIRST: u32 = 4;
pub const BAD_LINE_NO: u32 = 5;
pub const BAD_COORD: u32 = 6;
pub const NO_SUCH: u32 = 7;
pub const TOO_FULL: u32 = 8;
pub const NO_ROOM: u32 = 9;
pub const OFF_BOX: u32 = 10;
pub const OUT_OF_I32: u32 = 11;
pub const OFF_TILE: u32 = 12;
pub const PAST_END: u32 = 13;
pub const UNKNOWN: u32 = 14;
pub const TOO_LONG: u32 = 15;
pub const BAD_SCREEN: u32 = 16;
pub const OFF_PIXEL: u32 = 19;
pub const BAD_SEGMENT: u32 = 20;
pub const BAD_TEXT: u32 = 21;
pub const TOO_DEEP: u32 = 22;
pub const LEFT_OPEN: u32 = 23;
