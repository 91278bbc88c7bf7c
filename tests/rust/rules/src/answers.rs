//! Which numbers each call can really give.

/// By the call's name; README.md's table has the same, but for 0. A frame counts into cleared tiles, at most 65,536 lines: no
/// tile's count and no sum gets over its limit, so it gives neither 8 nor 11; nor does a check of another's tables.
pub fn answers(call: &str) -> &'static [u32] {
    match call {
        "count" => &[0, 1, 2, 3, 4, 5, 6, 7, 8, 9, 10, 11],
        "backdrop" => &[0, 1, 2, 3, 4, 11],
        "hand_out" => &[0, 1, 2, 9],
        "tile" => &[0, 1, 2, 3, 4, 6, 7, 9, 10, 12],
        "fill" => &[0, 1, 13, 20],
        "fine" | "fine_rows" => &[0, 1, 2, 13, 14, 15, 16, 20],
        "frame" => &[0, 1, 2, 3, 4, 5, 6, 7, 9, 10, 12],
        "draw" => &[0, 1, 2, 3, 4, 5, 6, 7, 9, 10, 12, 15, 16],
        "write_lists" => &[0, 1, 2, 3, 4, 9, 15],
        "ppm_write" => &[0, 1, 9, 17],
        "ppm_read" => &[0, 9, 17, 18],
        "pixel_area" => &[0, 1, 13, 19, 20],
        "pixel" => &[0, 1, 13, 14, 15, 19, 20],
        "recount" => &[0, 1, 2, 3, 4, 5, 6, 7, 8, 9, 10],
        "boxes" => &[0, 1, 2, 3, 5, 6, 7, 9],
        "check" => &[0, 1, 2, 3, 4, 5, 6, 7, 9, 10],
        "present" => &[0, 1, 9, 17],
        "outlines" => &[0, 1, 2, 5, 7, 9, 23],
        "sizes" => &[0, 1, 2, 3, 4, 5, 6, 7, 9],
        "svg_lines" => &[0, 1, 9, 21, 22],
        name => panic!("which answers can {name} give?"),
    }
}
