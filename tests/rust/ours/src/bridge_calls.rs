//! The exported functions through the bridge, each by its number in `server_calls.h`.
//! Made from include/groatpocket.h by tests/rust/signatures (`-- write`), which `./test` holds it against: edit there.

use super::bridge::{call, changed, read_only};

#[cfg(feature = "count")]
#[no_mangle]
unsafe extern "C" fn gp_count(
    path_nos: *const u32, path_nos_len: usize,
    coords: *const f32, coords_len: usize,
    paths: *const u32, paths_len: usize,
    backdrops: *mut i32, backdrops_len: usize,
    counts: *mut u32, counts_len: usize,
    refs: *mut u32, refs_len: usize,
    end: u32, lines: &mut u32, made: &mut u32, item: &mut u32,
) -> u32 {
    let mut n = [end, *lines, *made, *item];
    let answer = call(
        1,
        &mut n,
        vec![
            read_only(path_nos, path_nos_len),
            read_only(coords, coords_len),
            read_only(paths, paths_len),
            changed(backdrops, backdrops_len),
            changed(counts, counts_len),
            changed(refs, refs_len),
        ],
    );
    *lines = n[1];
    *made = n[2];
    *item = n[3];
    answer
}

#[cfg(feature = "backdrop")]
#[no_mangle]
unsafe extern "C" fn gp_backdrop(
    paths: *const u32, paths_len: usize,
    backdrops: *mut i32, backdrops_len: usize,
    item: &mut u32,
) -> u32 {
    let mut n = [*item];
    let answer = call(
        2,
        &mut n,
        vec![
            read_only(paths, paths_len),
            changed(backdrops, backdrops_len),
        ],
    );
    *item = n[0];
    answer
}

#[cfg(feature = "hand_out")]
#[no_mangle]
unsafe extern "C" fn gp_hand_out(
    counts: *mut u32, counts_len: usize,
    tally: *mut u32, tally_len: usize,
    room: u32,
) -> u32 {
    let mut n = [room];
    let answer = call(
        3,
        &mut n,
        vec![
            changed(counts, counts_len),
            changed(tally, tally_len),
        ],
    );
    answer
}

#[cfg(feature = "tile")]
#[no_mangle]
unsafe extern "C" fn gp_tile(
    path_nos: *const u32, path_nos_len: usize,
    coords: *const f32, coords_len: usize,
    paths: *const u32, paths_len: usize,
    stored: *const u32, stored_len: usize,
    refs: *const u32, refs_len: usize,
    from: u32, to: u32,
    segments: *mut f32, segments_len: usize,
    tags: *mut u32, tags_len: usize,
    item: &mut u32,
) -> u32 {
    let mut n = [from, to, *item];
    let answer = call(
        4,
        &mut n,
        vec![
            read_only(path_nos, path_nos_len),
            read_only(coords, coords_len),
            read_only(paths, paths_len),
            read_only(stored, stored_len),
            read_only(refs, refs_len),
            changed(segments, segments_len),
            changed(tags, tags_len),
        ],
    );
    *item = n[2];
    answer
}

#[cfg(feature = "fill")]
#[no_mangle]
unsafe extern "C" fn gp_fill(
    segments: *const f32, segments_len: usize,
    first: u32, number: u32, even_odd: u32, backdrop: i32, x_tile: f32, y_tile: f32,
    area: *mut f32, area_len: usize,
) -> u32 {
    let mut n = [first, number, even_odd, backdrop as u32, x_tile.to_bits(), y_tile.to_bits()];
    let answer = call(
        5,
        &mut n,
        vec![
            read_only(segments, segments_len),
            changed(area, area_len),
        ],
    );
    answer
}

#[cfg(feature = "fine")]
#[no_mangle]
unsafe extern "C" fn gp_fine(
    words: *const u32, words_len: usize,
    segments: *const f32, segments_len: usize,
    width: u32, cols: u32, rows: u32, from: u32, to: u32,
    pixels: *mut u32, pixels_len: usize,
    item: &mut u32,
) -> u32 {
    let mut n = [width, cols, rows, from, to, *item];
    let answer = call(
        6,
        &mut n,
        vec![
            read_only(words, words_len),
            read_only(segments, segments_len),
            changed(pixels, pixels_len),
        ],
    );
    *item = n[5];
    answer
}

#[cfg(feature = "frame")]
#[no_mangle]
unsafe extern "C" fn gp_frame(
    path_nos: *const u32, path_nos_len: usize,
    coords: *const f32, coords_len: usize,
    paths: *const u32, paths_len: usize,
    backdrops: *mut i32, backdrops_len: usize,
    stored: *mut u32, stored_len: usize,
    tally: *mut u32, tally_len: usize,
    refs: *mut u32, refs_len: usize,
    segments: *mut f32, segments_len: usize,
    tags: *mut u32, tags_len: usize,
    stage: &mut u32, item: &mut u32, lines: &mut u32, made: &mut u32,
) -> u32 {
    let mut n = [*stage, *item, *lines, *made];
    let answer = call(
        7,
        &mut n,
        vec![
            read_only(path_nos, path_nos_len),
            read_only(coords, coords_len),
            read_only(paths, paths_len),
            changed(backdrops, backdrops_len),
            changed(stored, stored_len),
            changed(tally, tally_len),
            changed(refs, refs_len),
            changed(segments, segments_len),
            changed(tags, tags_len),
        ],
    );
    *stage = n[0];
    *item = n[1];
    *lines = n[2];
    *made = n[3];
    answer
}

#[cfg(feature = "lists")]
#[no_mangle]
unsafe extern "C" fn gp_write_lists(
    paths: *const u32, paths_len: usize,
    paints: *const u32, paints_len: usize,
    backdrops: *const i32, backdrops_len: usize,
    stored: *const u32, stored_len: usize,
    tally: *const u32, tally_len: usize,
    cols: u32, rows: u32, room: u32,
    words: *mut u32, words_len: usize,
    item: &mut u32,
) -> u32 {
    let mut n = [cols, rows, room, *item];
    let answer = call(
        8,
        &mut n,
        vec![
            read_only(paths, paths_len),
            read_only(paints, paints_len),
            read_only(backdrops, backdrops_len),
            read_only(stored, stored_len),
            read_only(tally, tally_len),
            changed(words, words_len),
        ],
    );
    *item = n[3];
    answer
}

#[cfg(feature = "picture")]
#[no_mangle]
unsafe extern "C" fn gp_ppm_write(
    pixels: *const u32, pixels_len: usize,
    width: u32, height: u32,
    out: *mut u8, out_len: usize,
    size: &mut usize,
) -> u32 {
    let mut n = [width, height, *size as u32];
    let answer = call(
        9,
        &mut n,
        vec![
            read_only(pixels, pixels_len),
            changed(out, out_len),
        ],
    );
    *size = n[2] as usize;
    answer
}

#[cfg(feature = "picture")]
#[no_mangle]
unsafe extern "C" fn gp_ppm_read(
    file: *const u8, file_len: usize,
    out: *mut u8, out_len: usize,
    width: &mut u32, height: &mut u32,
) -> u32 {
    let mut n = [*width, *height];
    let answer = call(
        10,
        &mut n,
        vec![
            read_only(file, file_len),
            changed(out, out_len),
        ],
    );
    *width = n[0];
    *height = n[1];
    answer
}

#[cfg(feature = "pixel")]
#[no_mangle]
unsafe extern "C" fn gp_pixel_area(
    segments: *const f32, segments_len: usize,
    first: u32, number: u32, even_odd: u32, backdrop: i32, x_tile: f32, y_tile: f32, column: u32, row: u32, area: &mut f32,
) -> u32 {
    let mut n = [first, number, even_odd, backdrop as u32, x_tile.to_bits(), y_tile.to_bits(), column, row, area.to_bits()];
    let answer = call(
        11,
        &mut n,
        vec![
            read_only(segments, segments_len),
        ],
    );
    *area = f32::from_bits(n[8]);
    answer
}

#[cfg(feature = "pixel")]
#[no_mangle]
unsafe extern "C" fn gp_pixel(
    words: *const u32, words_len: usize,
    segments: *const f32, segments_len: usize,
    tile: u32, column: u32, row: u32, pixel: &mut u32,
) -> u32 {
    let mut n = [tile, column, row, *pixel];
    let answer = call(
        12,
        &mut n,
        vec![
            read_only(words, words_len),
            read_only(segments, segments_len),
        ],
    );
    *pixel = n[3];
    answer
}

#[cfg(feature = "recount")]
#[no_mangle]
unsafe extern "C" fn gp_recount(
    path: u32,
    line_nos: *const u32, line_nos_len: usize,
    path_nos: *const u32, path_nos_len: usize,
    coords: *const f32, coords_len: usize,
    paths: *const u32, paths_len: usize,
    backdrops: *mut i32, backdrops_len: usize,
    counts: *mut u32, counts_len: usize,
    refs: *mut u32, refs_len: usize,
    kept_backdrops: *mut i32, kept_backdrops_len: usize,
    kept_counts: *mut u32, kept_counts_len: usize,
    made: &mut u32, item: &mut u32,
) -> u32 {
    let mut n = [path, *made, *item];
    let answer = call(
        13,
        &mut n,
        vec![
            read_only(line_nos, line_nos_len),
            read_only(path_nos, path_nos_len),
            read_only(coords, coords_len),
            read_only(paths, paths_len),
            changed(backdrops, backdrops_len),
            changed(counts, counts_len),
            changed(refs, refs_len),
            changed(kept_backdrops, kept_backdrops_len),
            changed(kept_counts, kept_counts_len),
        ],
    );
    *made = n[1];
    *item = n[2];
    answer
}

#[cfg(feature = "boxes")]
#[no_mangle]
unsafe extern "C" fn gp_boxes(
    path_nos: *const u32, path_nos_len: usize,
    coords: *const f32, coords_len: usize,
    beams: *const u32, beams_len: usize,
    margin: u32,
    paths: *mut u32, paths_len: usize,
    work: *mut u32, work_len: usize,
    tiles: &mut u32, item: &mut u32,
) -> u32 {
    let mut n = [margin, *tiles, *item];
    let answer = call(
        14,
        &mut n,
        vec![
            read_only(path_nos, path_nos_len),
            read_only(coords, coords_len),
            read_only(beams, beams_len),
            changed(paths, paths_len),
            changed(work, work_len),
        ],
    );
    *tiles = n[1];
    *item = n[2];
    answer
}

#[cfg(feature = "check")]
#[no_mangle]
unsafe extern "C" fn gp_check(
    path_nos: *const u32, path_nos_len: usize,
    coords: *const f32, coords_len: usize,
    paths: *const u32, paths_len: usize,
    refs: *const u32, refs_len: usize,
    counts: *const u32, counts_len: usize,
    backdrops: *const i32, backdrops_len: usize,
    stored: *const u32, stored_len: usize,
    room: u32,
    work: *mut u32, work_len: usize,
    found: &mut u32, item: &mut u32,
) -> u32 {
    let mut n = [room, *found, *item];
    let answer = call(
        15,
        &mut n,
        vec![
            read_only(path_nos, path_nos_len),
            read_only(coords, coords_len),
            read_only(paths, paths_len),
            read_only(refs, refs_len),
            read_only(counts, counts_len),
            read_only(backdrops, backdrops_len),
            read_only(stored, stored_len),
            changed(work, work_len),
        ],
    );
    *found = n[1];
    *item = n[2];
    answer
}

#[cfg(feature = "outlines")]
#[no_mangle]
unsafe extern "C" fn gp_outlines(
    path_nos: *const u32, path_nos_len: usize,
    coords: *const f32, coords_len: usize,
    path_count: u32,
    work: *mut u32, work_len: usize,
    item: &mut u32,
) -> u32 {
    let mut n = [path_count, *item];
    let answer = call(
        16,
        &mut n,
        vec![
            read_only(path_nos, path_nos_len),
            read_only(coords, coords_len),
            changed(work, work_len),
        ],
    );
    *item = n[1];
    answer
}

#[cfg(feature = "sizes")]
#[no_mangle]
unsafe extern "C" fn gp_sizes(
    path_nos: *const u32, path_nos_len: usize,
    coords: *const f32, coords_len: usize,
    paths: *const u32, paths_len: usize,
    cols: u32, rows: u32, tiles: &mut u32, made: &mut u32, words: &mut u32, item: &mut u32,
) -> u32 {
    let mut n = [cols, rows, *tiles, *made, *words, *item];
    let answer = call(
        17,
        &mut n,
        vec![
            read_only(path_nos, path_nos_len),
            read_only(coords, coords_len),
            read_only(paths, paths_len),
        ],
    );
    *tiles = n[2];
    *made = n[3];
    *words = n[4];
    *item = n[5];
    answer
}

#[cfg(feature = "svg")]
#[no_mangle]
unsafe extern "C" fn gp_svg_lines(
    text: *const u8, text_len: usize,
    depth: u32, path: u32,
    path_nos: *mut u32, path_nos_len: usize,
    coords: *mut f32, coords_len: usize,
    lines: &mut usize, place: &mut usize,
) -> u32 {
    let mut n = [depth, path, *lines as u32, *place as u32];
    let answer = call(
        18,
        &mut n,
        vec![
            read_only(text, text_len),
            changed(path_nos, path_nos_len),
            changed(coords, coords_len),
        ],
    );
    *lines = n[2] as usize;
    *place = n[3] as usize;
    answer
}

#[cfg(feature = "bands")]
#[no_mangle]
unsafe extern "C" fn gp_fine_rows(
    words: *const u32, words_len: usize,
    segments: *const f32, segments_len: usize,
    width: u32, cols: u32, rows: u32, first: u32, end: u32,
    pixels: *mut u32, pixels_len: usize,
    item: &mut u32,
) -> u32 {
    let mut n = [width, cols, rows, first, end, *item];
    let answer = call(
        19,
        &mut n,
        vec![
            read_only(words, words_len),
            read_only(segments, segments_len),
            changed(pixels, pixels_len),
        ],
    );
    *item = n[5];
    answer
}

#[cfg(feature = "draw")]
#[no_mangle]
unsafe extern "C" fn gp_draw(
    path_nos: *const u32, path_nos_len: usize,
    coords: *const f32, coords_len: usize,
    paths: *const u32, paths_len: usize,
    paints: *const u32, paints_len: usize,
    backdrops: *mut i32, backdrops_len: usize,
    stored: *mut u32, stored_len: usize,
    tally: *mut u32, tally_len: usize,
    refs: *mut u32, refs_len: usize,
    segments: *mut f32, segments_len: usize,
    tags: *mut u32, tags_len: usize,
    width: u32, cols: u32, rows: u32,
    words: *mut u32, words_len: usize,
    pixels: *mut u32, pixels_len: usize,
    stage: &mut u32, item: &mut u32, lines: &mut u32, made: &mut u32,
) -> u32 {
    let mut n = [width, cols, rows, *stage, *item, *lines, *made];
    let answer = call(
        20,
        &mut n,
        vec![
            read_only(path_nos, path_nos_len),
            read_only(coords, coords_len),
            read_only(paths, paths_len),
            read_only(paints, paints_len),
            changed(backdrops, backdrops_len),
            changed(stored, stored_len),
            changed(tally, tally_len),
            changed(refs, refs_len),
            changed(segments, segments_len),
            changed(tags, tags_len),
            changed(words, words_len),
            changed(pixels, pixels_len),
        ],
    );
    *stage = n[3];
    *item = n[4];
    *lines = n[5];
    *made = n[6];
    answer
}

#[cfg(feature = "present")]
#[no_mangle]
unsafe extern "C" fn gp_present(
    pixels: *const u32, pixels_len: usize,
    screen: u32, width: u32, height: u32, stride: u32, bgra: u32,
    out: *mut u8, out_len: usize,
) -> u32 {
    let mut n = [screen, width, height, stride, bgra];
    let answer = call(
        21,
        &mut n,
        vec![
            read_only(pixels, pixels_len),
            changed(out, out_len),
        ],
    );
    answer
}
