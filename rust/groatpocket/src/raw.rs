//! The exported functions, as include/groatpocket.h declares them: pointers and lengths.
//! Made from include/groatpocket.h by tests/rust/signatures (`-- write`), which `./test` holds it against: edit there.
//!
//! Each pointer must be valid for its length, and what a call writes must overlap nothing else
//! that it is lent. The safe calls of this crate see to both.
#![allow(missing_docs)]

#[rustfmt::skip]
extern "C" {
    pub fn gp_count(
        path_nos: *const u32, path_nos_len: usize,
        coords: *const f32, coords_len: usize,
        paths: *const u32, paths_len: usize,
        backdrops: *mut i32, backdrops_len: usize,
        counts: *mut u32, counts_len: usize,
        refs: *mut u32, refs_len: usize,
        end: u32, lines: &mut u32, made: &mut u32, item: &mut u32,
    ) -> u32;

    pub fn gp_backdrop(
        paths: *const u32, paths_len: usize,
        backdrops: *mut i32, backdrops_len: usize,
        item: &mut u32,
    ) -> u32;

    pub fn gp_hand_out(
        counts: *mut u32, counts_len: usize,
        tally: *mut u32, tally_len: usize,
        room: u32,
    ) -> u32;

    pub fn gp_tile(
        path_nos: *const u32, path_nos_len: usize,
        coords: *const f32, coords_len: usize,
        paths: *const u32, paths_len: usize,
        stored: *const u32, stored_len: usize,
        refs: *const u32, refs_len: usize,
        from: u32, to: u32,
        segments: *mut f32, segments_len: usize,
        tags: *mut u32, tags_len: usize,
        item: &mut u32,
    ) -> u32;

    pub fn gp_fill(
        segments: *const f32, segments_len: usize,
        first: u32, number: u32, even_odd: u32, backdrop: i32, x_tile: f32, y_tile: f32,
        area: *mut f32, area_len: usize,
    ) -> u32;

    pub fn gp_fine(
        words: *const u32, words_len: usize,
        segments: *const f32, segments_len: usize,
        width: u32, cols: u32, rows: u32, from: u32, to: u32,
        pixels: *mut u32, pixels_len: usize,
        item: &mut u32,
    ) -> u32;

    pub fn gp_frame(
        path_nos: *const u32, path_nos_len: usize,
        coords: *const f32, coords_len: usize,
        paths: *const u32, paths_len: usize,
        backdrops: *mut i32, backdrops_len: usize,
        stored: *mut u32, stored_len: usize,
        tally: *mut u32, tally_len: usize,
        refs: *mut u32, refs_len: usize,
        segments: *mut f32, segments_len: usize,
        tags: *mut u32, tags_len: usize,
        stage: &mut u32, item: &mut u32, lines: &mut u32, made: &mut u32,
    ) -> u32;

    pub fn gp_write_lists(
        paths: *const u32, paths_len: usize,
        paints: *const u32, paints_len: usize,
        backdrops: *const i32, backdrops_len: usize,
        stored: *const u32, stored_len: usize,
        tally: *const u32, tally_len: usize,
        cols: u32, rows: u32, room: u32,
        words: *mut u32, words_len: usize,
        item: &mut u32,
    ) -> u32;

    pub fn gp_ppm_write(
        pixels: *const u32, pixels_len: usize,
        width: u32, height: u32,
        out: *mut u8, out_len: usize,
        size: &mut usize,
    ) -> u32;

    pub fn gp_ppm_read(
        file: *const u8, file_len: usize,
        out: *mut u8, out_len: usize,
        width: &mut u32, height: &mut u32,
    ) -> u32;

    pub fn gp_pixel_area(
        segments: *const f32, segments_len: usize,
        first: u32, number: u32, even_odd: u32, backdrop: i32, x_tile: f32, y_tile: f32, column: u32, row: u32, area: &mut f32,
    ) -> u32;

    pub fn gp_pixel(
        words: *const u32, words_len: usize,
        segments: *const f32, segments_len: usize,
        tile: u32, column: u32, row: u32, pixel: &mut u32,
    ) -> u32;

    pub fn gp_recount(
        path: u32,
        line_nos: *const u32, line_nos_len: usize,
        path_nos: *const u32, path_nos_len: usize,
        coords: *const f32, coords_len: usize,
        paths: *const u32, paths_len: usize,
        backdrops: *mut i32, backdrops_len: usize,
        counts: *mut u32, counts_len: usize,
        refs: *mut u32, refs_len: usize,
        kept_backdrops: *mut i32, kept_backdrops_len: usize,
        kept_counts: *mut u32, kept_counts_len: usize,
        made: &mut u32, item: &mut u32,
    ) -> u32;

    pub fn gp_boxes(
        path_nos: *const u32, path_nos_len: usize,
        coords: *const f32, coords_len: usize,
        beams: *const u32, beams_len: usize,
        margin: u32,
        paths: *mut u32, paths_len: usize,
        work: *mut u32, work_len: usize,
        tiles: &mut u32, item: &mut u32,
    ) -> u32;

    pub fn gp_check(
        path_nos: *const u32, path_nos_len: usize,
        coords: *const f32, coords_len: usize,
        paths: *const u32, paths_len: usize,
        refs: *const u32, refs_len: usize,
        counts: *const u32, counts_len: usize,
        backdrops: *const i32, backdrops_len: usize,
        stored: *const u32, stored_len: usize,
        room: u32,
        work: *mut u32, work_len: usize,
        found: &mut u32, item: &mut u32,
    ) -> u32;

    pub fn gp_outlines(
        path_nos: *const u32, path_nos_len: usize,
        coords: *const f32, coords_len: usize,
        path_count: u32,
        work: *mut u32, work_len: usize,
        item: &mut u32,
    ) -> u32;

    pub fn gp_sizes(
        path_nos: *const u32, path_nos_len: usize,
        coords: *const f32, coords_len: usize,
        paths: *const u32, paths_len: usize,
        cols: u32, rows: u32, tiles: &mut u32, made: &mut u32, words: &mut u32, item: &mut u32,
    ) -> u32;

    pub fn gp_svg_lines(
        text: *const u8, text_len: usize,
        depth: u32, path: u32,
        path_nos: *mut u32, path_nos_len: usize,
        coords: *mut f32, coords_len: usize,
        lines: &mut usize, place: &mut usize,
    ) -> u32;

    pub fn gp_fine_rows(
        words: *const u32, words_len: usize,
        segments: *const f32, segments_len: usize,
        width: u32, cols: u32, rows: u32, first: u32, end: u32,
        pixels: *mut u32, pixels_len: usize,
        item: &mut u32,
    ) -> u32;

    pub fn gp_draw(
        path_nos: *const u32, path_nos_len: usize,
        coords: *const f32, coords_len: usize,
        paths: *const u32, paths_len: usize,
        paints: *const u32, paints_len: usize,
        backdrops: *mut i32, backdrops_len: usize,
        stored: *mut u32, stored_len: usize,
        tally: *mut u32, tally_len: usize,
        refs: *mut u32, refs_len: usize,
        segments: *mut f32, segments_len: usize,
        tags: *mut u32, tags_len: usize,
        width: u32, cols: u32, rows: u32,
        words: *mut u32, words_len: usize,
        pixels: *mut u32, pixels_len: usize,
        stage: &mut u32, item: &mut u32, lines: &mut u32, made: &mut u32,
    ) -> u32;

    pub fn gp_present(
        pixels: *const u32, pixels_len: usize,
        screen: u32, width: u32, height: u32, stride: u32, bgra: u32,
        out: *mut u8, out_len: usize,
    ) -> u32;
}
