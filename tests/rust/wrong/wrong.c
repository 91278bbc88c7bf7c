/* The archive's functions, told wrongly where tests/rust/can_fail asks for it (`--wrap` of the linker).
 * Made from include/groatpocket.h by tests/rust/signatures (`-- write`), which `./test` holds it against: edit there. */
#include "wrong.h"

uint32_t __real_gp_count(const uint32_t *path_nos, size_t path_nos_len, const float *coords, size_t coords_len, const uint32_t *paths, size_t paths_len, int32_t *backdrops, size_t backdrops_len, uint32_t *counts, size_t counts_len, uint32_t *refs, size_t refs_len, uint32_t end, uint32_t *lines, uint32_t *made, uint32_t *item);
uint32_t __wrap_gp_count(const uint32_t *path_nos, size_t path_nos_len, const float *coords, size_t coords_len, const uint32_t *paths, size_t paths_len, int32_t *backdrops, size_t backdrops_len, uint32_t *counts, size_t counts_len, uint32_t *refs, size_t refs_len, uint32_t end, uint32_t *lines, uint32_t *made, uint32_t *item) {
    uint32_t answer = __real_gp_count(path_nos, path_nos_len, coords, coords_len, paths, paths_len, backdrops, backdrops_len, counts, counts_len, refs, refs_len, end, lines, made, item);
    if (strikes("count backdrops", answer == 0 && backdrops_len > 0)) flip(backdrops + backdrops_len / 2);
    if (strikes("count backdrops refused", answer != 0 && backdrops_len > 0)) flip(backdrops + backdrops_len / 2);
    if (strikes("count counts", answer == 0 && counts_len > 0)) flip(counts + counts_len / 2);
    if (strikes("count counts refused", answer != 0 && counts_len > 0)) flip(counts + counts_len / 2);
    if (strikes("count refs", answer == 0 && refs_len > 0)) flip(refs + refs_len / 2);
    if (strikes("count refs refused", answer != 0 && refs_len > 0)) flip(refs + refs_len / 2);
    if (strikes("count lines", 1)) *lines += 1;
    if (strikes("count made", 1)) *made += 1;
    if (strikes("count item", answer != 0)) *item += 1;
    if (strikes("count answer", 1)) answer ^= 1;
    return answer;
}

uint32_t __real_gp_backdrop(const uint32_t *paths, size_t paths_len, int32_t *backdrops, size_t backdrops_len, uint32_t *item);
uint32_t __wrap_gp_backdrop(const uint32_t *paths, size_t paths_len, int32_t *backdrops, size_t backdrops_len, uint32_t *item) {
    uint32_t answer = __real_gp_backdrop(paths, paths_len, backdrops, backdrops_len, item);
    if (strikes("backdrop backdrops", answer == 0 && backdrops_len > 0)) flip(backdrops + backdrops_len / 2);
    if (strikes("backdrop backdrops refused", answer != 0 && backdrops_len > 0)) flip(backdrops + backdrops_len / 2);
    if (strikes("backdrop item", answer != 0)) *item += 1;
    if (strikes("backdrop answer", 1)) answer ^= 1;
    return answer;
}

uint32_t __real_gp_hand_out(uint32_t *counts, size_t counts_len, uint32_t *tally, size_t tally_len, uint32_t room);
uint32_t __wrap_gp_hand_out(uint32_t *counts, size_t counts_len, uint32_t *tally, size_t tally_len, uint32_t room) {
    uint32_t answer = __real_gp_hand_out(counts, counts_len, tally, tally_len, room);
    if (strikes("hand_out counts", answer == 0 && counts_len > 0)) flip(counts + counts_len / 2);
    if (strikes("hand_out counts refused", answer != 0 && counts_len > 0)) flip(counts + counts_len / 2);
    if (strikes("hand_out tally", answer == 0 && tally_len > 0)) flip(tally + tally_len / 2);
    if (strikes("hand_out tally refused", answer != 0 && tally_len > 0)) flip(tally + tally_len / 2);
    if (strikes("hand_out answer", 1)) answer ^= 1;
    return answer;
}

uint32_t __real_gp_tile(const uint32_t *path_nos, size_t path_nos_len, const float *coords, size_t coords_len, const uint32_t *paths, size_t paths_len, const uint32_t *stored, size_t stored_len, const uint32_t *refs, size_t refs_len, uint32_t from, uint32_t to, float *segments, size_t segments_len, uint32_t *tags, size_t tags_len, uint32_t *item);
uint32_t __wrap_gp_tile(const uint32_t *path_nos, size_t path_nos_len, const float *coords, size_t coords_len, const uint32_t *paths, size_t paths_len, const uint32_t *stored, size_t stored_len, const uint32_t *refs, size_t refs_len, uint32_t from, uint32_t to, float *segments, size_t segments_len, uint32_t *tags, size_t tags_len, uint32_t *item) {
    uint32_t answer = __real_gp_tile(path_nos, path_nos_len, coords, coords_len, paths, paths_len, stored, stored_len, refs, refs_len, from, to, segments, segments_len, tags, tags_len, item);
    if (strikes("tile segments", answer == 0 && segments_len > 0)) flip(segments + segments_len / 2);
    if (strikes("tile segments refused", answer != 0 && segments_len > 0)) flip(segments + segments_len / 2);
    if (strikes("tile tags", answer == 0 && tags_len > 0)) flip(tags + tags_len / 2);
    if (strikes("tile tags refused", answer != 0 && tags_len > 0)) flip(tags + tags_len / 2);
    if (strikes("tile item", answer != 0)) *item += 1;
    if (strikes("tile answer", 1)) answer ^= 1;
    return answer;
}

uint32_t __real_gp_fill(const float *segments, size_t segments_len, uint32_t first, uint32_t number, uint32_t even_odd, int32_t backdrop, float x_tile, float y_tile, float *area, size_t area_len);
uint32_t __wrap_gp_fill(const float *segments, size_t segments_len, uint32_t first, uint32_t number, uint32_t even_odd, int32_t backdrop, float x_tile, float y_tile, float *area, size_t area_len) {
    uint32_t answer = __real_gp_fill(segments, segments_len, first, number, even_odd, backdrop, x_tile, y_tile, area, area_len);
    if (strikes("fill area", answer == 0 && area_len > 0)) flip(area + area_len / 2);
    if (strikes("fill area refused", answer != 0 && area_len > 0)) flip(area + area_len / 2);
    if (strikes("fill answer", 1)) answer ^= 1;
    return answer;
}

uint32_t __real_gp_fine(const uint32_t *words, size_t words_len, const float *segments, size_t segments_len, uint32_t width, uint32_t cols, uint32_t rows, uint32_t from, uint32_t to, uint32_t *pixels, size_t pixels_len, uint32_t *item);
uint32_t __wrap_gp_fine(const uint32_t *words, size_t words_len, const float *segments, size_t segments_len, uint32_t width, uint32_t cols, uint32_t rows, uint32_t from, uint32_t to, uint32_t *pixels, size_t pixels_len, uint32_t *item) {
    uint32_t answer = __real_gp_fine(words, words_len, segments, segments_len, width, cols, rows, from, to, pixels, pixels_len, item);
    if (strikes("fine pixels", answer == 0 && pixels_len > 0)) flip(pixels + pixels_len / 2);
    if (strikes("fine pixels refused", answer != 0 && pixels_len > 0)) flip(pixels + pixels_len / 2);
    if (strikes("fine item", answer != 0)) *item += 1;
    if (strikes("fine answer", 1)) answer ^= 1;
    return answer;
}

uint32_t __real_gp_frame(const uint32_t *path_nos, size_t path_nos_len, const float *coords, size_t coords_len, const uint32_t *paths, size_t paths_len, int32_t *backdrops, size_t backdrops_len, uint32_t *stored, size_t stored_len, uint32_t *tally, size_t tally_len, uint32_t *refs, size_t refs_len, float *segments, size_t segments_len, uint32_t *tags, size_t tags_len, uint32_t *stage, uint32_t *item, uint32_t *lines, uint32_t *made);
uint32_t __wrap_gp_frame(const uint32_t *path_nos, size_t path_nos_len, const float *coords, size_t coords_len, const uint32_t *paths, size_t paths_len, int32_t *backdrops, size_t backdrops_len, uint32_t *stored, size_t stored_len, uint32_t *tally, size_t tally_len, uint32_t *refs, size_t refs_len, float *segments, size_t segments_len, uint32_t *tags, size_t tags_len, uint32_t *stage, uint32_t *item, uint32_t *lines, uint32_t *made) {
    uint32_t answer = __real_gp_frame(path_nos, path_nos_len, coords, coords_len, paths, paths_len, backdrops, backdrops_len, stored, stored_len, tally, tally_len, refs, refs_len, segments, segments_len, tags, tags_len, stage, item, lines, made);
    if (strikes("frame backdrops", answer == 0 && backdrops_len > 0)) flip(backdrops + backdrops_len / 2);
    if (strikes("frame backdrops refused", answer != 0 && backdrops_len > 0)) flip(backdrops + backdrops_len / 2);
    if (strikes("frame stored", answer == 0 && stored_len > 0)) flip(stored + stored_len / 2);
    if (strikes("frame stored refused", answer != 0 && stored_len > 0)) flip(stored + stored_len / 2);
    if (strikes("frame tally", answer == 0 && tally_len > 0)) flip(tally + tally_len / 2);
    if (strikes("frame tally refused", answer != 0 && tally_len > 0)) flip(tally + tally_len / 2);
    if (strikes("frame refs", answer == 0 && refs_len > 0)) flip(refs + refs_len / 2);
    if (strikes("frame refs refused", answer != 0 && refs_len > 0)) flip(refs + refs_len / 2);
    if (strikes("frame segments", answer == 0 && segments_len > 0)) flip(segments + segments_len / 2);
    if (strikes("frame segments refused", answer != 0 && segments_len > 0)) flip(segments + segments_len / 2);
    if (strikes("frame tags", answer == 0 && tags_len > 0)) flip(tags + tags_len / 2);
    if (strikes("frame tags refused", answer != 0 && tags_len > 0)) flip(tags + tags_len / 2);
    if (strikes("frame stage", answer != 0)) *stage += 1;
    if (strikes("frame item", answer != 0)) *item += 1;
    if (strikes("frame lines", 1)) *lines += 1;
    if (strikes("frame made", 1)) *made += 1;
    if (strikes("frame answer", 1)) answer ^= 1;
    return answer;
}

uint32_t __real_gp_write_lists(const uint32_t *paths, size_t paths_len, const uint32_t *paints, size_t paints_len, const int32_t *backdrops, size_t backdrops_len, const uint32_t *stored, size_t stored_len, const uint32_t *tally, size_t tally_len, uint32_t cols, uint32_t rows, uint32_t room, uint32_t *words, size_t words_len, uint32_t *item);
uint32_t __wrap_gp_write_lists(const uint32_t *paths, size_t paths_len, const uint32_t *paints, size_t paints_len, const int32_t *backdrops, size_t backdrops_len, const uint32_t *stored, size_t stored_len, const uint32_t *tally, size_t tally_len, uint32_t cols, uint32_t rows, uint32_t room, uint32_t *words, size_t words_len, uint32_t *item) {
    uint32_t answer = __real_gp_write_lists(paths, paths_len, paints, paints_len, backdrops, backdrops_len, stored, stored_len, tally, tally_len, cols, rows, room, words, words_len, item);
    if (strikes("write_lists words", answer == 0 && words_len > 0)) flip(words + words_len / 2);
    if (strikes("write_lists words refused", answer != 0 && words_len > 0)) flip(words + words_len / 2);
    if (strikes("write_lists item", answer != 0)) *item += 1;
    if (strikes("write_lists answer", 1)) answer ^= 1;
    return answer;
}

uint32_t __real_gp_ppm_write(const uint32_t *pixels, size_t pixels_len, uint32_t width, uint32_t height, uint8_t *out, size_t out_len, size_t *size);
uint32_t __wrap_gp_ppm_write(const uint32_t *pixels, size_t pixels_len, uint32_t width, uint32_t height, uint8_t *out, size_t out_len, size_t *size) {
    uint32_t answer = __real_gp_ppm_write(pixels, pixels_len, width, height, out, out_len, size);
    if (strikes("ppm_write out", answer == 0 && out_len > 0)) flip(out + out_len / 2);
    if (strikes("ppm_write out refused", answer != 0 && out_len > 0)) flip(out + out_len / 2);
    if (strikes("ppm_write size", 1)) *size += 1;
    if (strikes("ppm_write answer", 1)) answer ^= 1;
    return answer;
}

uint32_t __real_gp_ppm_read(const uint8_t *file, size_t file_len, uint8_t *out, size_t out_len, uint32_t *width, uint32_t *height);
uint32_t __wrap_gp_ppm_read(const uint8_t *file, size_t file_len, uint8_t *out, size_t out_len, uint32_t *width, uint32_t *height) {
    uint32_t answer = __real_gp_ppm_read(file, file_len, out, out_len, width, height);
    if (strikes("ppm_read out", answer == 0 && out_len > 0)) flip(out + out_len / 2);
    if (strikes("ppm_read out refused", answer != 0 && out_len > 0)) flip(out + out_len / 2);
    if (strikes("ppm_read width", 1)) *width += 1;
    if (strikes("ppm_read height", 1)) *height += 1;
    if (strikes("ppm_read answer", 1)) answer ^= 1;
    return answer;
}

uint32_t __real_gp_pixel_area(const float *segments, size_t segments_len, uint32_t first, uint32_t number, uint32_t even_odd, int32_t backdrop, float x_tile, float y_tile, uint32_t column, uint32_t row, float *area);
uint32_t __wrap_gp_pixel_area(const float *segments, size_t segments_len, uint32_t first, uint32_t number, uint32_t even_odd, int32_t backdrop, float x_tile, float y_tile, uint32_t column, uint32_t row, float *area) {
    uint32_t answer = __real_gp_pixel_area(segments, segments_len, first, number, even_odd, backdrop, x_tile, y_tile, column, row, area);
    if (strikes("pixel_area area", 1)) *area += 1;
    if (strikes("pixel_area answer", 1)) answer ^= 1;
    return answer;
}

uint32_t __real_gp_pixel(const uint32_t *words, size_t words_len, const float *segments, size_t segments_len, uint32_t tile, uint32_t column, uint32_t row, uint32_t *pixel);
uint32_t __wrap_gp_pixel(const uint32_t *words, size_t words_len, const float *segments, size_t segments_len, uint32_t tile, uint32_t column, uint32_t row, uint32_t *pixel) {
    uint32_t answer = __real_gp_pixel(words, words_len, segments, segments_len, tile, column, row, pixel);
    if (strikes("pixel pixel", 1)) *pixel += 1;
    if (strikes("pixel answer", 1)) answer ^= 1;
    return answer;
}

uint32_t __real_gp_recount(uint32_t path, const uint32_t *line_nos, size_t line_nos_len, const uint32_t *path_nos, size_t path_nos_len, const float *coords, size_t coords_len, const uint32_t *paths, size_t paths_len, int32_t *backdrops, size_t backdrops_len, uint32_t *counts, size_t counts_len, uint32_t *refs, size_t refs_len, int32_t *kept_backdrops, size_t kept_backdrops_len, uint32_t *kept_counts, size_t kept_counts_len, uint32_t *made, uint32_t *item);
uint32_t __wrap_gp_recount(uint32_t path, const uint32_t *line_nos, size_t line_nos_len, const uint32_t *path_nos, size_t path_nos_len, const float *coords, size_t coords_len, const uint32_t *paths, size_t paths_len, int32_t *backdrops, size_t backdrops_len, uint32_t *counts, size_t counts_len, uint32_t *refs, size_t refs_len, int32_t *kept_backdrops, size_t kept_backdrops_len, uint32_t *kept_counts, size_t kept_counts_len, uint32_t *made, uint32_t *item) {
    uint32_t answer = __real_gp_recount(path, line_nos, line_nos_len, path_nos, path_nos_len, coords, coords_len, paths, paths_len, backdrops, backdrops_len, counts, counts_len, refs, refs_len, kept_backdrops, kept_backdrops_len, kept_counts, kept_counts_len, made, item);
    if (strikes("recount backdrops", answer == 0 && backdrops_len > 0)) flip(backdrops + backdrops_len / 2);
    if (strikes("recount backdrops refused", answer != 0 && backdrops_len > 0)) flip(backdrops + backdrops_len / 2);
    if (strikes("recount counts", answer == 0 && counts_len > 0)) flip(counts + counts_len / 2);
    if (strikes("recount counts refused", answer != 0 && counts_len > 0)) flip(counts + counts_len / 2);
    if (strikes("recount refs", answer == 0 && refs_len > 0)) flip(refs + refs_len / 2);
    if (strikes("recount refs refused", answer != 0 && refs_len > 0)) flip(refs + refs_len / 2);
    if (strikes("recount kept_backdrops", answer == 0 && kept_backdrops_len > 0)) flip(kept_backdrops + kept_backdrops_len / 2);
    if (strikes("recount kept_backdrops refused", answer != 0 && kept_backdrops_len > 0)) flip(kept_backdrops + kept_backdrops_len / 2);
    if (strikes("recount kept_counts", answer == 0 && kept_counts_len > 0)) flip(kept_counts + kept_counts_len / 2);
    if (strikes("recount kept_counts refused", answer != 0 && kept_counts_len > 0)) flip(kept_counts + kept_counts_len / 2);
    if (strikes("recount made", 1)) *made += 1;
    if (strikes("recount item", answer != 0)) *item += 1;
    if (strikes("recount answer", 1)) answer ^= 1;
    return answer;
}

uint32_t __real_gp_boxes(const uint32_t *path_nos, size_t path_nos_len, const float *coords, size_t coords_len, const uint32_t *beams, size_t beams_len, uint32_t margin, uint32_t *paths, size_t paths_len, uint32_t *work, size_t work_len, uint32_t *tiles, uint32_t *item);
uint32_t __wrap_gp_boxes(const uint32_t *path_nos, size_t path_nos_len, const float *coords, size_t coords_len, const uint32_t *beams, size_t beams_len, uint32_t margin, uint32_t *paths, size_t paths_len, uint32_t *work, size_t work_len, uint32_t *tiles, uint32_t *item) {
    uint32_t answer = __real_gp_boxes(path_nos, path_nos_len, coords, coords_len, beams, beams_len, margin, paths, paths_len, work, work_len, tiles, item);
    if (strikes("boxes paths", answer == 0 && paths_len > 0)) flip(paths + paths_len / 2);
    if (strikes("boxes paths refused", answer != 0 && paths_len > 0)) flip(paths + paths_len / 2);
    if (strikes("boxes work", answer == 0 && work_len > 0)) flip(work + work_len / 2);
    if (strikes("boxes work refused", answer != 0 && work_len > 0)) flip(work + work_len / 2);
    if (strikes("boxes tiles", 1)) *tiles += 1;
    if (strikes("boxes item", answer != 0)) *item += 1;
    if (strikes("boxes answer", 1)) answer ^= 1;
    return answer;
}

uint32_t __real_gp_check(const uint32_t *path_nos, size_t path_nos_len, const float *coords, size_t coords_len, const uint32_t *paths, size_t paths_len, const uint32_t *refs, size_t refs_len, const uint32_t *counts, size_t counts_len, const int32_t *backdrops, size_t backdrops_len, const uint32_t *stored, size_t stored_len, uint32_t room, uint32_t *work, size_t work_len, uint32_t *found, uint32_t *item);
uint32_t __wrap_gp_check(const uint32_t *path_nos, size_t path_nos_len, const float *coords, size_t coords_len, const uint32_t *paths, size_t paths_len, const uint32_t *refs, size_t refs_len, const uint32_t *counts, size_t counts_len, const int32_t *backdrops, size_t backdrops_len, const uint32_t *stored, size_t stored_len, uint32_t room, uint32_t *work, size_t work_len, uint32_t *found, uint32_t *item) {
    uint32_t answer = __real_gp_check(path_nos, path_nos_len, coords, coords_len, paths, paths_len, refs, refs_len, counts, counts_len, backdrops, backdrops_len, stored, stored_len, room, work, work_len, found, item);
    if (strikes("check work", answer == 0 && work_len > 0)) flip(work + work_len / 2);
    if (strikes("check work refused", answer != 0 && work_len > 0)) flip(work + work_len / 2);
    if (strikes("check found", 1)) *found += 1;
    if (strikes("check item", answer != 0)) *item += 1;
    if (strikes("check answer", 1)) answer ^= 1;
    return answer;
}

uint32_t __real_gp_outlines(const uint32_t *path_nos, size_t path_nos_len, const float *coords, size_t coords_len, uint32_t path_count, uint32_t *work, size_t work_len, uint32_t *item);
uint32_t __wrap_gp_outlines(const uint32_t *path_nos, size_t path_nos_len, const float *coords, size_t coords_len, uint32_t path_count, uint32_t *work, size_t work_len, uint32_t *item) {
    uint32_t answer = __real_gp_outlines(path_nos, path_nos_len, coords, coords_len, path_count, work, work_len, item);
    if (strikes("outlines work", answer == 0 && work_len > 0)) flip(work + work_len / 2);
    if (strikes("outlines work refused", answer != 0 && work_len > 0)) flip(work + work_len / 2);
    if (strikes("outlines item", answer != 0)) *item += 1;
    if (strikes("outlines answer", 1)) answer ^= 1;
    return answer;
}

uint32_t __real_gp_sizes(const uint32_t *path_nos, size_t path_nos_len, const float *coords, size_t coords_len, const uint32_t *paths, size_t paths_len, uint32_t cols, uint32_t rows, uint32_t *tiles, uint32_t *made, uint32_t *words, uint32_t *item);
uint32_t __wrap_gp_sizes(const uint32_t *path_nos, size_t path_nos_len, const float *coords, size_t coords_len, const uint32_t *paths, size_t paths_len, uint32_t cols, uint32_t rows, uint32_t *tiles, uint32_t *made, uint32_t *words, uint32_t *item) {
    uint32_t answer = __real_gp_sizes(path_nos, path_nos_len, coords, coords_len, paths, paths_len, cols, rows, tiles, made, words, item);
    if (strikes("sizes tiles", 1)) *tiles += 1;
    if (strikes("sizes made", 1)) *made += 1;
    if (strikes("sizes words", 1)) *words += 1;
    if (strikes("sizes item", answer != 0)) *item += 1;
    if (strikes("sizes answer", 1)) answer ^= 1;
    return answer;
}

uint32_t __real_gp_svg_lines(const uint8_t *text, size_t text_len, uint32_t depth, uint32_t path, uint32_t *path_nos, size_t path_nos_len, float *coords, size_t coords_len, size_t *lines, size_t *place);
uint32_t __wrap_gp_svg_lines(const uint8_t *text, size_t text_len, uint32_t depth, uint32_t path, uint32_t *path_nos, size_t path_nos_len, float *coords, size_t coords_len, size_t *lines, size_t *place) {
    uint32_t answer = __real_gp_svg_lines(text, text_len, depth, path, path_nos, path_nos_len, coords, coords_len, lines, place);
    if (strikes("svg_lines path_nos", answer == 0 && path_nos_len > 0)) flip(path_nos + path_nos_len / 2);
    if (strikes("svg_lines path_nos refused", answer != 0 && path_nos_len > 0)) flip(path_nos + path_nos_len / 2);
    if (strikes("svg_lines coords", answer == 0 && coords_len > 0)) flip(coords + coords_len / 2);
    if (strikes("svg_lines coords refused", answer != 0 && coords_len > 0)) flip(coords + coords_len / 2);
    if (strikes("svg_lines lines", 1)) *lines += 1;
    if (strikes("svg_lines place", 1)) *place += 1;
    if (strikes("svg_lines answer", 1)) answer ^= 1;
    return answer;
}

uint32_t __real_gp_fine_rows(const uint32_t *words, size_t words_len, const float *segments, size_t segments_len, uint32_t width, uint32_t cols, uint32_t rows, uint32_t first, uint32_t end, uint32_t *pixels, size_t pixels_len, uint32_t *item);
uint32_t __wrap_gp_fine_rows(const uint32_t *words, size_t words_len, const float *segments, size_t segments_len, uint32_t width, uint32_t cols, uint32_t rows, uint32_t first, uint32_t end, uint32_t *pixels, size_t pixels_len, uint32_t *item) {
    uint32_t answer = __real_gp_fine_rows(words, words_len, segments, segments_len, width, cols, rows, first, end, pixels, pixels_len, item);
    if (strikes("fine_rows pixels", answer == 0 && pixels_len > 0)) flip(pixels + pixels_len / 2);
    if (strikes("fine_rows pixels refused", answer != 0 && pixels_len > 0)) flip(pixels + pixels_len / 2);
    if (strikes("fine_rows item", answer != 0)) *item += 1;
    if (strikes("fine_rows answer", 1)) answer ^= 1;
    return answer;
}

uint32_t __real_gp_draw(const uint32_t *path_nos, size_t path_nos_len, const float *coords, size_t coords_len, const uint32_t *paths, size_t paths_len, const uint32_t *paints, size_t paints_len, int32_t *backdrops, size_t backdrops_len, uint32_t *stored, size_t stored_len, uint32_t *tally, size_t tally_len, uint32_t *refs, size_t refs_len, float *segments, size_t segments_len, uint32_t *tags, size_t tags_len, uint32_t width, uint32_t cols, uint32_t rows, uint32_t *words, size_t words_len, uint32_t *pixels, size_t pixels_len, uint32_t *stage, uint32_t *item, uint32_t *lines, uint32_t *made);
uint32_t __wrap_gp_draw(const uint32_t *path_nos, size_t path_nos_len, const float *coords, size_t coords_len, const uint32_t *paths, size_t paths_len, const uint32_t *paints, size_t paints_len, int32_t *backdrops, size_t backdrops_len, uint32_t *stored, size_t stored_len, uint32_t *tally, size_t tally_len, uint32_t *refs, size_t refs_len, float *segments, size_t segments_len, uint32_t *tags, size_t tags_len, uint32_t width, uint32_t cols, uint32_t rows, uint32_t *words, size_t words_len, uint32_t *pixels, size_t pixels_len, uint32_t *stage, uint32_t *item, uint32_t *lines, uint32_t *made) {
    uint32_t answer = __real_gp_draw(path_nos, path_nos_len, coords, coords_len, paths, paths_len, paints, paints_len, backdrops, backdrops_len, stored, stored_len, tally, tally_len, refs, refs_len, segments, segments_len, tags, tags_len, width, cols, rows, words, words_len, pixels, pixels_len, stage, item, lines, made);
    if (strikes("draw backdrops", answer == 0 && backdrops_len > 0)) flip(backdrops + backdrops_len / 2);
    if (strikes("draw backdrops refused", answer != 0 && backdrops_len > 0)) flip(backdrops + backdrops_len / 2);
    if (strikes("draw stored", answer == 0 && stored_len > 0)) flip(stored + stored_len / 2);
    if (strikes("draw stored refused", answer != 0 && stored_len > 0)) flip(stored + stored_len / 2);
    if (strikes("draw tally", answer == 0 && tally_len > 0)) flip(tally + tally_len / 2);
    if (strikes("draw tally refused", answer != 0 && tally_len > 0)) flip(tally + tally_len / 2);
    if (strikes("draw refs", answer == 0 && refs_len > 0)) flip(refs + refs_len / 2);
    if (strikes("draw refs refused", answer != 0 && refs_len > 0)) flip(refs + refs_len / 2);
    if (strikes("draw segments", answer == 0 && segments_len > 0)) flip(segments + segments_len / 2);
    if (strikes("draw segments refused", answer != 0 && segments_len > 0)) flip(segments + segments_len / 2);
    if (strikes("draw tags", answer == 0 && tags_len > 0)) flip(tags + tags_len / 2);
    if (strikes("draw tags refused", answer != 0 && tags_len > 0)) flip(tags + tags_len / 2);
    if (strikes("draw words", answer == 0 && words_len > 0)) flip(words + words_len / 2);
    if (strikes("draw words refused", answer != 0 && words_len > 0)) flip(words + words_len / 2);
    if (strikes("draw pixels", answer == 0 && pixels_len > 0)) flip(pixels + pixels_len / 2);
    if (strikes("draw pixels refused", answer != 0 && pixels_len > 0)) flip(pixels + pixels_len / 2);
    if (strikes("draw stage", answer != 0)) *stage += 1;
    if (strikes("draw item", answer != 0)) *item += 1;
    if (strikes("draw lines", 1)) *lines += 1;
    if (strikes("draw made", 1)) *made += 1;
    if (strikes("draw answer", 1)) answer ^= 1;
    return answer;
}

uint32_t __real_gp_present(const uint32_t *pixels, size_t pixels_len, uint32_t screen, uint32_t width, uint32_t height, uint32_t stride, uint32_t bgra, uint8_t *out, size_t out_len);
uint32_t __wrap_gp_present(const uint32_t *pixels, size_t pixels_len, uint32_t screen, uint32_t width, uint32_t height, uint32_t stride, uint32_t bgra, uint8_t *out, size_t out_len) {
    uint32_t answer = __real_gp_present(pixels, pixels_len, screen, width, height, stride, bgra, out, out_len);
    if (strikes("present out", answer == 0 && out_len > 0)) flip(out + out_len / 2);
    if (strikes("present out refused", answer != 0 && out_len > 0)) flip(out + out_len / 2);
    if (strikes("present answer", 1)) answer ^= 1;
    return answer;
}

#ifndef BRIDGED /* over the bridge the helpers are no functions of their own */

float __real_gp_floor(float x);
float __wrap_gp_floor(float x) {
    float answer = __real_gp_floor(x);
    if (strikes("floor answer", 1)) flip(&answer);
    return answer;
}

float __real_gp_ceil(float x);
float __wrap_gp_ceil(float x) {
    float answer = __real_gp_ceil(x);
    if (strikes("ceil answer", 1)) flip(&answer);
    return answer;
}

float __real_gp_round(float x);
float __wrap_gp_round(float x) {
    float answer = __real_gp_round(x);
    if (strikes("round answer", 1)) flip(&answer);
    return answer;
}

float __real_gp_trunc(float x);
float __wrap_gp_trunc(float x) {
    float answer = __real_gp_trunc(x);
    if (strikes("trunc answer", 1)) flip(&answer);
    return answer;
}

float __real_gp_abs(float x);
float __wrap_gp_abs(float x) {
    float answer = __real_gp_abs(x);
    if (strikes("abs answer", 1)) flip(&answer);
    return answer;
}

float __real_gp_signum(float x);
float __wrap_gp_signum(float x) {
    float answer = __real_gp_signum(x);
    if (strikes("signum answer", 1)) flip(&answer);
    return answer;
}

float __real_gp_min(float a, float b);
float __wrap_gp_min(float a, float b) {
    float answer = __real_gp_min(a, b);
    if (strikes("min answer", 1)) flip(&answer);
    return answer;
}

float __real_gp_max(float a, float b);
float __wrap_gp_max(float a, float b) {
    float answer = __real_gp_max(a, b);
    if (strikes("max answer", 1)) flip(&answer);
    return answer;
}

float __real_gp_copysign(float magnitude, float sign);
float __wrap_gp_copysign(float magnitude, float sign) {
    float answer = __real_gp_copysign(magnitude, sign);
    if (strikes("copysign answer", 1)) flip(&answer);
    return answer;
}

float __real_gp_clamp(float x, float lo, float hi);
float __wrap_gp_clamp(float x, float lo, float hi) {
    float answer = __real_gp_clamp(x, lo, hi);
    if (strikes("clamp answer", 1)) flip(&answer);
    return answer;
}

uint32_t __real_gp_to_u32(float x);
uint32_t __wrap_gp_to_u32(float x) {
    uint32_t answer = __real_gp_to_u32(x);
    if (strikes("to_u32 answer", 1)) flip(&answer);
    return answer;
}

int32_t __real_gp_to_i32(float x);
int32_t __wrap_gp_to_i32(float x) {
    int32_t answer = __real_gp_to_i32(x);
    if (strikes("to_i32 answer", 1)) flip(&answer);
    return answer;
}

float __real_gp_of_u32(uint32_t n);
float __wrap_gp_of_u32(uint32_t n) {
    float answer = __real_gp_of_u32(n);
    if (strikes("of_u32 answer", 1)) flip(&answer);
    return answer;
}

float __real_gp_of_i32(int32_t n);
float __wrap_gp_of_i32(int32_t n) {
    float answer = __real_gp_of_i32(n);
    if (strikes("of_i32 answer", 1)) flip(&answer);
    return answer;
}

uint8_t __real_gp_is_finite(float x);
uint8_t __wrap_gp_is_finite(float x) {
    uint8_t answer = __real_gp_is_finite(x);
    if (strikes("is_finite answer", 1)) flip(&answer);
    return answer;
}

#endif
