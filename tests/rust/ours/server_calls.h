/* The archive's functions declared, and `run`: a call by its number. For server.c.
 * Made from include/groatpocket.h by tests/rust/signatures (`-- write`), which `./test` holds it against: edit there. */
#ifdef HAS_FLOATS
extern float gp_floor(float x);
extern float gp_ceil(float x);
extern float gp_round(float x);
extern float gp_trunc(float x);
extern float gp_abs(float x);
extern float gp_signum(float x);
extern float gp_min(float a, float b);
extern float gp_max(float a, float b);
extern float gp_copysign(float magnitude, float sign);
extern float gp_clamp(float x, float lo, float hi);
extern uint32_t gp_to_u32(float x);
extern int32_t gp_to_i32(float x);
extern float gp_of_u32(uint32_t n);
extern float gp_of_i32(int32_t n);
extern uint8_t gp_is_finite(float x);

static uint32_t one_float(uint32_t helper, uint32_t x, uint32_t y, uint32_t z) {
    switch (helper) {
    case 0x01: return as_bits(gp_floor(as_float(x)));
    case 0x02: return as_bits(gp_ceil(as_float(x)));
    case 0x03: return as_bits(gp_round(as_float(x)));
    case 0x04: return as_bits(gp_trunc(as_float(x)));
    case 0x05: return as_bits(gp_abs(as_float(x)));
    case 0x06: return as_bits(gp_signum(as_float(x)));
    case 0x10: return as_bits(gp_min(as_float(x), as_float(y)));
    case 0x11: return as_bits(gp_max(as_float(x), as_float(y)));
    case 0x12: return as_bits(gp_copysign(as_float(x), as_float(y)));
    case 0x20: return as_bits(gp_clamp(as_float(x), as_float(y), as_float(z)));
    case 0x07: return (uint32_t)gp_to_u32(as_float(x));
    case 0x08: return (uint32_t)gp_to_i32(as_float(x));
    case 0x09: return as_bits(gp_of_u32((uint32_t)x));
    case 0x0a: return as_bits(gp_of_i32((int32_t)x));
    case 0x0b: return gp_is_finite(as_float(x)) != 0;
    }
    leave();
    return 0;
}
#endif

#ifdef HAS_COUNT
extern uint32_t gp_count(const uint32_t *path_nos, size_t path_nos_len, const float *coords, size_t coords_len, const uint32_t *paths, size_t paths_len, int32_t *backdrops, size_t backdrops_len, uint32_t *counts, size_t counts_len, uint32_t *refs, size_t refs_len, uint32_t end, uint32_t *lines, uint32_t *made, uint32_t *item);
#endif
#ifdef HAS_BACKDROP
extern uint32_t gp_backdrop(const uint32_t *paths, size_t paths_len, int32_t *backdrops, size_t backdrops_len, uint32_t *item);
#endif
#ifdef HAS_HAND_OUT
extern uint32_t gp_hand_out(uint32_t *counts, size_t counts_len, uint32_t *tally, size_t tally_len, uint32_t room);
#endif
#ifdef HAS_TILE
extern uint32_t gp_tile(const uint32_t *path_nos, size_t path_nos_len, const float *coords, size_t coords_len, const uint32_t *paths, size_t paths_len, const uint32_t *stored, size_t stored_len, const uint32_t *refs, size_t refs_len, uint32_t from, uint32_t to, float *segments, size_t segments_len, uint32_t *tags, size_t tags_len, uint32_t *item);
#endif
#ifdef HAS_FILL
extern uint32_t gp_fill(const float *segments, size_t segments_len, uint32_t first, uint32_t number, uint32_t even_odd, int32_t backdrop, float x_tile, float y_tile, float *area, size_t area_len);
#endif
#ifdef HAS_FINE
extern uint32_t gp_fine(const uint32_t *words, size_t words_len, const float *segments, size_t segments_len, uint32_t width, uint32_t cols, uint32_t rows, uint32_t from, uint32_t to, uint32_t *pixels, size_t pixels_len, uint32_t *item);
#endif
#ifdef HAS_FRAME
extern uint32_t gp_frame(const uint32_t *path_nos, size_t path_nos_len, const float *coords, size_t coords_len, const uint32_t *paths, size_t paths_len, int32_t *backdrops, size_t backdrops_len, uint32_t *stored, size_t stored_len, uint32_t *tally, size_t tally_len, uint32_t *refs, size_t refs_len, float *segments, size_t segments_len, uint32_t *tags, size_t tags_len, uint32_t *stage, uint32_t *item, uint32_t *lines, uint32_t *made);
#endif
#ifdef HAS_LISTS
extern uint32_t gp_write_lists(const uint32_t *paths, size_t paths_len, const uint32_t *paints, size_t paints_len, const int32_t *backdrops, size_t backdrops_len, const uint32_t *stored, size_t stored_len, const uint32_t *tally, size_t tally_len, uint32_t cols, uint32_t rows, uint32_t room, uint32_t *words, size_t words_len, uint32_t *item);
#endif
#ifdef HAS_PICTURE
extern uint32_t gp_ppm_write(const uint32_t *pixels, size_t pixels_len, uint32_t width, uint32_t height, uint8_t *out, size_t out_len, size_t *size);
#endif
#ifdef HAS_PICTURE
extern uint32_t gp_ppm_read(const uint8_t *file, size_t file_len, uint8_t *out, size_t out_len, uint32_t *width, uint32_t *height);
#endif
#ifdef HAS_PIXEL
extern uint32_t gp_pixel_area(const float *segments, size_t segments_len, uint32_t first, uint32_t number, uint32_t even_odd, int32_t backdrop, float x_tile, float y_tile, uint32_t column, uint32_t row, float *area);
#endif
#ifdef HAS_PIXEL
extern uint32_t gp_pixel(const uint32_t *words, size_t words_len, const float *segments, size_t segments_len, uint32_t tile, uint32_t column, uint32_t row, uint32_t *pixel);
#endif
#ifdef HAS_RECOUNT
extern uint32_t gp_recount(uint32_t path, const uint32_t *line_nos, size_t line_nos_len, const uint32_t *path_nos, size_t path_nos_len, const float *coords, size_t coords_len, const uint32_t *paths, size_t paths_len, int32_t *backdrops, size_t backdrops_len, uint32_t *counts, size_t counts_len, uint32_t *refs, size_t refs_len, int32_t *kept_backdrops, size_t kept_backdrops_len, uint32_t *kept_counts, size_t kept_counts_len, uint32_t *made, uint32_t *item);
#endif
#ifdef HAS_BOXES
extern uint32_t gp_boxes(const uint32_t *path_nos, size_t path_nos_len, const float *coords, size_t coords_len, const uint32_t *beams, size_t beams_len, uint32_t margin, uint32_t *paths, size_t paths_len, uint32_t *work, size_t work_len, uint32_t *tiles, uint32_t *item);
#endif
#ifdef HAS_CHECK
extern uint32_t gp_check(const uint32_t *path_nos, size_t path_nos_len, const float *coords, size_t coords_len, const uint32_t *paths, size_t paths_len, const uint32_t *refs, size_t refs_len, const uint32_t *counts, size_t counts_len, const int32_t *backdrops, size_t backdrops_len, const uint32_t *stored, size_t stored_len, uint32_t room, uint32_t *work, size_t work_len, uint32_t *found, uint32_t *item);
#endif
#ifdef HAS_OUTLINES
extern uint32_t gp_outlines(const uint32_t *path_nos, size_t path_nos_len, const float *coords, size_t coords_len, uint32_t path_count, uint32_t *work, size_t work_len, uint32_t *item);
#endif
#ifdef HAS_SIZES
extern uint32_t gp_sizes(const uint32_t *path_nos, size_t path_nos_len, const float *coords, size_t coords_len, const uint32_t *paths, size_t paths_len, uint32_t cols, uint32_t rows, uint32_t *tiles, uint32_t *made, uint32_t *words, uint32_t *item);
#endif
#ifdef HAS_SVG
extern uint32_t gp_svg_lines(const uint8_t *text, size_t text_len, uint32_t depth, uint32_t path, uint32_t *path_nos, size_t path_nos_len, float *coords, size_t coords_len, size_t *lines, size_t *place);
#endif
#ifdef HAS_BANDS
extern uint32_t gp_fine_rows(const uint32_t *words, size_t words_len, const float *segments, size_t segments_len, uint32_t width, uint32_t cols, uint32_t rows, uint32_t first, uint32_t end, uint32_t *pixels, size_t pixels_len, uint32_t *item);
#endif
#ifdef HAS_DRAW
extern uint32_t gp_draw(const uint32_t *path_nos, size_t path_nos_len, const float *coords, size_t coords_len, const uint32_t *paths, size_t paths_len, const uint32_t *paints, size_t paints_len, int32_t *backdrops, size_t backdrops_len, uint32_t *stored, size_t stored_len, uint32_t *tally, size_t tally_len, uint32_t *refs, size_t refs_len, float *segments, size_t segments_len, uint32_t *tags, size_t tags_len, uint32_t width, uint32_t cols, uint32_t rows, uint32_t *words, size_t words_len, uint32_t *pixels, size_t pixels_len, uint32_t *stage, uint32_t *item, uint32_t *lines, uint32_t *made);
#endif
#ifdef HAS_PRESENT
extern uint32_t gp_present(const uint32_t *pixels, size_t pixels_len, uint32_t screen, uint32_t width, uint32_t height, uint32_t stride, uint32_t bgra, uint8_t *out, size_t out_len);
#endif

static uint32_t run(uint32_t which) {
    uint32_t *n = numbers;
    switch (which) {
#ifdef HAS_FLOATS
    case 0: return floats();
#endif
#ifdef HAS_COUNT
    case 1: { /* count */
        uint32_t answer = gp_count(SLICE(0, uint32_t), SLICE(1, float), SLICE(2, uint32_t), SLICE(3, int32_t), SLICE(4, uint32_t), SLICE(5, uint32_t), (uint32_t)n[0], &n[1], &n[2], &n[3]);
        return answer;
    }
#endif
#ifdef HAS_BACKDROP
    case 2: { /* backdrop */
        uint32_t answer = gp_backdrop(SLICE(0, uint32_t), SLICE(1, int32_t), &n[0]);
        return answer;
    }
#endif
#ifdef HAS_HAND_OUT
    case 3: { /* hand_out */
        uint32_t answer = gp_hand_out(SLICE(0, uint32_t), SLICE(1, uint32_t), (uint32_t)n[0]);
        return answer;
    }
#endif
#ifdef HAS_TILE
    case 4: { /* tile */
        uint32_t answer = gp_tile(SLICE(0, uint32_t), SLICE(1, float), SLICE(2, uint32_t), SLICE(3, uint32_t), SLICE(4, uint32_t), (uint32_t)n[0], (uint32_t)n[1], SLICE(5, float), SLICE(6, uint32_t), &n[2]);
        return answer;
    }
#endif
#ifdef HAS_FILL
    case 5: { /* fill */
        uint32_t answer = gp_fill(SLICE(0, float), (uint32_t)n[0], (uint32_t)n[1], (uint32_t)n[2], (int32_t)n[3], as_float(n[4]), as_float(n[5]), SLICE(1, float));
        return answer;
    }
#endif
#ifdef HAS_FINE
    case 6: { /* fine */
        uint32_t answer = gp_fine(SLICE(0, uint32_t), SLICE(1, float), (uint32_t)n[0], (uint32_t)n[1], (uint32_t)n[2], (uint32_t)n[3], (uint32_t)n[4], SLICE(2, uint32_t), &n[5]);
        return answer;
    }
#endif
#ifdef HAS_FRAME
    case 7: { /* frame */
        uint32_t answer = gp_frame(SLICE(0, uint32_t), SLICE(1, float), SLICE(2, uint32_t), SLICE(3, int32_t), SLICE(4, uint32_t), SLICE(5, uint32_t), SLICE(6, uint32_t), SLICE(7, float), SLICE(8, uint32_t), &n[0], &n[1], &n[2], &n[3]);
        return answer;
    }
#endif
#ifdef HAS_LISTS
    case 8: { /* write_lists */
        uint32_t answer = gp_write_lists(SLICE(0, uint32_t), SLICE(1, uint32_t), SLICE(2, int32_t), SLICE(3, uint32_t), SLICE(4, uint32_t), (uint32_t)n[0], (uint32_t)n[1], (uint32_t)n[2], SLICE(5, uint32_t), &n[3]);
        return answer;
    }
#endif
#ifdef HAS_PICTURE
    case 9: { /* ppm_write */
        size_t size = n[2];
        uint32_t answer = gp_ppm_write(SLICE(0, uint32_t), (uint32_t)n[0], (uint32_t)n[1], SLICE(1, uint8_t), &size);
        n[2] = (uint32_t)size;
        return answer;
    }
#endif
#ifdef HAS_PICTURE
    case 10: { /* ppm_read */
        uint32_t answer = gp_ppm_read(SLICE(0, uint8_t), SLICE(1, uint8_t), &n[0], &n[1]);
        return answer;
    }
#endif
#ifdef HAS_PIXEL
    case 11: { /* pixel_area */
        float area = as_float(n[8]);
        uint32_t answer = gp_pixel_area(SLICE(0, float), (uint32_t)n[0], (uint32_t)n[1], (uint32_t)n[2], (int32_t)n[3], as_float(n[4]), as_float(n[5]), (uint32_t)n[6], (uint32_t)n[7], &area);
        n[8] = as_bits(area);
        return answer;
    }
#endif
#ifdef HAS_PIXEL
    case 12: { /* pixel */
        uint32_t answer = gp_pixel(SLICE(0, uint32_t), SLICE(1, float), (uint32_t)n[0], (uint32_t)n[1], (uint32_t)n[2], &n[3]);
        return answer;
    }
#endif
#ifdef HAS_RECOUNT
    case 13: { /* recount */
        uint32_t answer = gp_recount((uint32_t)n[0], SLICE(0, uint32_t), SLICE(1, uint32_t), SLICE(2, float), SLICE(3, uint32_t), SLICE(4, int32_t), SLICE(5, uint32_t), SLICE(6, uint32_t), SLICE(7, int32_t), SLICE(8, uint32_t), &n[1], &n[2]);
        return answer;
    }
#endif
#ifdef HAS_BOXES
    case 14: { /* boxes */
        uint32_t answer = gp_boxes(SLICE(0, uint32_t), SLICE(1, float), SLICE(2, uint32_t), (uint32_t)n[0], SLICE(3, uint32_t), SLICE(4, uint32_t), &n[1], &n[2]);
        return answer;
    }
#endif
#ifdef HAS_CHECK
    case 15: { /* check */
        uint32_t answer = gp_check(SLICE(0, uint32_t), SLICE(1, float), SLICE(2, uint32_t), SLICE(3, uint32_t), SLICE(4, uint32_t), SLICE(5, int32_t), SLICE(6, uint32_t), (uint32_t)n[0], SLICE(7, uint32_t), &n[1], &n[2]);
        return answer;
    }
#endif
#ifdef HAS_OUTLINES
    case 16: { /* outlines */
        uint32_t answer = gp_outlines(SLICE(0, uint32_t), SLICE(1, float), (uint32_t)n[0], SLICE(2, uint32_t), &n[1]);
        return answer;
    }
#endif
#ifdef HAS_SIZES
    case 17: { /* sizes */
        uint32_t answer = gp_sizes(SLICE(0, uint32_t), SLICE(1, float), SLICE(2, uint32_t), (uint32_t)n[0], (uint32_t)n[1], &n[2], &n[3], &n[4], &n[5]);
        return answer;
    }
#endif
#ifdef HAS_SVG
    case 18: { /* svg_lines */
        size_t lines = n[2];
        size_t place = n[3];
        uint32_t answer = gp_svg_lines(SLICE(0, uint8_t), (uint32_t)n[0], (uint32_t)n[1], SLICE(1, uint32_t), SLICE(2, float), &lines, &place);
        n[2] = (uint32_t)lines;
        n[3] = (uint32_t)place;
        return answer;
    }
#endif
#ifdef HAS_BANDS
    case 19: { /* fine_rows */
        uint32_t answer = gp_fine_rows(SLICE(0, uint32_t), SLICE(1, float), (uint32_t)n[0], (uint32_t)n[1], (uint32_t)n[2], (uint32_t)n[3], (uint32_t)n[4], SLICE(2, uint32_t), &n[5]);
        return answer;
    }
#endif
#ifdef HAS_DRAW
    case 20: { /* draw */
        uint32_t answer = gp_draw(SLICE(0, uint32_t), SLICE(1, float), SLICE(2, uint32_t), SLICE(3, uint32_t), SLICE(4, int32_t), SLICE(5, uint32_t), SLICE(6, uint32_t), SLICE(7, uint32_t), SLICE(8, float), SLICE(9, uint32_t), (uint32_t)n[0], (uint32_t)n[1], (uint32_t)n[2], SLICE(10, uint32_t), SLICE(11, uint32_t), &n[3], &n[4], &n[5], &n[6]);
        return answer;
    }
#endif
#ifdef HAS_PRESENT
    case 21: { /* present */
        uint32_t answer = gp_present(SLICE(0, uint32_t), (uint32_t)n[0], (uint32_t)n[1], (uint32_t)n[2], (uint32_t)n[3], (uint32_t)n[4], SLICE(1, uint8_t));
        return answer;
    }
#endif
    }
    leave();
    return 0;
}
