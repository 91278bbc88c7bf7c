/* Frames of lines that are drawn by chance, through frame, lists and pixels, and the float helpers over any bits: after each 50 frames a
 * checksum of every answer and of all memory lent. tests/install runs it over the archives of two processors: both print the same. */
#include "groatpocket.h"

#include <stdio.h>
#include <string.h>

enum { COLS = 8, ROWS = 6, PATHS = 4, LINES = 60, FRAMES = 200, ROOM = 4096 };
enum { SCREEN = COLS * ROWS, TILES = PATHS * SCREEN, WORDS = SCREEN * GP_TILE_WORDS, PIXELS = SCREEN * GP_TILE * GP_TILE };

static uint32_t path_nos[LINES], paths[PATHS * GP_PATH_WORDS], paints[PATHS * GP_PAINT_WORDS];
static uint32_t stored[TILES], tally[TILES], refs[ROOM * GP_REF_WORDS], tags[ROOM], words[WORDS], pixels[PIXELS];
static int32_t backdrops[TILES];
static float coords[LINES * GP_LINE_FLOATS], segments[ROOM * GP_SEGMENT_FLOATS];

static uint64_t state = 20261115, sum = 14695981039346656037u;
static unsigned done, refused;

static uint32_t any(void) {
    state = state * 6364136223846793005u + 1442695040888963407u;
    return (uint32_t)(state >> 32);
}

static void take(const void *from, size_t bytes) {
    const unsigned char *at = from;
    for (size_t k = 0; k < bytes; k++) sum = (sum ^ at[k]) * 1099511628211u;
}

static void take_word(uint32_t word) { take(&word, sizeof word); }

/* Any NaN is one NaN: which one a processor makes is left open. */
static void take_float(float x) {
    uint32_t bits = 0x7fc00000;
    if (x == x) memcpy(&bits, &x, sizeof bits);
    take_word(bits);
}

static float any_bits(void) {
    uint32_t bits = any();
    float x;
    memcpy(&x, &bits, sizeof x);
    return x;
}

/* A coordinate on the screen or near it; on a pixel's edge, on a tile's, or anywhere; seldom any float at all. */
static float any_coord(void) {
    uint32_t kind = any() % 64, place = any() % ((COLS + 4) * GP_TILE);
    float whole = (float)place - 2 * (float)GP_TILE;
    if (kind == 0 && any() % 64 == 0) return any_bits();
    if (kind < 8) return (float)(place / GP_TILE * GP_TILE);
    if (kind < 24) return whole;
    return whole + (float)(any() % 65536) / 65536;
}

static void frame(void) {
    uint32_t stage, item, lines, made, no;
    for (uint32_t k = 0; k < LINES; k++) path_nos[k] = any() % PATHS;
    for (uint32_t k = 0; k < LINES * GP_LINE_FLOATS; k++) coords[k] = any_coord();
    for (uint32_t k = 0; k < PATHS; k++) {
        uint32_t *path = paths + GP_PATH_WORDS * k;
        path[GP_PATH_X1] = COLS;
        path[GP_PATH_Y1] = ROWS;
        path[GP_PATH_FIRST] = SCREEN * k;
        path[GP_PATH_BEAM] = any();
        paints[GP_PAINT_WORDS * k + GP_PAINT_COLOUR] = GP_PAINT(any() % 256, any() % 256, any() % 256, any() % 256);
        paints[GP_PAINT_WORDS * k + GP_PAINT_RULE] = any() % 2;
    }
    no = gp_frame(path_nos, LINES, coords, LINES * GP_LINE_FLOATS, paths, PATHS * GP_PATH_WORDS, backdrops, TILES, stored, TILES, tally, TILES,
                  refs, ROOM * GP_REF_WORDS, segments, ROOM * GP_SEGMENT_FLOATS, tags, ROOM, &stage, &item, &lines, &made);
    take_word(no), take_word(stage), take_word(item), take_word(lines), take_word(made);
    take(backdrops, sizeof backdrops), take(stored, sizeof stored), take(tally, sizeof tally);
    take(refs, sizeof refs), take(segments, sizeof segments), take(tags, sizeof tags);
    if (no == GP_DONE) done++;
    else refused++;
    take_word(gp_write_lists(paths, PATHS * GP_PATH_WORDS, paints, PATHS * GP_PAINT_WORDS, backdrops, TILES, stored, TILES, tally, TILES, COLS,
                             ROWS, ROOM, words, WORDS, &item));
    take_word(gp_fine(words, WORDS, segments, ROOM * GP_SEGMENT_FLOATS, GP_TILE * COLS, COLS, ROWS, 0, SCREEN, pixels, PIXELS, &item));
    take(words, sizeof words), take(pixels, sizeof pixels);
}

static void helpers(void) {
    for (int k = 0; k < 2000; k++) {
        float x = any_bits(), y = any_bits(), z = any_bits();
        take_float(gp_floor(x)), take_float(gp_ceil(x)), take_float(gp_round(x)), take_float(gp_trunc(x)), take_float(gp_abs(x));
        take_float(gp_signum(x)), take_float(gp_min(x, y)), take_float(gp_max(x, y)), take_float(gp_clamp(x, y, z));
        take_word(gp_to_u32(x)), take_word((uint32_t)gp_to_i32(x)), take_float(gp_of_u32(any())), take_float(gp_of_i32((int32_t)any()));
        take_word(gp_is_finite(x)), take_float(gp_copysign(x, y == y ? y : 1));
    }
}

int main(void) {
    for (int n = 1; n <= FRAMES; n++) {
        frame();
        if (n % 50 != 0) continue;
        helpers();
        printf("%d frames, %u done, %u refused: %016llx\n", n, done, refused, (unsigned long long)sum);
    }
    return 0;
}
