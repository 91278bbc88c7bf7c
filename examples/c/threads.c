/* One screen drawn by two threads at once: each draws a band of its tile rows in its own part of the pixels, and they share
 * the words and segments, which are only read. Then the pixels are held against those of one call. examples/rust/src/bin/threads.rs
 * does the same in Rust, and both print examples/threads.out. Build from the project's root, once `./archive` has
 * written the archive:
 *
 *     cc -std=c11 -Wall -Wextra -Werror -pedantic -pthread -Iinclude examples/c/threads.c \
 *         target/staticlib/libgroatpocket.a -o target/threads && target/threads
 */
#include "groatpocket.h"

#include <pthread.h>
#include <stdio.h>

enum { COLS = 4, ROWS = 5, SCREEN = COLS * ROWS, WIDTH = GP_TILE * COLS, PIXELS = WIDTH * GP_TILE * ROWS };
enum { PATHS = 2, TILES = PATHS * SCREEN, LINES = 7, ROOM = 256, WORDS = SCREEN * GP_TILE_WORDS };
enum { THREADS = 2, BAND = 3 }; /* the first thread has three rows of tiles, the second the two that are left */

/* A red triangle, and over it a blue square; the box of each is the whole screen. */
static const uint32_t path_nos[LINES] = {0, 0, 0, 1, 1, 1, 1};
static const float coords[LINES * GP_LINE_FLOATS] = {
    4, 76, 32, 4,  32, 4, 60, 76,  60, 76, 4, 76,
    22, 38, 42, 38,  42, 38, 42, 58,  42, 58, 22, 58,  22, 58, 22, 38,
};
static const uint32_t paths[PATHS * GP_PATH_WORDS] = {GP_PATH(0, 0, COLS, ROWS, 0, 7), GP_PATH(0, 0, COLS, ROWS, SCREEN, 8)};
static const uint32_t paints[PATHS * GP_PAINT_WORDS] = {0xff0000ff, 0, 0x0000ffff, 0};

static int32_t backdrops[TILES];
static uint32_t stored[TILES], tally[TILES], refs[ROOM * GP_REF_WORDS], tags[ROOM], words[WORDS], whole[PIXELS], bands[PIXELS];
static float segments[ROOM * GP_SEGMENT_FLOATS];

/* What a thread is handed, and what it answers. */
struct band {
    uint32_t first, end, no, item;
};

static void *draw(void *given) {
    struct band *b = given;
    uint32_t row = WIDTH * GP_TILE;
    b->no = gp_fine_rows(words, WORDS, segments, ROOM * GP_SEGMENT_FLOATS, WIDTH, COLS, ROWS, b->first, b->end,
                         bands + row * b->first, row * (b->end - b->first), &b->item);
    return NULL;
}

int main(void) {
    uint32_t stage, item, lines, made, differ = 0;
    uint32_t no = gp_frame(path_nos, LINES, coords, LINES * GP_LINE_FLOATS, paths, PATHS * GP_PATH_WORDS, backdrops, TILES,
                           stored, TILES, tally, TILES, refs, ROOM * GP_REF_WORDS, segments, ROOM * GP_SEGMENT_FLOATS,
                           tags, ROOM, &stage, &item, &lines, &made);
    printf("frame: %u, lines %u, references %u\n", no, lines, made);
    if (no != GP_DONE) return 1;
    no = gp_write_lists(paths, PATHS * GP_PATH_WORDS, paints, PATHS * GP_PAINT_WORDS, backdrops, TILES, stored, TILES,
                        tally, TILES, COLS, ROWS, ROOM, words, WORDS, &item);
    printf("lists: %u\n", no);
    if (no != GP_DONE) return 1;

    pthread_t threads[THREADS];
    struct band given[THREADS];
    for (uint32_t k = 0; k < THREADS; k++) {
        uint32_t end = BAND * (k + 1);
        given[k] = (struct band){BAND * k, end < ROWS ? end : ROWS, 0, 0};
        if (pthread_create(&threads[k], NULL, draw, &given[k]) != 0) return 1;
    }
    for (int k = 0; k < THREADS; k++) {
        pthread_join(threads[k], NULL);
        printf("rows %u to %u: %u\n", given[k].first, given[k].end, given[k].no);
    }

    no = gp_fine(words, WORDS, segments, ROOM * GP_SEGMENT_FLOATS, WIDTH, COLS, ROWS, 0, SCREEN, whole, PIXELS, &item);
    for (size_t k = 0; k < PIXELS; k++) differ += whole[k] != bands[k];
    printf("one call: %u, pixels that differ: %u\n", no, differ);

    /* Red is in the lowest byte, blue in the third. */
    for (uint32_t y = 0; y < GP_TILE * ROWS; y += 2) {
        for (uint32_t x = 0; x < WIDTH; x++) {
            uint32_t p = bands[WIDTH * y + x];
            putchar(p >> 24 < 64 ? '.' : (p >> 16 & 255) > 127 ? 'b' : 'r');
        }
        putchar('\n');
    }
    return no != GP_DONE || differ != 0;
}
