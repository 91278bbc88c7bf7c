/* One trace drawn through all stages, and its answers printed. Build from the project's root, once
 * `./archive` has written the archive:
 *
 *     cc -std=c11 -Wall -Wextra -Werror -pedantic -Iinclude examples/c/trace.c \
 *         target/staticlib/libgroatpocket.a -o target/trace && target/trace
 */
#include "groatpocket.h"

#include <stdio.h>

#define LINES 3
#define TILES 4
#define REFS 16
#define SLOTS 16

int main(void) {
    /* A triangle (4,4), (28,4), (16,28) as path 0, in a box of two by two tiles, of the beam stamped 7. */
    const uint32_t path_nos[LINES] = {0, 0, 0};
    const float coords[LINES * GP_LINE_FLOATS] = {
        4, 4, 28, 4, 28, 4, 16, 28, 16, 28, 4, 4,
    };
    const uint32_t paths[GP_PATH_WORDS] = {GP_PATH(0, 0, 2, 2, 0, 7)};
    int32_t backdrops[TILES] = {0};
    uint32_t counts[TILES] = {0}, tally[TILES] = {0};
    uint32_t refs[REFS * GP_REF_WORDS] = {0};
    float segments[SLOTS * GP_SEGMENT_FLOATS] = {0};
    uint32_t tags[SLOTS] = {0};
    uint32_t words[TILES * GP_TILE_WORDS] = {0};
    uint32_t pixels[32 * 32] = {0};
    uint32_t lines = 0, made = 0, item = 0, no;

    no = gp_count(path_nos, LINES, coords, LINES * GP_LINE_FLOATS, paths, GP_PATH_WORDS,
                  backdrops, TILES, counts, TILES, refs, REFS * GP_REF_WORDS,
                  LINES, &lines, &made, &item);
    printf("count: %u, lines %u, references %u\n", no, lines, made);
    if (no != GP_DONE) return 1;

    no = gp_backdrop(paths, GP_PATH_WORDS, backdrops, TILES, &item);
    printf("backdrop: %u\n", no);
    if (no != GP_DONE) return 1;

    no = gp_hand_out(counts, TILES, tally, TILES, SLOTS);
    printf("hand-out: %u\n", no);
    if (no != GP_DONE) return 1;

    no = gp_tile(path_nos, LINES, coords, LINES * GP_LINE_FLOATS, paths, GP_PATH_WORDS,
                 counts, TILES, refs, REFS * GP_REF_WORDS, 0, made,
                 segments, SLOTS * GP_SEGMENT_FLOATS, tags, SLOTS, &item);
    printf("tile: %u, tags", no);
    for (uint32_t k = 0; k < made; k++) printf(" %u", tags[k]);
    putchar('\n');
    if (no != GP_DONE) return 1;

    /* A list of commands for each of the four screen tiles: fill, then orange. */
    for (uint32_t t = 0; t < TILES; t++) {
        uint32_t *w = words + GP_TILE_WORDS * t + 1;
        if (tally[t] > 0) {
            *w++ = GP_CMD_FILL;
            *w++ = tally[t] * 2;
            *w++ = ~counts[t];
            *w++ = (uint32_t)backdrops[t];
            *w++ = GP_CMD_COLOR;
            *w++ = 0xff8000ffu;
        }
        *w = GP_CMD_END;
    }
    no = gp_fine(words, TILES * GP_TILE_WORDS, segments, SLOTS * GP_SEGMENT_FLOATS,
                 32, 2, 2, 0, TILES, pixels, 32 * 32, &item);
    printf("fine: %u\n", no);
    if (no != GP_DONE) return 1;

    for (int y = 0; y < 32; y += 2) {
        for (int x = 0; x < 32; x++) putchar(" .:*#"[(pixels[32 * y + x] >> 24) / 60]);
        putchar('\n');
    }
    return 0;
}
