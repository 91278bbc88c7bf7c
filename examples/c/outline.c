/* A beam from SVG to pixels: the outline of an I-beam with two bolt holes, as a drawing program writes it, read, framed,
 * listed and drawn. A first text has a fault, and is refused with its place. Prints examples/outline.out; with a file's name
 * it writes the picture there too, white on black. Build from the project's root, once `./archive` has
 * written the archive:
 *
 *     cc -std=c11 -Wall -Wextra -Werror -pedantic -Iinclude examples/c/outline.c \
 *         target/staticlib/libgroatpocket.a -o target/outline && target/outline beam.ppm
 */
#include "groatpocket.h"

#include <stdio.h>
#include <string.h>

enum { COLS = 4, ROWS = 3, TILES = COLS * ROWS, LINES = 1024, ROOM = 2048, WORDS = TILES * GP_TILE_WORDS, PIXELS = 256 * TILES };
enum { DEPTH = 4 }; /* each curve becomes 2^4 lines */

static const char *const texts[] = {
    "M8,4 h48 v8 h-16 q-4,0,-4",
    "M8,4 h48 v8 h-16 q-4,0 -4,4 v16 q0,4 4,4 h16 v8 H8 v-8 h16 q4,0 4-4 V16 q0-4 -4-4 H8 Z "
    "M14,8 q0-2 2-2 2,0 2,2 0,2 -2,2 -2,0 -2-2 M46 40 q0-2 2-2 2,0 2,2 0,2 -2,2 -2,0 -2-2",
};
/* The beam may draw on the whole screen: its box, its first tile, and the number stamped on it. White, even-odd. */
static const uint32_t paths[GP_PATH_WORDS] = {GP_PATH(0, 0, COLS, ROWS, 0, 7)};
static const uint32_t paints[GP_PAINT_WORDS] = {0xffffffff, 1};

static uint32_t path_nos[LINES];
static float coords[LINES * GP_LINE_FLOATS];
static int32_t backdrops[TILES];
static uint32_t stored[TILES], tally[TILES], refs[ROOM * GP_REF_WORDS], words[WORDS], pixels[PIXELS];
static float segments[ROOM * GP_SEGMENT_FLOATS];
static uint32_t tags[ROOM];
static uint8_t file[3 * PIXELS + 32];

static int write_picture(const char *name) {
    size_t size;
    if (gp_ppm_write(pixels, PIXELS, 16 * COLS, 16 * ROWS, file, sizeof file, &size) != GP_DONE) return 1;
    FILE *out = fopen(name, "wb");
    return out == NULL || fwrite(file, 1, size, out) != size || fclose(out) != 0;
}

int main(int words_given, char **given) {
    uint32_t no = GP_DONE, stage, item, counted, made;
    size_t lines = 0, place;

    for (size_t k = 0; k < sizeof texts / sizeof *texts; k++) {
        no = gp_svg_lines((const uint8_t *)texts[k], strlen(texts[k]), DEPTH, 0, path_nos, LINES, coords, LINES * GP_LINE_FLOATS,
                          &lines, &place);
        if (no == GP_BAD_TEXT) printf("text %zu: refusal %u at byte %zu of %zu\n", k, no, place, strlen(texts[k]));
        else printf("text %zu: %u, lines %zu\n", k, no, lines);
    }
    if (no != GP_DONE) return 1;

    no = gp_frame(path_nos, lines, coords, lines * GP_LINE_FLOATS, paths, GP_PATH_WORDS, backdrops, TILES, stored, TILES,
                  tally, TILES, refs, ROOM * GP_REF_WORDS, segments, ROOM * GP_SEGMENT_FLOATS, tags, ROOM,
                  &stage, &item, &counted, &made);
    printf("frame: %u, lines %u, references %u\n", no, counted, made);
    if (no != GP_DONE) return 1;

    no = gp_write_lists(paths, GP_PATH_WORDS, paints, GP_PAINT_WORDS, backdrops, TILES, stored, TILES, tally, TILES,
                        COLS, ROWS, ROOM, words, WORDS, &item);
    printf("lists: %u\n", no);
    if (no != GP_DONE) return 1;

    no = gp_fine(words, WORDS, segments, ROOM * GP_SEGMENT_FLOATS, 16 * COLS, COLS, ROWS, 0, TILES, pixels, PIXELS, &item);
    printf("fine: %u\n", no);
    if (no != GP_DONE) return 1;

    for (int y = 0; y < 16 * ROWS; y += 2) {
        for (int x = 0; x < 16 * COLS; x++) {
            uint32_t white = pixels[16 * COLS * y + x] & 255;
            putchar(white < 64 ? '.' : white < 192 ? '+' : '#');
        }
        putchar('\n');
    }
    return words_given > 1 ? write_picture(given[1]) : 0;
}
