/* Eight channels by the panel maker's kit: the boxes are made from the lines, the sizes are asked for, one call goes from
 * lines to pixels, and one crops them. examples/rust/src/bin/kit.rs does the same by `Panel`, and both print examples/kit.out; with
 * a file's name the picture is written there too. Build from the project's root, once `./archive` has written the archive:
 *
 *     cc -std=c11 -Wall -Wextra -Werror -pedantic -Iinclude examples/c/kit.c target/staticlib/libgroatpocket.a -o target/kit
 */
#include "groatpocket.h"

#include <stdio.h>
#include <stdlib.h>

enum { CHANNELS = 8, SAMPLES = 12, POINTS = SAMPLES + 2, LINES = CHANNELS * POINTS, SIDE = 120 };
enum { SHOWN = SIDE * SIDE, FILE_MOST = 3 * SHOWN + 19 };
enum { COLS = (SIDE + GP_TILE - 1) / GP_TILE, ROWS = COLS, WIDTH = GP_TILE * COLS, PIXELS = WIDTH * GP_TILE * ROWS };

/* What a gauge reads: any numbers will do. */
static float reading(uint32_t channel, uint32_t sample) {
    return (float)((7 * sample * sample + 5 * channel * sample + 3 * channel) % 13);
}

static int refused(uint32_t no, uint32_t item) {
    fprintf(stderr, "refusal %u at %u: %s\n", no, item, gp_refusal_text(no));
    return 1;
}

int main(int argc, char **argv) {
    static uint32_t path_nos[LINES], beams[CHANNELS], paints[CHANNELS * GP_PAINT_WORDS], pixels[PIXELS];
    static uint32_t paths[CHANNELS * GP_PATH_WORDS], work[CHANNELS * GP_BOX_WORDS];
    static float coords[LINES * GP_LINE_FLOATS];
    static const uint32_t colours[] = {0xff0000ff, 0x00ff00ff, 0x0000ffff};
    uint32_t tiles, refs, words, item, stage, lines, made;
    for (uint32_t c = 0; c < CHANNELS; c++) {
        float base = (float)(15 * c + 14), points[POINTS][2] = {{112, base}, {2, base}};
        for (uint32_t k = 0; k < SAMPLES; k++) {
            points[k + 2][0] = (float)(2 + 10 * k);
            points[k + 2][1] = base - reading(c, k);
        }
        for (uint32_t k = 0; k < POINTS; k++) {
            uint32_t line = c * POINTS + k, next = (k + 1) % POINTS;
            float ends[GP_LINE_FLOATS] = {points[k][0], points[k][1], points[next][0], points[next][1]};
            path_nos[line] = c;
            for (uint32_t i = 0; i < GP_LINE_FLOATS; i++) coords[GP_LINE_FLOATS * line + i] = ends[i];
        }
        beams[c] = 301 + c;
        paints[GP_PAINT_WORDS * c] = colours[c % 3];
    }

    /* Boxes from the lines, with a tile around them; then how much all of it needs. */
    uint32_t no = gp_boxes(path_nos, LINES, coords, LINES * GP_LINE_FLOATS, beams, CHANNELS, 1, paths, CHANNELS * GP_PATH_WORDS,
                           work, CHANNELS * GP_BOX_WORDS, &tiles, &item);
    if (no == GP_DONE)
        no = gp_sizes(path_nos, LINES, coords, LINES * GP_LINE_FLOATS, paths, CHANNELS * GP_PATH_WORDS, COLS, ROWS,
                      &tiles, &refs, &words, &item);
    if (no != GP_DONE) return refused(no, item);
    int32_t *backdrops = calloc(tiles, sizeof *backdrops);
    uint32_t *stored = calloc(tiles, 4), *tally = calloc(tiles, 4), *lists = calloc(words, 4);
    uint32_t *references = calloc(refs, 4 * GP_REF_WORDS), *tags = calloc(refs, 4);
    float *segments = calloc(refs, GP_SEGMENT_FLOATS * sizeof *segments);
    if (!backdrops || !stored || !tally || !lists || !references || !tags || !segments) return 1;

    /* From lines to pixels. */
    no = gp_draw(path_nos, LINES, coords, LINES * GP_LINE_FLOATS, paths, CHANNELS * GP_PATH_WORDS, paints, CHANNELS * GP_PAINT_WORDS,
                 backdrops, tiles, stored, tiles, tally, tiles, references, refs * GP_REF_WORDS, segments, refs * GP_SEGMENT_FLOATS,
                 tags, refs, WIDTH, COLS, ROWS, lists, words, pixels, PIXELS, &stage, &item, &lines, &made);
    if (no != GP_DONE) return refused(no, item);

    /* The shown part, as the bytes of pixels again: red first, rows one after another. */
    static uint32_t shown[SHOWN];
    no = gp_present(pixels, PIXELS, WIDTH, SIDE, SIDE, 4 * SIDE, 0, (uint8_t *)shown, sizeof shown);
    if (no != GP_DONE) return refused(no, 0);
    for (uint32_t y = 0; y < SIDE; y += 3) {
        for (uint32_t x = 0; x < SIDE; x++) {
            uint32_t p = shown[SIDE * y + x], red = p & 255, green = p >> 8 & 255, blue = p >> 16 & 255;
            putchar(p >> 24 < 64 ? '.' : red >= green && red >= blue ? 'r' : green >= blue ? 'g' : 'b');
        }
        putchar('\n');
    }
    if (argc > 1) {
        static uint8_t bytes[FILE_MOST];
        size_t size;
        no = gp_ppm_write(shown, SHOWN, SIDE, SIDE, bytes, FILE_MOST, &size);
        FILE *file = no == GP_DONE ? fopen(argv[1], "wb") : NULL;
        if (!file || fwrite(bytes, 1, size, file) != size || fclose(file) != 0) return 1;
    }
    free(backdrops), free(stored), free(tally), free(lists), free(references), free(tags), free(segments);
    return 0;
}
