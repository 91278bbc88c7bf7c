/* A panel of three channels, a strip each, drawn in three calls: frame, command lists, pixels. A channel whose lines are
 * refused gets a fault mark in its strip. examples/rust does the same in Rust, and both print examples/panel.out. Build
 * from the project's root, once `./archive` has written the archive:
 *
 *     cc -std=c11 -Wall -Wextra -Werror -pedantic -Iinclude examples/c/panel.c \
 *         target/staticlib/libgroatpocket.a -o target/panel && target/panel
 *
 * Two numbers may follow: the references that there is room for at first, and the most that may be lent.
 */
#include "groatpocket.h"

#include <math.h>
#include <stdio.h>
#include <stdlib.h>
#include <string.h>

/* A tile around the strips that are shown: a line that has a tile of its box on every side of it is never refused with 10. */
enum { MARGIN = 1, CHANNELS = 3, COLS = 4 + 2 * MARGIN, ROWS = CHANNELS + 2 * MARGIN, SCREEN = COLS * ROWS };
/* Each channel has two paths, its trace and its fault mark. */
enum { PATHS = 2 * CHANNELS, BOX = COLS * (1 + 2 * MARGIN), TILES = PATHS * BOX, WORDS = SCREEN * GP_TILE_WORDS };
enum { BARS = 6, BAR_LINES = 4, TRACE_LINES = 11, LINES = TRACE_LINES + CHANNELS * BARS * BAR_LINES };
enum { ROOM = 64, MOST = 1024 };

/* Channel 0 swings, 1 is nearly quiet; a gauge of channel 2 sends something that is no number. Places are those in the strip. */
static uint32_t path_nos[LINES] = {0, 0, 0, 0, 0, 1, 1, 1, 1, 2, 2};
static float coords[LINES * GP_LINE_FLOATS] = {
    4, 14, 16, 2,  16, 2, 28, 12,  28, 12, 40, 4,  40, 4, 60, 14,  60, 14, 4, 14,
    4, 12, 60, 12,  60, 12, 60, 14,  60, 14, 4, 14,  4, 14, 4, 12,
    4, 14, 40, NAN,  40, 8, 4, 14,
};
/* A strip is a row of tiles, and its box has the margin around it. A mark has the box and the beam number of its channel. */
#define STRIP(channel, path, beam) GP_PATH(0, channel, COLS, channel + 1 + 2 * MARGIN, path * BOX, beam)
static const uint32_t paths[PATHS * GP_PATH_WORDS] = {
    STRIP(0, 0, 301), STRIP(1, 1, 302), STRIP(2, 2, 417), STRIP(0, 3, 301), STRIP(1, 4, 302), STRIP(2, 5, 417),
};
/* Red, blue and green traces; yellow, which no trace has, for the marks. */
#define MARK 0xffff00ff
static const uint32_t paints[PATHS * GP_PAINT_WORDS] = {0xff0000ff, 0, 0x0000ffff, 1, 0x00ff00ff, 0, MARK, 0, MARK, 0, MARK, 0};

static int32_t backdrops[TILES];
static uint32_t stored[TILES], tally[TILES], refs[MOST * GP_REF_WORDS], words[WORDS], pixels[256 * SCREEN];
static float segments[MOST * GP_SEGMENT_FLOATS];
static uint32_t tags[MOST], ends[PATHS * GP_OUTLINE_WORDS];

/* Moves a line from its place in a channel's strip to that on the screen. */
static void placed(float *line, uint32_t channel) {
    for (size_t k = 0; k < GP_LINE_FLOATS; k++) line[k] += 16 * (MARGIN + (k % 2 ? channel : 0));
}

/* Takes the lines of one channel out, and gives the number of those left. */
static size_t without(uint32_t channel, size_t n) {
    size_t kept = 0;
    for (size_t k = 0; k < n; k++) {
        if (path_nos[k] == channel) continue;
        path_nos[kept] = path_nos[k];
        memmove(coords + GP_LINE_FLOATS * kept, coords + GP_LINE_FLOATS * k, GP_LINE_FLOATS * sizeof *coords);
        kept++;
    }
    return kept;
}

/* Adds a channel's fault mark, slanted bars along its strip, each a closed outline; gives the number of lines. */
static size_t with_mark(uint32_t channel, size_t n) {
    for (int bar = 0; bar < BARS; bar++) {
        float x = 2 + 10 * bar;
        const float corners[2 * BAR_LINES + 2] = {x, 15, x + 5, 1, x + 10, 1, x + 5, 15, x, 15};
        for (int side = 0; side < BAR_LINES; side++, n++) {
            path_nos[n] = CHANNELS + channel;
            memcpy(coords + GP_LINE_FLOATS * n, corners + 2 * side, GP_LINE_FLOATS * sizeof *coords);
            placed(coords + GP_LINE_FLOATS * n, channel);
        }
    }
    return n;
}

/* The channel that a frame's refusal is the fault of, or CHANNELS: too little room, too many lines, wrong boxes and a refused mark
 * are the program's own faults, and no channel is to blame for them. */
static uint32_t blamed(uint32_t no, uint32_t stage, uint32_t line, size_t n) {
    int in_lines = stage == GP_STAGE_COUNT || stage == GP_STAGE_TILE;
    int of_lines = no == GP_COORDINATE || no == GP_NO_SUCH || no == GP_COUNT_OVER || no == GP_OUTSIDE || no == GP_CROOKED;
    return in_lines && of_lines && line < n && path_nos[line] < CHANNELS ? path_nos[line] : CHANNELS;
}

/* Makes the frame of all channels, and the number of its segments; gives 0 where the program itself is at fault. */
static int framed(size_t room, size_t most, uint32_t *made) {
    size_t n = TRACE_LINES;
    uint32_t stage, item, lines;
    for (;;) {
        uint32_t no = gp_frame(path_nos, n, coords, n * GP_LINE_FLOATS, paths, PATHS * GP_PATH_WORDS,
                               backdrops, TILES, stored, TILES, tally, TILES, refs, room * GP_REF_WORDS,
                               segments, room * GP_SEGMENT_FLOATS, tags, room, &stage, &item, &lines, made);
        if (no == GP_DONE) break;
        uint32_t line = stage == GP_STAGE_TILE ? refs[GP_REF_WORDS * item + GP_REF_LINE] : item;
        uint32_t channel = blamed(no, stage, line, n);
        if (channel < CHANNELS) {
            /* Left out alone it would look quiet: its mark is drawn in its place. */
            printf("channel %u is faulty: refusal %u at line %u\n", channel, no, line);
            n = with_mark(channel, without(channel, n));
        } else if (no == GP_NO_ROOM && room < most) {
            size_t more = room == 0 ? 1 : 2 * room < most ? 2 * room : most;
            printf("no room for more than %zu references: lending room for %zu\n", room, more);
            room = more;
        } else {
            fprintf(stderr, "the panel itself is at fault: %s (refusal %u in part %u)\n", gp_refusal_text(no), no, stage);
            return 0;
        }
    }
    /* A forgotten closing line would leak a fill across its strip, and a frame doesn't refuse it. */
    uint32_t no = gp_outlines(path_nos, n, coords, n * GP_LINE_FLOATS, PATHS, ends, PATHS * GP_OUTLINE_WORDS, &item);
    if (no != GP_DONE) {
        fprintf(stderr, "the panel itself is at fault: %s (refusal %u at line %u)\n", gp_refusal_text(no), no, item);
        return 0;
    }
    printf("frame: 0, lines %u, references %u\n", lines, *made);
    return 1;
}

/* The segments in a path's slots that have its channel's beam number on them. */
static uint32_t own_tags(void) {
    uint32_t own = 0;
    for (uint32_t t = 0; t < TILES; t++) {
        uint32_t beam = paths[GP_PATH_WORDS * (t / BOX) + GP_PATH_BEAM];
        for (uint32_t k = 0; k < tally[t]; k++) own += tags[~stored[t] + k] == beam;
    }
    return own;
}

/* A letter for a pixel: red is in its lowest byte, blue in its third; M, red and green, is a mark. */
static char letter(uint32_t p) {
    uint32_t red = p & 255, green = p >> 8 & 255, blue = p >> 16 & 255;
    if (p >> 24 < 64) return '.';
    return red && green ? 'M' : red > blue ? 'r' : blue ? 'b' : 'g';
}

/* A number from the command line, at most the room that there is. */
static size_t asked(int count, char **given, int which, size_t otherwise) {
    size_t number = which < count ? strtoul(given[which], NULL, 10) : otherwise;
    return number < MOST ? number : MOST;
}

int main(int count, char **given) {
    uint32_t made, item;
    for (size_t k = 0; k < TRACE_LINES; k++) placed(coords + GP_LINE_FLOATS * k, path_nos[k]);
    if (!framed(asked(count, given, 1, ROOM), asked(count, given, 2, MOST), &made)) return 1;

    /* Before anything is shown: every segment in a channel's slots has that channel's beam on it. */
    uint32_t own = own_tags();
    printf("tags: %u of %u segments are their own beam's\n", own, made);
    if (own != made) return 1;

    uint32_t no = gp_write_lists(paths, PATHS * GP_PATH_WORDS, paints, PATHS * GP_PAINT_WORDS, backdrops, TILES,
                                 stored, TILES, tally, TILES, COLS, ROWS, made, words, WORDS, &item);
    printf("lists: %u\n", no);
    if (no != GP_DONE) return 1;

    no = gp_fine(words, WORDS, segments, made * GP_SEGMENT_FLOATS, 16 * COLS, COLS, ROWS, 0, SCREEN,
                 pixels, 256 * SCREEN, &item);
    printf("fine: %u\n", no);
    if (no != GP_DONE) return 1;

    /* The margin isn't shown. */
    for (int y = 16 * MARGIN; y < 16 * (ROWS - MARGIN); y += 2) {
        for (int x = 16 * MARGIN; x < 16 * (COLS - MARGIN); x++) putchar(letter(pixels[16 * COLS * y + x]));
        putchar('\n');
    }
    return 0;
}
