/* A panel's picture, lines to pixels, beside what a shop would use instead: AGG, cairo and tiny-skia.
 *
 *     tests/panel/run [ROUNDS]
 *
 * Four scenes of 1920 by 1080: 64 channels of 1,000 samples, each the area under its trace, over a ground. One thread. All paint the same
 * polygons in one process, in turn, round by round; times are medians of the thread's own time. Ours is gp_frame, gp_write_lists and gp_fine,
 * each timed. Then how far the pixels differ, of 255 levels: the largest and the mean over all channels. */
#include "groatpocket.h"
#include "panel.h"

#include <cairo.h>
#include <math.h>
#include <stdio.h>
#include <stdlib.h>
#include <string.h>
#include <time.h>

#define TILE 16u
#define CHANNELS 64u
#define SAMPLES 1000u
#define COLS ((WIDTH + TILE - 1) / TILE)
#define ROWS ((HEIGHT + TILE - 1) / TILE)
#define MOST_ROUNDS 999

static void *room(size_t many, size_t size) {
    void *found = calloc(many + 1, size);
    if (!found) {
        fprintf(stderr, "no memory\n");
        exit(1);
    }
    return found;
}

static double seconds(void) {
    struct timespec t;
    clock_gettime(CLOCK_THREAD_CPUTIME_ID, &t);
    return (double)t.tv_sec + 1e-9 * (double)t.tv_nsec;
}

static int upward(const void *a, const void *b) {
    double x = *(const double *)a, y = *(const double *)b;
    return x < y ? -1 : x > y;
}

/* ---- the scenes */

static uint32_t drawn;

static float any(void) { /* 0 to 1 */
    drawn = drawn * 1664525u + 1013904223u;
    return (float)(drawn >> 8) / 16777216.0f;
}

/* The area under a trace in a box: waves, and so much noise, both parts of the box's height. */
static struct polygon area(float x, float y, float w, float h, unsigned channel, float noise, uint8_t alpha) {
    float *at = room(2 * (SAMPLES + 2), sizeof *at);
    struct polygon one = {at, SAMPLES + 2, (uint8_t)(40 + 23 * channel % 200), (uint8_t)(60 + 37 * channel % 190), (uint8_t)(80 + 51 * channel % 170), alpha};
    float turns = 2.0f + (float)(channel % 5), phase = 0.37f * (float)channel;
    for (unsigned k = 0; k < SAMPLES; k++) {
        float along = (float)k / (float)(SAMPLES - 1);
        float wave = 0.5f + 0.25f * sinf(6.2831853f * turns * along + phase) + 0.08f * sinf(17.0f * turns * along);
        at[2 * k] = x + w * along;
        at[2 * k + 1] = y + h * (wave + noise * (any() - 0.5f));
    }
    at[2 * SAMPLES] = x + w;
    at[2 * SAMPLES + 1] = y + h;
    at[2 * SAMPLES + 2] = x;
    at[2 * SAMPLES + 3] = y + h;
    return one;
}

enum kind { SMOOTH_CELLS, ROUGH_CELLS, STRIPS, BANDS, KINDS };

static struct scene scene_of(enum kind kind) {
    static const float noise[KINDS] = {0.0f, 0.3f, 0.3f, 0.1f};
    static const char *names[KINDS] = {"64 cells, smooth", "64 cells, rough", "64 strips", "4 bands of 16 overlaid"};
    struct scene s = {names[kind], room(CHANNELS + 1, sizeof(struct polygon)), CHANNELS + 1};
    float *ground = room(8, sizeof *ground);
    const float corners[8] = {0, 0, WIDTH, 0, WIDTH, HEIGHT, 0, HEIGHT};
    memcpy(ground, corners, sizeof corners);
    s.polygons[0] = (struct polygon){ground, 4, 16, 20, 24, 255};
    drawn = 1;
    for (unsigned c = 0; c < CHANNELS; c++) {
        float w = WIDTH, h = (float)HEIGHT / 64, x = 0, y = h * (float)c;
        if (kind == SMOOTH_CELLS || kind == ROUGH_CELLS) {
            w = (float)WIDTH / 8;
            h = (float)HEIGHT / 8;
            x = w * (float)(c % 8);
            y = h * (float)(c / 8);
        } else if (kind == BANDS) {
            h = (float)HEIGHT / 4;
            y = h * (float)(c / 16);
        }
        s.polygons[c + 1] = area(x, y, w, h, c, noise[kind], kind == BANDS ? 128 : 255);
    }
    return s;
}

/* ---- ours */

struct ours {
    size_t lines, paths, tiles, made;
    uint32_t *path_nos, *boxes, *paints, *stored, *tally, *refs, *tags, *words, *pixels;
    float *coords, *segments;
    int32_t *backdrops;
    size_t words_len, pixels_len;
};

/* A path's box in tiles: those that its corners touch. */
static void box_of(const struct polygon *p, uint32_t box[4]) {
    float lo[2] = {1e9f, 1e9f}, hi[2] = {-1e9f, -1e9f};
    for (size_t k = 0; k < 2 * p->corners; k++) {
        lo[k % 2] = fminf(lo[k % 2], p->points[k]);
        hi[k % 2] = fmaxf(hi[k % 2], p->points[k]);
    }
    for (int d = 0; d < 2; d++) {
        box[d] = (uint32_t)floorf(lo[d] / TILE);
        box[2 + d] = (uint32_t)ceilf(hi[d] / TILE);
    }
}

static uint8_t times(uint8_t colour, uint8_t alpha) { return (uint8_t)((colour * alpha + 127) / 255); }

static struct ours ours_of(const struct scene *s) {
    struct ours o = {0};
    for (size_t p = 0; p < s->many; p++) {
        o.lines += s->polygons[p].corners;
    }
    o.paths = s->many;
    o.path_nos = room(o.lines, 4);
    o.coords = room(GP_LINE_FLOATS * o.lines, 4);
    o.boxes = room(GP_PATH_WORDS * o.paths, 4);
    o.paints = room(GP_PAINT_WORDS * o.paths, 4);
    size_t line = 0;
    for (size_t p = 0; p < s->many; p++) {
        const struct polygon *one = &s->polygons[p];
        uint32_t box[4];
        box_of(one, box);
        const uint32_t path[GP_PATH_WORDS] = {GP_PATH(box[0], box[1], box[2], box[3], (uint32_t)o.tiles, (uint32_t)p)};
        memcpy(o.boxes + GP_PATH_WORDS * p, path, sizeof path);
        o.tiles += (size_t)(box[2] - box[0]) * (box[3] - box[1]);
        uint32_t r = times(one->red, one->alpha), g = times(one->green, one->alpha), b = times(one->blue, one->alpha);
        o.paints[GP_PAINT_WORDS * p + GP_PAINT_COLOUR] = r << 24 | g << 16 | b << 8 | one->alpha;
        for (size_t k = 0; k < one->corners; k++, line++) {
            size_t next = (k + 1) % one->corners;
            o.path_nos[line] = (uint32_t)p;
            memcpy(o.coords + GP_LINE_FLOATS * line, one->points + 2 * k, 8);
            memcpy(o.coords + GP_LINE_FLOATS * line + GP_LINE_FLOATS / 2, one->points + 2 * next, 8);
        }
    }
    o.backdrops = room(o.tiles, 4);
    o.stored = room(o.tiles, 4);
    o.tally = room(o.tiles, 4);
    o.made = 4000000;
    o.refs = room(GP_REF_WORDS * o.made, 4);
    o.segments = room(GP_SEGMENT_FLOATS * o.made, 4);
    o.tags = room(o.made, 4);
    o.words_len = (size_t)GP_TILE_WORDS * COLS * ROWS * (1 + (o.paths + 9) / 10);
    o.words = room(o.words_len, 4);
    o.pixels_len = (size_t)WIDTH * ROWS * TILE;
    o.pixels = room(o.pixels_len, 4);
    return o;
}

static void done(const char *call, uint32_t answer, uint32_t item) {
    if (answer != GP_DONE) {
        fprintf(stderr, "%s refuses: %u, item %u\n", call, answer, item);
        exit(1);
    }
}

/* The seconds of gp_frame, gp_write_lists and gp_fine. */
static void ours_paint(struct ours *o, double took[3]) {
    uint32_t stage, item, lines, made;
    double t0 = seconds();
    uint32_t a = gp_frame(o->path_nos, o->lines, o->coords, GP_LINE_FLOATS * o->lines, o->boxes, GP_PATH_WORDS * o->paths, o->backdrops, o->tiles,
                          o->stored, o->tiles, o->tally, o->tiles, o->refs, GP_REF_WORDS * o->made, o->segments, GP_SEGMENT_FLOATS * o->made, o->tags, o->made,
                          &stage, &item, &lines, &made);
    double t1 = seconds();
    done("gp_frame", a, item);
    double t2 = seconds();
    a = gp_write_lists(o->boxes, GP_PATH_WORDS * o->paths, o->paints, GP_PAINT_WORDS * o->paths, o->backdrops, o->tiles, o->stored, o->tiles, o->tally,
                       o->tiles, COLS, ROWS, made, o->words, o->words_len, &item);
    double t3 = seconds();
    done("gp_write_lists", a, item);
    double t4 = seconds();
    a = gp_fine(o->words, o->words_len, o->segments, GP_SEGMENT_FLOATS * (size_t)made, WIDTH, COLS, ROWS, 0, COLS * ROWS, o->pixels, o->pixels_len, &item);
    double t5 = seconds();
    done("gp_fine", a, item);
    took[0] = t1 - t0;
    took[1] = t3 - t2;
    took[2] = t5 - t4;
}

/* ---- cairo, with its default antialiasing */

static cairo_surface_t *surface;

static void cairo_paint_scene(const struct scene *s) {
    cairo_t *cr = cairo_create(surface);
    cairo_set_operator(cr, CAIRO_OPERATOR_CLEAR);
    cairo_paint(cr);
    cairo_set_operator(cr, CAIRO_OPERATOR_OVER);
    for (size_t p = 0; p < s->many; p++) {
        const struct polygon *one = &s->polygons[p];
        cairo_set_source_rgba(cr, one->red / 255.0, one->green / 255.0, one->blue / 255.0, one->alpha / 255.0);
        cairo_move_to(cr, one->points[0], one->points[1]);
        for (size_t k = 1; k < one->corners; k++) {
            cairo_line_to(cr, one->points[2 * k], one->points[2 * k + 1]);
        }
        cairo_close_path(cr);
        cairo_fill(cr);
    }
    cairo_destroy(cr);
    cairo_surface_flush(surface);
}

/* ---- beside each other */

/* How far theirs is from ours; of a pixel's bytes red is at order[0], and so on. */
struct apart {
    int most;
    double mean;
};

static struct apart apart_of(const struct ours *o, const uint8_t *theirs, const int order[4]) {
    struct apart found = {0, 0};
    for (size_t k = 0; k < (size_t)WIDTH * HEIGHT; k++) {
        for (int c = 0; c < 4; c++) {
            int d = abs((int)(o->pixels[k] >> (8 * c) & 255) - (int)theirs[4 * k + (size_t)order[c]]);
            found.most = d > found.most ? d : found.most;
            found.mean += d;
        }
    }
    found.mean /= 4.0 * WIDTH * HEIGHT;
    return found;
}

static double median(double *of, int many) {
    qsort(of, (size_t)many, sizeof *of, upward);
    return 1e3 * of[many / 2];
}

#define SIDES 7 /* frame, lists, fine, their sum, AGG, cairo, tiny-skia */

static void row(const char *name, double all[SIDES][MOST_ROUNDS], int rounds, int skia) {
    double m[SIDES], low[2] = {1e9, 1e9}, high[2] = {0, 0};
    for (int k = 0; k < rounds; k++) {
        for (int j = 0; j < 2; j++) {
            double ratio = all[3][k] / all[4 + j][k];
            low[j] = ratio < low[j] ? ratio : low[j];
            high[j] = ratio > high[j] ? ratio : high[j];
        }
    }
    for (int j = 0; j < SIDES; j++) {
        m[j] = median(all[j], rounds);
    }
    printf("| %s | %.1f | %.1f / %.1f / %.1f | %.1f | %.1f | ", name, m[3], m[0], m[1], m[2], m[4], m[5]);
    printf(skia ? "%.1f | " : "- | ", m[6]);
    printf("%.2f (%.2f to %.2f) | %.2f (%.2f to %.2f) | ", m[3] / m[4], low[0], high[0], m[3] / m[5], low[1], high[1]);
    printf(skia ? "%.2f |\n" : "- |\n", m[3] / m[6]);
}

int main(int count, char **words) {
    int rounds = count > 1 ? atoi(words[1]) : 15;
    rounds = rounds < 1 ? 1 : rounds > MOST_ROUNDS ? MOST_ROUNDS : rounds;
    static double all[SIDES][MOST_ROUNDS];
    uint8_t *by_agg = room((size_t)WIDTH * HEIGHT, 4), *by_skia = room((size_t)WIDTH * HEIGHT, 4);
    surface = cairo_image_surface_create(CAIRO_FORMAT_ARGB32, WIDTH, HEIGHT);
    static struct apart apart[KINDS][3];
    const char *names[KINDS];
    static const int rgba[4] = {0, 1, 2, 3}, bgra[4] = {2, 1, 0, 3};
#ifdef WITH_SKIA
    const int skia = 1;
#else
    const int skia = 0;
#endif
    printf("| Scene | ours, ms | frame / lists / fine | AGG | cairo | tiny-skia | to AGG | to cairo | to tiny-skia |\n|---|---|---|---|---|---|---|---|---|\n");
    for (int kind = 0; kind < KINDS; kind++) {
        struct scene s = scene_of((enum kind)kind);
        struct ours o = ours_of(&s);
        for (int k = -1; k < rounds; k++) { /* the first round warms up */
            int at = k < 0 ? 0 : k;
            double took[3], t0, t1;
            ours_paint(&o, took);
            for (int j = 0; j < 3; j++) {
                all[j][at] = took[j];
            }
            all[3][at] = took[0] + took[1] + took[2];
            t0 = seconds();
            agg_paint(&s, by_agg);
            t1 = seconds();
            all[4][at] = t1 - t0;
            cairo_paint_scene(&s);
            t0 = seconds();
            all[5][at] = t0 - t1;
#ifdef WITH_SKIA
            skia_paint(s.polygons, s.many, WIDTH, HEIGHT, by_skia);
            all[6][at] = seconds() - t0;
#endif
        }
        row(s.name, all, rounds, skia);
        names[kind] = s.name;
        apart[kind][0] = apart_of(&o, by_agg, rgba);
        apart[kind][1] = apart_of(&o, cairo_image_surface_get_data(surface), bgra);
        apart[kind][2] = apart_of(&o, by_skia, rgba);
    }
    printf("\n| Levels of 255 apart, largest and mean | AGG | cairo | tiny-skia |\n|---|---|---|---|\n");
    for (int kind = 0; kind < KINDS; kind++) {
        printf("| %s |", names[kind]);
        for (int j = 0; j < 2 + skia; j++) {
            printf(" %d, %.2f |", apart[kind][j].most, apart[kind][j].mean);
        }
        printf(skia ? "\n" : " - |\n");
    }
    return 0;
}
