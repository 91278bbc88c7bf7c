/* A scene: polygons, each filled in one colour by the non-zero rule, in painting order. All rasterizers get these same
 * polygons. */
#ifndef PANEL_H
#define PANEL_H

#include <stddef.h>
#include <stdint.h>

#define WIDTH 1920u
#define HEIGHT 1080u

struct polygon {
    const float *points; /* x, y of each corner, in pixels */
    size_t corners;
    uint8_t red, green, blue, alpha; /* colours not yet multiplied by alpha */
};

struct scene {
    const char *name;
    struct polygon *polygons;
    size_t many;
};

#ifdef __cplusplus
extern "C" {
#endif

/* Each paints the scene over a clear picture of WIDTH by HEIGHT: bytes red, green, blue, alpha, multiplied by alpha. */
void agg_paint(const struct scene *scene, uint8_t *pixels);
void skia_paint(const struct polygon *polygons, size_t many, uint32_t width, uint32_t height, uint8_t *pixels);

#ifdef __cplusplus
}
#endif

#endif
