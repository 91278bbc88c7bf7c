// The scene by AGG (Debian's libagg-dev): its scan converter with 256 levels of coverage, solid colours, an RGBA picture multiplied by alpha.
#include "panel.h"

#include <agg_basics.h>
#include <agg_color_rgba.h>
#include <agg_pixfmt_rgba.h>
#include <agg_rasterizer_scanline_aa.h>
#include <agg_renderer_base.h>
#include <agg_renderer_scanline.h>
#include <agg_rendering_buffer.h>
#include <agg_scanline_u.h>

void agg_paint(const scene *scene, uint8_t *pixels) {
    typedef agg::pixfmt_rgba32_pre Format;
    typedef agg::renderer_base<Format> Base;
    agg::rendering_buffer buffer(pixels, WIDTH, HEIGHT, 4 * WIDTH);
    Format format(buffer);
    Base base(format);
    base.clear(agg::rgba8(0, 0, 0, 0));
    agg::rasterizer_scanline_aa<> rasterizer;
    rasterizer.clip_box(0, 0, WIDTH, HEIGHT);
    agg::scanline_u8 line;
    agg::renderer_scanline_aa_solid<Base> paint(base);
    for (size_t p = 0; p < scene->many; p++) {
        const polygon &one = scene->polygons[p];
        rasterizer.reset();
        rasterizer.filling_rule(agg::fill_non_zero);
        rasterizer.move_to_d(one.points[0], one.points[1]);
        for (size_t k = 1; k < one.corners; k++) {
            rasterizer.line_to_d(one.points[2 * k], one.points[2 * k + 1]);
        }
        rasterizer.close_polygon();
        agg::rgba8 colour(one.red, one.green, one.blue, one.alpha);
        paint.color(colour.premultiply());
        agg::render_scanlines(rasterizer, line, paint);
    }
}
