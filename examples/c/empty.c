/* Slices of no elements, lent as NULL and 0; the version, a refusal in words, a paint, and a float helper. Valid as C and as
 * C++, and examples/run compiles it as both. Build from the project's root, once `./archive` has written the archive:
 *
 *     cc -std=c11 -Wall -Wextra -Werror -pedantic -Iinclude examples/c/empty.c \
 *         target/staticlib/libgroatpocket.a -o target/empty && target/empty
 */
#include "groatpocket.h"

#include <stdio.h>

static void say(const char *call, uint32_t no) {
    printf("%s: %u, %s\n", call, (unsigned)no, gp_refusal_text(no));
}

int main(void) {
    uint32_t stage = 9, item = 9, lines = 9, made = 9, width = 9, height = 9, pixel = 9;
    size_t size = 9, outline = 9, place = 9;
    float area = 9;

    /* A frame of no line and no path; then the lists and the pixels of a screen of no tile. */
    say("frame", gp_frame(NULL, 0, NULL, 0, NULL, 0, NULL, 0, NULL, 0, NULL, 0, NULL, 0, NULL, 0, NULL, 0, &stage, &item, &lines, &made));
    printf("stage %u, item %u, lines %u, references %u\n", (unsigned)stage, (unsigned)item, (unsigned)lines, (unsigned)made);
    say("write_lists", gp_write_lists(NULL, 0, NULL, 0, NULL, 0, NULL, 0, NULL, 0, 0, 0, 0, NULL, 0, &item));
    say("fine", gp_fine(NULL, 0, NULL, 0, 0, 0, 0, 0, 0, NULL, 0, &item));

    /* The stages one by one. */
    lines = made = 0;
    say("count", gp_count(NULL, 0, NULL, 0, NULL, 0, NULL, 0, NULL, 0, NULL, 0, 0, &lines, &made, &item));
    say("backdrop", gp_backdrop(NULL, 0, NULL, 0, &item));
    say("hand_out", gp_hand_out(NULL, 0, NULL, 0, 0));
    say("tile", gp_tile(NULL, 0, NULL, 0, NULL, 0, NULL, 0, NULL, 0, 0, 0, NULL, 0, NULL, 0, &item));

    /* Refused, each for its own reason, and nothing is touched. */
    say("fill", gp_fill(NULL, 0, 0, 0, 0, 0, 0, 0, NULL, 0));
    say("pixel", gp_pixel(NULL, 0, NULL, 0, 0, 0, 0, &pixel));
    say("ppm_write", gp_ppm_write(NULL, 0, 1, 1, NULL, 0, &size));
    say("ppm_read", gp_ppm_read(NULL, 0, NULL, 0, &width, &height));

    /* The empty text is an outline of no line. */
    say("svg_lines", gp_svg_lines(NULL, 0, 0, 0, NULL, 0, NULL, 0, &outline, &place));

    /* No segment, and a backdrop that covers. */
    say("pixel_area", gp_pixel_area(NULL, 0, 0, 0, 0, 1, 0, 0, GP_TILE - 1, 0, &area));
    printf("coverage %g, rounded %g\n", (double)area, (double)gp_round(area));

    /* A red half seen through: premultiplied, red in the high byte. */
    printf("paint %08x\n", (unsigned)GP_PAINT(255, 0, 0, 128));

    /* The header and the archive are of one version. */
    printf("version %s: header %u, archive %u\n", GP_VERSION, (unsigned)GP_VERSION_NUMBER, (unsigned)gp_version());
    return 0;
}
