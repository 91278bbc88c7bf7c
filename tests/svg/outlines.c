/* Our reader over texts on standard input, a line each: the depth, then the text's bytes in hex ("-" for none). Prints for each the
 * refusal number, the place, the number of lines, and the coordinates' bits in hex. For tests/svg/beside.py. */
#include "groatpocket.h"

#include <stdio.h>
#include <string.h>

enum { LINES = 1 << 16, BYTES = 1 << 16 };

static char line[2 * BYTES + 32];
static uint8_t text[BYTES];
static uint32_t path_nos[LINES];
static float coords[LINES * GP_LINE_FLOATS];

int main(void) {
    while (fgets(line, sizeof line, stdin) != NULL) {
        unsigned depth, byte;
        int at = 0;
        if (sscanf(line, "%u %n", &depth, &at) != 1) return 1;
        size_t n = 0, lines, place;
        for (char *hex = line + at; sscanf(hex, "%2x", &byte) == 1; hex += 2) text[n++] = (uint8_t)byte;
        uint32_t no = gp_svg_lines(text, n, depth, 0, path_nos, LINES, coords, LINES * GP_LINE_FLOATS, &lines, &place);
        printf("%u %zu %zu", no, place, lines);
        for (size_t k = 0; k < GP_LINE_FLOATS * lines; k++) {
            uint32_t bits;
            memcpy(&bits, coords + k, sizeof bits);
            printf(" %08x", bits);
        }
        putchar('\n');
    }
    return 0;
}
