/* When the functions of wrong.c answer wrongly: GROATPOCKET_WRONG names a call and a part of its answer, such as
 * "count refs" or "fine item", and GROATPOCKET_WRONG_EACH says that each so manieth time is wrong at which the call gives
 * that part. */
#include <stddef.h>
#include <stdint.h>
#include <stdlib.h>
#include <string.h>

static int strikes(const char *part, int given) {
    static unsigned long times;
    const char *wanted = getenv("GROATPOCKET_WRONG"), *each = getenv("GROATPOCKET_WRONG_EACH");
    if (!given || !wanted || !each || strcmp(wanted, part) != 0) return 0;
    return __atomic_add_fetch(&times, 1, __ATOMIC_RELAXED) % strtoul(each, 0, 10) == 0;
}

/* The lowest bit of an element, whatever it is. */
static void flip(void *element) {
    *(unsigned char *)element ^= 1;
}
