/* Runs the archive's calls for a runner on another kind of processor.
 *
 * The archive is for x86-64. Where the runner isn't, this program is linked with it and run under an emulator;
 * it reads calls from standard input and writes the answers to standard output. It has no C library: only the two system calls.
 *
 * A call:   number, how many numbers, how many slices; the numbers; each slice's length in bytes; the slices' bytes.
 * Answer:   the refusal number, 1 if all guard bytes stand; the numbers, changed or not; the slices' bytes.
 */
typedef unsigned int u32;
typedef unsigned long usize;
typedef unsigned char uint8_t;
typedef unsigned int uint32_t;
typedef int int32_t;
typedef unsigned long size_t;

enum { NUMBERS = 16, SLICES = 8, GUARDS = 32, GUARD = 0xa5, MEMORY = 192u << 20 };

static unsigned char memory[MEMORY] __attribute__((aligned(16)));
static u32 numbers[NUMBERS];
static u32 lengths[SLICES];
static unsigned char *slices[SLICES];

void *memset(void *to, int c, usize n) {
    char *t = to;
    __asm__ volatile("rep stosb" : "+D"(t), "+c"(n) : "a"(c) : "memory");
    return to;
}

void *memcpy(void *to, const void *from, usize n) {
    char *t = to;
    __asm__ volatile("rep movsb" : "+D"(t), "+S"(from), "+c"(n) : : "memory");
    return to;
}

void *memmove(void *to, const void *from, usize n) {
    char *t = to;
    const char *f = from;
    if (t <= f || t >= f + n) return memcpy(to, from, n);
    while (n > 0) n--, t[n] = f[n];
    return to;
}

static long call(long number, long a, const void *b, usize c) {
    long answer;
    __asm__ volatile("syscall" : "=a"(answer) : "a"(number), "D"(a), "S"(b), "d"(c) : "rcx", "r11", "memory");
    return answer;
}

static void leave(void) {
    for (;;) call(60, 0, 0, 0);
}

static void take(void *to, usize bytes) {
    char *t = to;
    while (bytes > 0) {
        long n = call(0, 0, t, bytes);
        if (n <= 0) leave();
        t += n, bytes -= n;
    }
}

static void give(const void *from, usize bytes) {
    const char *f = from;
    while (bytes > 0) {
        long n = call(1, 1, f, bytes);
        if (n <= 0) leave();
        f += n, bytes -= n;
    }
}

static float as_float(u32 bits) {
    union { u32 u; float f; } v = { bits };
    return v.f;
}

static u32 as_bits(float f) {
    union { float f; u32 u; } v = { f };
    return v.u;
}

#define SLICE(k, type) (type *)slices[k], (size_t)(lengths[k] / sizeof(type))

#ifdef HAS_FLOATS
static u32 floats(void);
#endif

#include "server_calls.h"

#ifdef HAS_FLOATS
/* Slices 0 to 2 are operands, 3 the answers. */
static u32 floats(void) {
    u32 *operands[3] = { (u32 *)slices[0], (u32 *)slices[1], (u32 *)slices[2] };
    u32 *answers = (u32 *)slices[3];
    for (u32 k = 0; k < lengths[3] / 4; k++) answers[k] = one_float(numbers[0], operands[0][k], operands[1][k], operands[2][k]);
    return 0;
}
#endif

/* Guard bytes up to a place where any number may stand. */
static usize guarded(usize at) {
    usize end = (at + GUARDS + 15) / 16 * 16;
    while (at < end) memory[at++] = GUARD;
    return at;
}

static void serve(void) {
    u32 head[3];
    take(head, sizeof head);
    if (head[1] > NUMBERS || head[2] > SLICES) leave();
    take(numbers, 4 * head[1]);
    take(lengths, 4 * head[2]);
    usize at = guarded(0);
    for (u32 k = 0; k < head[2]; k++) {
        if (at + lengths[k] + 2 * (GUARDS + 16) > MEMORY) leave();
        slices[k] = memory + at;
        take(slices[k], lengths[k]);
        at = guarded(at + lengths[k]);
    }
    u32 answer[2] = { run(head[0]), 1 };
    for (u32 k = 0; k < head[2]; k++) {
        unsigned char *after = k + 1 < head[2] ? slices[k + 1] : memory + at;
        for (u32 g = 1; g <= GUARDS; g++)
            if (slices[k][-(long)g] != GUARD) answer[1] = 0;
        for (unsigned char *b = slices[k] + lengths[k]; b < after; b++)
            if (*b != GUARD) answer[1] = 0;
    }
    give(answer, sizeof answer);
    give(numbers, 4 * head[1]);
    for (u32 k = 0; k < head[2]; k++) give(slices[k], lengths[k]);
}

__attribute__((force_align_arg_pointer)) void _start(void) {
    for (;;) serve();
}
