/* What the programs here share: the clock, an image read from a file, and a walk by steps. */
#ifndef BENCH_COMMON_H
#define BENCH_COMMON_H

#define _POSIX_C_SOURCE 199309L /* clock_gettime */
#include <stdio.h>
#include <stdlib.h>
#include <string.h>
#include <time.h>

#include "punchbronze.h"

/* The places of a step's answer. A library from before 02 [13], whose record has fewer numbers, asks for four. */
enum { ANSWER = PB_NUMBERS < 76 ? 4 : 6 };

static inline uint64_t word(const uint8_t *at)
{
    uint64_t w;
    memcpy(&w, at, 8);
    return w;
}

/* The trailer's key count. */
static inline uint64_t stated(const uint8_t *image, size_t len)
{
    return word(image + len - 24);
}

/* Nanoseconds. */
static inline double now(void)
{
    struct timespec t;
    clock_gettime(CLOCK_MONOTONIC, &t);
    return (double)t.tv_sec * 1e9 + (double)t.tv_nsec;
}

/* The file's bytes, at the start of a memory page. */
static inline uint8_t *read_image(const char *name, size_t *len)
{
    FILE *f = fopen(name, "rb");
    if (!f) {
        return NULL;
    }
    uint8_t *bytes = aligned_alloc(4096, (size_t)1 << 24);
    *len = bytes ? fread(bytes, 1, (size_t)1 << 24, f) : 0;
    fclose(f);
    return bytes;
}

/* The keys of a walk above the empty name, with a call from C for each; value, key length and last byte of every key are added to the
 * sum, with wrap. */
static inline uint64_t stepped(const uint8_t *image, size_t len, uint8_t kind, const uint8_t *bound, size_t bound_len, uint64_t *sum)
{
    const uint8_t none[1] = {0};
    pb_walk w;
    uint64_t keys = 0, out[ANSWER];
    if (pb_place_above(image, len, none, 0, kind, bound, bound_len, w.numbers, PB_NUMBERS, w.buf, PB_BUFFER, w.bound, PB_BUFFER) != 0) {
        return 0;
    }
    while (pb_step(w.numbers, PB_NUMBERS, w.buf, PB_BUFFER, w.bound, PB_BUFFER, image, len, out, ANSWER) == 0 && out[0] == 1) {
        keys++;
        *sum += out[2] + out[1] + (out[1] != 0 ? w.buf[out[1] - 1] : 0);
    }
    return keys;
}

#endif
