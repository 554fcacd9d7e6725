/* What guard.c stands on: failures, random choices, and slices that are lent so that no byte beside them can be touched unseen. */
#ifndef LEND_H
#define LEND_H

#include <stdint.h>
#include <stdio.h>
#include <stdlib.h>
#include <string.h>
#include <sys/mman.h>
#include <unistd.h>

#define LONGEST 16777216 /* an image's longest length */
#define TRAILER 32

typedef unsigned long long ull;

/* Failures. */

static ull seed, round_number;

static void must(int holds, const char *what)
{
    if (!holds) {
        printf("guard: FAILED in round %llu of seed %llu: %s\n", round_number, seed, what);
        exit(1);
    }
}

/* Random choices. No list for ONE_OF calls them, so that their order is fixed. */

static uint64_t state;

static uint64_t any(void)
{
    uint64_t z = state += 0x9e3779b97f4a7c15;
    z = (z ^ z >> 30) * 0xbf58476d1ce4e5b9;
    z = (z ^ z >> 27) * 0x94d049bb133111eb;
    return z ^ z >> 31;
}

static uint64_t below(uint64_t n)
{
    return any() % n;
}

#define ONE_OF(...) (((const uint64_t[]){__VA_ARGS__})[below(sizeof((const uint64_t[]){__VA_ARGS__}) / sizeof(uint64_t))])

static void fill(void *at, size_t n)
{
    for (size_t i = 0; i < n; i++) {
        ((uint8_t *)at)[i] = (uint8_t)any();
    }
}

/* Slices that are lent: room for each kind, at both sides. */

enum { AT_END, AT_START, SIDES };
enum { IMAGE, CURSOR, KEY, NUMBERS, BUF, BOUND, OUT, SHEET, BUILT, SLICES };
enum { ROOM = 131072 }; /* of a sheet, and of the image that is built from it */

static int heap;
static uint8_t *room[SLICES][SIDES];
static size_t room_len[SLICES];

static void make_rooms(void)
{
    size_t page = (size_t)sysconf(_SC_PAGESIZE);
    for (int slice = 0; slice < SLICES && !heap; slice++) {
        room_len[slice] = slice == IMAGE ? LONGEST + page : slice >= SHEET ? ROOM : page;
        for (int side = 0; side < SIDES; side++) {
            uint8_t *all = mmap(NULL, room_len[slice] + 2 * page, PROT_NONE, MAP_PRIVATE | MAP_ANONYMOUS, -1, 0);
            must(all != MAP_FAILED && mprotect(all + page, room_len[slice], PROT_READ | PROT_WRITE) == 0, "no memory");
            room[slice][side] = all + page;
        }
    }
}

static void *lend(int slice, int side, const void *bytes, size_t n)
{
    uint8_t *at = room[slice][side];
    if (heap) {
        free(at);
        at = room[slice][side] = malloc(n);
        must(at != NULL, "no memory");
    } else if (side == AT_END) {
        at += room_len[slice] - n;
    }
    memcpy(at, bytes, n);
    return at;
}

/* The image of a round, and where it is lent. */

static uint8_t image[LONGEST + 8];
static size_t image_len;
static uint8_t *lent[SIDES];

static void show(size_t len)
{
    image_len = len;
    for (int side = 0; side < SIDES; side++) {
        lent[side] = lend(IMAGE, side, image, len);
    }
}

static void unchanged(void)
{
    for (int side = 0; side < SIDES; side++) {
        must(memcmp(lent[side], image, image_len) == 0, "the image was written");
    }
}

static uint64_t word(const uint8_t *at)
{
    uint64_t n;
    memcpy(&n, at, sizeof n);
    return n;
}

static void put(uint8_t *at, uint64_t n, size_t width)
{
    memcpy(at, &n, width);
}

/* 01's numbers 1 and 2, or 0. */
static int heading(void)
{
    if (image_len < 440 || image_len > LONGEST || image_len % 8 != 0) {
        return 1;
    }
    return word(image + image_len - 16) != image_len || word(image + image_len - 8) != 1 ? 2 : 0;
}

#endif
