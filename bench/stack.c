/* How much stack the calls take: stack IMAGE. Each call is made on a stack of its own that was painted before; what is no longer painted was
 * used. Prints the bytes of pb_check, pb_place_from, the deepest pb_step of a whole walk, and pb_tally. Build with the static library and
 * -lpthread (bench/run --stack does). */
#define _POSIX_C_SOURCE 200809L

#include <pthread.h>
#include <stdio.h>
#include <stdlib.h>
#include <string.h>

#include "punchbronze.h"

#define STACK (4u << 20)
#define PAINT 0xa5

static uint8_t *image;
static size_t image_len;
static pb_walk walk;
static uint64_t out[6];
static const uint8_t none[1];

static void *nothing(void *unused)
{
    return unused;
}

static void *check(void *unused)
{
    uint64_t counts[3];
    if (pb_check(image, image_len, counts, 3) != 0) {
        fprintf(stderr, "the check declines the image\n");
        exit(1);
    }
    return unused;
}

static void *place(void *unused)
{
    pb_place_from(image, image_len, none, 0, PB_UNBOUNDED, none, 0, walk.numbers, PB_NUMBERS, walk.buf, PB_BUFFER, walk.bound, PB_BUFFER);
    return unused;
}

static void *step(void *unused)
{
    pb_step(walk.numbers, PB_NUMBERS, walk.buf, PB_BUFFER, walk.bound, PB_BUFFER, image, image_len, out, 6);
    return unused;
}

static void *tally(void *unused)
{
    uint64_t count[1];
    pb_tally(image, image_len, none, 0, PB_UNBOUNDED, none, 0, count, 1);
    return unused;
}

/* The bytes of stack that a thread leaves without paint. */
static size_t used(void *(*call)(void *))
{
    static uint8_t *stack;
    if (!stack && posix_memalign((void **)&stack, 4096, STACK) != 0) {
        exit(2);
    }
    memset(stack, PAINT, STACK);
    pthread_attr_t attr;
    pthread_t thread;
    pthread_attr_init(&attr);
    pthread_attr_setstack(&attr, stack, STACK);
    if (pthread_create(&thread, &attr, call, NULL) != 0) {
        exit(2);
    }
    pthread_join(thread, NULL);
    pthread_attr_destroy(&attr);
    size_t at = 0;
    while (at < STACK && stack[at] == PAINT) {
        at++;
    }
    return STACK - at;
}

int main(int argc, char **argv)
{
    FILE *f = argc == 2 ? fopen(argv[1], "rb") : NULL;
    if (!f) {
        fprintf(stderr, "usage: stack IMAGE\n");
        return 2;
    }
    image = malloc(16777216);
    image_len = fread(image, 1, 16777216, f);
    fclose(f);
    size_t thread = used(nothing);
    printf("check %zu\n", used(check) - thread);
    printf("place %zu\n", used(place) - thread);
    size_t deepest = 0;
    do {
        size_t n = used(step) - thread;
        deepest = n > deepest ? n : deepest;
    } while (out[0] == 1);
    printf("step %zu\n", deepest);
    printf("tally %zu\n", used(tally) - thread);
    return 0;
}
