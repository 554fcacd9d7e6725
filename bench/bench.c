/* Times the proved library over one image: bench IMAGE REPEATS [FORM].
 *
 * A form goes over the whole image. All forms (or the one named) take turns, REPEATS times, and for each a line is printed:
 *   IMAGE FORM keys N bytes N ns BEST sum N
 * BEST is the shortest of its runs. Every run must count as many keys as the trailer states, or the program stops: an image for it has
 * no dead slot and no empty key. The sum is 0 but for pb_step, which alone sees the keys: value, key length and last byte of every
 * key, over all repeats, with wrap, as the Rust's bench has its checksum. */
#include "common.h"

/* crates/bench_loops: the keys of a walk over the whole image, by the step by value (0) or lent (1), and by the tally's loop. */
uint64_t timed_walk(const uint8_t *image, size_t image_len, uint8_t form);
uint64_t timed_count(const uint8_t *image, size_t image_len, uint8_t kind, const uint8_t *bound, size_t bound_len);

static uint64_t sum;
static volatile uint64_t kept;

static uint64_t tally(const uint8_t *image, size_t len)
{
    const uint8_t none[1] = {0};
    uint64_t out[1] = {0};
    return pb_tally(image, len, none, 0, PB_UNBOUNDED, none, 0, out, 1) == 0 ? out[0] : 0;
}

static uint64_t check(const uint8_t *image, size_t len)
{
    uint64_t counts[3] = {0, 0, 0};
    return pb_check(image, len, counts, 3) == 0 ? counts[1] : 0;
}

static uint64_t step(const uint8_t *image, size_t len)
{
    return timed_walk(image, len, 0);
}

static uint64_t lent(const uint8_t *image, size_t len)
{
    return timed_walk(image, len, 1);
}

/* A call from C for each key. */
static uint64_t pb_steps(const uint8_t *image, size_t len)
{
    const uint8_t none[1] = {0};
    return stepped(image, len, PB_UNBOUNDED, none, 0, &sum);
}

/* The tally's loop. */
static uint64_t count(const uint8_t *image, size_t len)
{
    const uint8_t none[1] = {0};
    return timed_count(image, len, PB_UNBOUNDED, none, 0);
}

/* A plain read: the sum of the image's 64-bit words. */
static uint64_t plain(const uint8_t *image, size_t len)
{
    uint64_t all = 0;
    for (size_t i = 0; i < len; i += 8) {
        all += word(image + i);
    }
    kept = all;
    return stated(image, len);
}

static const struct form {
    const char *name;
    uint64_t (*run)(const uint8_t *image, size_t len);
} forms[] = {{"count", count}, {"tally", tally}, {"check", check}, {"step", step}, {"lent", lent}, {"pb_step", pb_steps}, {"plain", plain}};

enum { FORMS = sizeof forms / sizeof forms[0] };

/* Not inlined, so that bench/callgrind can name it. */
__attribute__((noinline)) uint64_t one_run(const struct form *form, const uint8_t *image, size_t len);
uint64_t one_run(const struct form *form, const uint8_t *image, size_t len)
{
    return form->run(image, len);
}

int main(int argc, char **argv)
{
    size_t len = 0;
    uint8_t *image = argc == 3 || argc == 4 ? read_image(argv[1], &len) : NULL;
    int repeats = image ? atoi(argv[2]) : 0;
    if (repeats < 1 || len < 440 || len % 8 != 0) {
        fprintf(stderr, "usage: bench IMAGE REPEATS [FORM]\n");
        return 2;
    }
    const char *only = argc == 4 ? argv[3] : NULL;
    double best[FORMS] = {0};
    uint64_t sums[FORMS] = {0};
    for (int r = 0; r < repeats; r++) {
        for (int i = 0; i < FORMS; i++) {
            if (only && strcmp(only, forms[i].name) != 0) {
                continue;
            }
            sum = 0;
            double t = now();
            uint64_t keys = one_run(&forms[i], image, len);
            t = now() - t;
            if (keys != stated(image, len)) {
                fprintf(stderr, "%s: %s counts %llu keys, the trailer %llu\n", argv[1], forms[i].name, (unsigned long long)keys,
                        (unsigned long long)stated(image, len));
                return 1;
            }
            sums[i] += sum;
            if (r == 0 || t < best[i]) {
                best[i] = t;
            }
        }
    }
    for (int i = 0; i < FORMS; i++) {
        if (best[i] > 0) {
            printf("%s %s keys %llu bytes %zu ns %.0f sum %llu\n", argv[1], forms[i].name, (unsigned long long)stated(image, len), len,
                   best[i], (unsigned long long)sums[i]);
        }
    }
    free(image);
    return 0;
}
