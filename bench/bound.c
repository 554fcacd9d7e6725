/* Times the bound test, and walks that end at a bound:
 *   bound rows FILE WIDTH REPEATS KIND BOUND    the test by itself, on every name of a file, a row of WIDTH bytes each
 *   bound walk IMAGE REPEATS KIND BOUND         walks above the empty name
 *
 * BOUND is in hex, or `-`. Each form runs REPEATS times, and a line is printed with the shortest of its runs:
 *   FILE FORM keys N ns BEST sum N
 * Rows count the names that the bound admits. The sum is 0 but for pb_step: value, key length and last byte of every key, over all
 * repeats, with wrap, as the Rust's bench has its checksum. */
#include "common.h"

/* crates/bench_loops: the names that a bound admits, and the keys of a walk above the empty name by the tally's loop. */
uint64_t timed_bound(const uint8_t *names, size_t names_len, size_t width, uint8_t kind, const uint8_t *bound, size_t bound_len);
uint64_t timed_count(const uint8_t *image, size_t image_len, uint8_t kind, const uint8_t *bound, size_t bound_len);

static struct asked {
    const uint8_t *bytes; /* the image or the rows */
    size_t len, width;
    uint8_t kind, bound[PB_BUFFER];
    size_t bound_len;
} a;
static uint64_t sum;

static uint64_t rows(void)
{
    return timed_bound(a.bytes, a.len, a.width, a.kind, a.bound, a.bound_len);
}

static uint64_t count(void)
{
    return timed_count(a.bytes, a.len, a.kind, a.bound, a.bound_len);
}

static uint64_t pb_steps(void)
{
    return stepped(a.bytes, a.len, a.kind, a.bound, a.bound_len, &sum);
}

typedef struct form {
    const char *name;
    uint64_t (*run)(void);
} form;

static void time_forms(const char *file, const form *forms, int n, int repeats)
{
    for (int i = 0; i < n; i++) {
        uint64_t keys = 0;
        double best = 0;
        sum = 0;
        for (int r = 0; r < repeats; r++) {
            double t = now();
            keys = forms[i].run();
            t = now() - t;
            if (r == 0 || t < best) {
                best = t;
            }
        }
        printf("%s %s keys %llu ns %.0f sum %llu\n", file, forms[i].name, (unsigned long long)keys, best, (unsigned long long)sum);
    }
}

/* The bound of the command line. */
static int read_bound(const char *kind, const char *hex)
{
    size_t digits = strcmp(hex, "-") == 0 ? 0 : strlen(hex);
    a.kind = (uint8_t)atoi(kind);
    a.bound_len = digits / 2;
    if (a.bound_len > PB_BUFFER) {
        return 0;
    }
    for (size_t i = 0; i < a.bound_len; i++) {
        unsigned byte = 0;
        if (sscanf(hex + 2 * i, "%2x", &byte) != 1) {
            return 0;
        }
        a.bound[i] = (uint8_t)byte;
    }
    return 1;
}

int main(int argc, char **argv)
{
    const form test[] = {{"rows", rows}}, walks[] = {{"count", count}, {"pb_step", pb_steps}};
    int by_rows = argc == 7 && strcmp(argv[1], "rows") == 0;
    if (!by_rows && !(argc == 6 && strcmp(argv[1], "walk") == 0)) {
        fprintf(stderr, "usage: bound rows FILE WIDTH REPEATS KIND BOUND | bound walk IMAGE REPEATS KIND BOUND\n");
        return 2;
    }
    a.bytes = read_image(argv[2], &a.len);
    if (!a.bytes || !read_bound(argv[argc - 2], argv[argc - 1])) {
        fprintf(stderr, "bound: no such file, or the bound is no hex\n");
        return 2;
    }
    a.width = by_rows ? (size_t)atoi(argv[3]) : 0;
    if (by_rows) {
        time_forms(argv[2], test, 1, atoi(argv[4]));
    } else {
        time_forms(argv[2], walks, 2, atoi(argv[3]));
    }
    return 0;
}
