/* Times pages of twenty keys that go on from a whole name, over one image: pages IMAGE REPEATS.
 *
 * The image's keys, as a walk from the start hands them out, are read first. A page is a placing above a name and twenty steps. One line
 * is printed,
 *   IMAGE KEYS BYTES LAYERS MOVES EMPTY FIRST STEPS EARLY MIDDLE LATE ALL START
 * LAYERS being those that the middle key lies under, MOVES the mean of FIRST's, and the others nanoseconds, the best of REPEATS runs:
 *   EMPTY   a placing above the empty name, and the first step
 *   FIRST   a placing above a name, and the first step: the mean over names of the middle tenth
 *   STEPS   twenty steps of a walk that is there already: the mean over the middle tenth
 *   EARLY, MIDDLE, LATE   a page: the mean over names of the first, the middle and the last tenth
 *   ALL     a page: the mean over names of the whole image
 *   START   a walk from the start until the middle key's page is out
 *
 * Before that the page of every name is held, byte for byte, against the keys that the walk from the start hands out after it; and every
 * timed run must sum up to what these keys do. Else the program stops: an image for it has no dead slot and no empty key. */
#include "common.h"

enum { PAGE = 20, NAMES = 100, SPREAD = 1000, LEAST = 400 };
enum { EMPTY, FIRST, STEPS, EARLY, MIDDLE, LATE, ALL, START, RUNS };

struct key {
    uint64_t len, value, layers;
    uint64_t sum; /* of all keys up to this one, with wrap */
    uint8_t bytes[PB_BUFFER];
};

static const char *file;
static const uint8_t *image;
static size_t len;
static struct key *row; /* row[0] is the start, the empty name; row[1] to row[keys] are the image's keys */
static size_t keys;

static void stop(const char *why, size_t at)
{
    fprintf(stderr, "%s: %s, at key %zu\n", file, why, at);
    exit(1);
}

static void place(pb_walk *w, size_t i)
{
    const uint8_t none[1] = {0};
    if (pb_place_above(image, len, row[i].bytes, row[i].len, PB_UNBOUNDED, none, 0, w->numbers, PB_NUMBERS, w->buf, PB_BUFFER, w->bound,
                       PB_BUFFER) != 0) {
        stop("the placing is declined", i);
    }
}

static int step(pb_walk *w, uint64_t out[ANSWER])
{
    return pb_step(w->numbers, PB_NUMBERS, w->buf, PB_BUFFER, w->bound, PB_BUFFER, image, len, out, ANSWER) == 0 && out[0] == 1;
}

/* What a key adds to a sum: value, length and last byte, as in bench.c. */
static uint64_t summed(const pb_walk *w, const uint64_t out[ANSWER])
{
    return out[2] + out[1] + (out[1] != 0 ? w->buf[out[1] - 1] : 0);
}

/* The row of an image that the check accepts, by a walk from the start. */
static void read_row(void)
{
    pb_walk w;
    uint64_t out[ANSWER], counts[3];
    if (pb_check(image, len, counts, 3) != 0) {
        stop("the check does not accept the image", 0);
    }
    place(&w, 0);
    for (size_t i = 1; i <= keys; i++) {
        if (!step(&w, out)) {
            stop("the walk from the start ends", i);
        }
        row[i].len = out[1];
        row[i].value = out[2];
        row[i].layers = w.numbers[PB_DEPTH];
        row[i].sum = row[i - 1].sum + summed(&w, out);
        memcpy(row[i].bytes, w.buf, out[1]);
    }
    if (step(&w, out)) {
        stop("the walk from the start goes on past the trailer's count", keys);
    }
}

/* The page of every name, and of the start, must be the twenty keys after it in the row. */
static void check_pages(void)
{
    for (size_t i = 0; i + PAGE <= keys; i++) {
        pb_walk w;
        uint64_t out[ANSWER];
        place(&w, i);
        for (size_t k = i + 1; k <= i + PAGE; k++) {
            if (!step(&w, out) || out[1] != row[k].len || out[2] != row[k].value || memcmp(w.buf, row[k].bytes, out[1]) != 0) {
                stop("the page is not what a walk from the start hands out there", i);
            }
        }
    }
}

/* A run: above each of `count` names of a stretch of the row, a placing and `steps` steps. */
struct run {
    size_t first, stretch, count, steps;
    int there;    /* the clock starts after the first step */
    double parts; /* the run's time is divided by it */
};

/* The run's nth name. The names lie scattered, so that they do not all stand at one place in their leaves. */
static size_t name(const struct run *r, size_t n)
{
    return r->first + n * 7919 % r->stretch;
}

/* The nanoseconds of a run, a part. */
static double timed(const struct run *r)
{
    uint64_t sum = 0, due = 0, out[ANSWER];
    double t = now();
    for (size_t n = 0; n < r->count; n++) {
        pb_walk w;
        place(&w, name(r, n));
        for (size_t s = 0; s < r->steps; s++) {
            if (!step(&w, out)) {
                stop("a timed walk ends", name(r, n));
            }
            sum += summed(&w, out);
            if (r->there && s == 0) {
                t = now();
            }
        }
    }
    t = now() - t;
    for (size_t n = 0; n < r->count; n++) {
        due += row[name(r, n) + r->steps].sum - row[name(r, n)].sum;
    }
    if (sum != due) {
        stop("a timed walk hands out other keys than the walk from the start", r->first);
    }
    return t / r->parts;
}

/* The moves of the first step, the mean over a run's names. */
static double moves(const struct run *r)
{
    pb_walk w;
    uint64_t all = 0, out[ANSWER];
    for (size_t n = 0; n < r->count; n++) {
        place(&w, name(r, n));
        all += step(&w, out) ? out[3] : 0;
    }
    return (double)all / (double)r->count;
}

/* `steps` steps above each of at most `most` names between two places in the row. */
static struct run over(size_t from, size_t to, size_t most, size_t steps)
{
    size_t count = to - from < most ? to - from : most;
    return (struct run){from, to - from, count, steps, 0, (double)count};
}

int main(int argc, char **argv)
{
    int repeats = argc == 3 ? atoi(argv[2]) : 0;
    file = argc == 3 ? argv[1] : "";
    image = repeats > 0 ? read_image(file, &len) : NULL;
    keys = image && len >= 440 && len % 8 == 0 ? stated(image, len) : 0;
    if (keys < LEAST || keys > len) {
        fprintf(stderr, "usage: pages IMAGE REPEATS, the image with %d keys or more\n", LEAST);
        return 2;
    }
    row = calloc(keys + 1, sizeof *row);
    if (!row) {
        return 2;
    }
    read_row();
    check_pages();

    size_t tenth = keys / 10, middle = keys / 2, low = middle - tenth / 2, high = low + tenth, last = keys - PAGE + 1;
    const struct run runs[RUNS] = {
        [EMPTY] = {0, 1, NAMES, 1, 0, NAMES},
        [FIRST] = over(low, high, NAMES, 1),
        [STEPS] = {low, 1, 1, tenth + 1, 1, (double)tenth / PAGE},
        [EARLY] = over(1, 1 + tenth, NAMES, PAGE),
        [MIDDLE] = over(low, high, NAMES, PAGE),
        [LATE] = over(keys - tenth, last, NAMES, PAGE),
        [ALL] = over(1, last, SPREAD, PAGE),
        [START] = {0, 1, 1, middle + PAGE, 0, 1},
    };
    double best[RUNS];
    for (int r = 0; r < repeats; r++) {
        for (int i = 0; i < RUNS; i++) {
            double t = timed(&runs[i]);
            if (r == 0 || t < best[i]) {
                best[i] = t;
            }
        }
    }

    printf("%s %zu %zu %llu %.2f", file, keys, len, (unsigned long long)row[middle].layers, moves(&runs[FIRST]));
    for (int i = 0; i < RUNS; i++) {
        printf(" %.1f", best[i]);
    }
    printf("\n");
    free(row);
    free((void *)image);
    return 0;
}
