/* Feeds the C interface whole and damaged images, walks that were altered by hand, and sheets.
 *
 *     guard PACK SEED ROUNDS          every slice lies against a page that may not be touched
 *     guard PACK SEED ROUNDS heap     every slice is a block of its own, of its exact size, for valgrind
 *
 * PACK has accepted images with the offsets of their records, some of their keys, and the bytes that lead into their layers
 * (differential.py --pack). Every call is made twice: once with all slices ending where a forbidden page begins, once with all
 * beginning where one ends (lend.h); calls.h says what is asked of an answer. The seed fixes all random choices; a failure names
 * its round.
 */
#define _DEFAULT_SOURCE
#include <signal.h>

#include "calls.h"

/* The accepted images. */

struct name {
    uint64_t len;
    uint8_t bytes[256];
};

struct picture {
    uint64_t len, records, names, *at;
    uint8_t *bytes;
    struct name *name;
};

static struct picture *pictures;
static size_t picture_count;

static void read_pack(const char *file)
{
    FILE *f = fopen(file, "rb");
    must(f != NULL, "no pack");
    uint64_t head[3];
    while (fread(head, sizeof head, 1, f) == 1) {
        pictures = realloc(pictures, (picture_count + 1) * sizeof *pictures);
        must(pictures != NULL, "no memory");
        struct picture *p = &pictures[picture_count++];
        *p = (struct picture){head[0], head[1], head[2], malloc(head[1] * sizeof *p->at), malloc(head[0]),
                              calloc(head[2], sizeof *p->name)};
        must(p->at && p->bytes && p->name, "no memory");
        must(fread(p->at, sizeof *p->at, p->records, f) == p->records && fread(p->bytes, 1, p->len, f) == p->len, "a short pack");
        for (struct name *n = p->name; n < p->name + p->names; n++) {
            must(fread(&n->len, sizeof n->len, 1, f) == 1 && n->len <= sizeof n->bytes, "a short pack");
            must(fread(n->bytes, 1, n->len, f) == n->len, "a short pack");
        }
    }
    must(picture_count > 0, "an empty pack");
    fclose(f);
}

/* Keys to ask for: the image's own, whole, cut, lengthened or with a byte changed, or any bytes. */
static size_t draw_key(const struct picture *p, uint8_t *at, size_t most)
{
    const struct name *n = &p->name[below(p->names)];
    uint64_t cut = below(n->len + 1), front = ONE_OF(n->len, n->len, n->len, cut, cut & ~7ull, 0), few = below(9);
    size_t len = front + ONE_OF(0, 0, 0, few, 8, 9, 255, 256, 257);
    len = most > 256 && below(2) ? most - few % 8 : len < most ? len : most;
    front = front < len ? front : len;
    memcpy(at, n->bytes, front);
    if (below(3)) {
        fill(at + front, len - front);
    } else {
        memset(at + front, (int)ONE_OF(0, 255), len - front);
    }
    if (front > 0 && below(4) == 0) {
        at += below(front);
        *at += (uint8_t)ONE_OF(1, 255, few);
    }
    return len;
}

/* One that a placing takes, or, where faults are asked for, now and then one that it declines. */
static void draw_ask(const struct picture *p, struct ask *a, int faults)
{
    int bad = faults ? (int)below(12) : 12;
    a->cursor_len = draw_key(p, a->cursor, bad == 0 ? sizeof a->cursor : below(3) ? 256 : 8);
    a->kind = (uint8_t)(bad == 1 ? ONE_OF(3, 4, 128, 255) : below(3));
    a->key_len = draw_key(p, a->key, bad == 2 ? sizeof a->key : 256);
}

static int key_order(const uint8_t *a, size_t a_len, const uint8_t *b, size_t b_len)
{
    int d = memcmp(a, b, a_len < b_len ? a_len : b_len);
    return d ? d : a_len < b_len ? -1 : a_len > b_len;
}

/* A walk over an accepted image to its end: its keys ascend past the start and lie in the bound, it is never declined, its count is
 * always that of the keys so far, its moves are at most leaves + value slots + 4 * sub-layers + 2, and its keys at most what the
 * trailer counts, or all that, from "" unbounded. How many keys. */
static uint64_t walk_whole(int from, const struct ask *a, const uint64_t counts[4])
{
    struct walk w = SIZED;
    uint64_t out[8] = {0}, keys = 0, moves = 0, depth = 0, count;
    uint8_t last[256];
    size_t last_len = a->cursor_len;
    memcpy(last, a->cursor, last_len);
    must(place(&w, from, a) == 0, "a placing over an accepted image");
    for (;;) {
        must(step(&w, out, ANSWER) == 0, "a step over an accepted image was declined");
        moves += out[3];
        must(out[5] == keys + out[0], "the count is not the number of keys so far");
        if (out[0] == 0) {
            break;
        }
        int order = key_order(last, last_len, w.buf, out[1]), end = key_order(w.buf, out[1], a->key, a->key_len);
        must(order < 0 || (from && keys == 0 && order == 0), "keys do not ascend");
        must(a->kind == 0 || end < 0 || (a->kind == 1 && end == 0), "a key past the bound");
        last_len = out[1];
        memcpy(last, w.buf, last_len);
        depth = out[4];
        keys++;
    }
    must(out[4] == depth, "a none has another depth than the last key, or than 0 before the first");
    must(moves <= counts[0] + counts[1] + 4 * counts[2] + 2, "more moves than 01 allows");
    memcpy(&count, image + image_len - 24, 8);
    must(from && a->cursor_len == 0 && a->kind == 0 ? keys == count : keys <= count, "the trailer counts other keys");
    must(step(&w, out, ANSWER) == 0 && out[0] == 0 && out[3] == 0 && out[4] == depth && out[5] == keys, "an ended walk");
    return keys;
}

/* Start in a layer that a walk is in: its root, its parents on the stack, and the cursor from there on. */
static void put_start(struct walk *w, uint64_t depth, int from)
{
    uint64_t *n = w->numbers, whole = n[PB_OFFSET] + n[PB_LEN];
    n[PB_ROOT] = depth < n[PB_DEPTH] ? n[PB_STACK + 2 * depth] : n[PB_ROOT];
    n[PB_DEPTH] = depth;
    n[PB_OFFSET] = 8 * depth;
    n[PB_LEN] = whole - n[PB_OFFSET];
    n[PB_IKEY] = ikey_of(w->buf + n[PB_OFFSET], n[PB_LEN]);
    n[PB_STATE] = START;
    n[PB_MODE] = (uint64_t)from;
}

/* Pages resumed, those after a key in a sub-layer, and the keys that were then compared. */
static ull pages, pages_below, page_keys;

/* A page resumed: after some key of a walk over an accepted image two others go on from there, same bound: one placed anew above
 * the whole key, and the walk itself with Start put into a layer that it is in. Both hand out what the first still hands out, at
 * the same depths; but the second hands out the key once more before that in mode from, and, by 01's rule, where the key has at
 * most eight bytes. The first of the two counts anew, the second goes on counting. The bytes past the key's end do not matter to
 * the second, nor do those of the layer's own ikey, which the record has as a number. */
static void resumed(const struct picture *p)
{
    struct walk first = SIZED, anew = SIZED, ahead = SIZED, again;
    struct ask a;
    uint64_t out[8] = {0}, others[8] = {1};
    draw_ask(p, &a, 0);
    must(place(&ahead, (int)below(2), &a) == 0, "a placing over an accepted image");
    for (uint64_t n = 1 + below(20); n > 0 && others[0] == 1; n--) {
        must(step(&ahead, others, ANSWER) == 0, "a step over an accepted image was declined");
        if (others[0] == 1) {
            first = ahead;
            memcpy(out, others, sizeof out);
        }
    }
    if (out[0] == 0) {
        return;
    }
    int from = (int)below(2);
    again = first;
    put_start(&again, below(first.numbers[PB_DEPTH] + 1), from);
    fill(again.buf + out[1], PB_BUFFER - out[1]);
    if (below(2)) {
        fill(again.buf + again.numbers[PB_OFFSET], 8);
    }
    uint64_t counted[] = {0, out[5]};
    if (from || out[1] <= 8) {
        must(step(&again, others, ANSWER) == 0 && memcmp(others, out, 3 * sizeof *out) == 0, "a key is not there once more");
        must(memcmp(again.buf, first.buf, out[1]) == 0, "another key once more");
        counted[1]++;
        must(others[4] == out[4] && others[5] == counted[1], "depth or count of a key once more");
    }
    a.cursor_len = out[1];
    memcpy(a.cursor, first.buf, out[1]);
    must(place(&anew, 0, &a) == 0, "a placing above a key");
    pages++;
    pages_below += first.numbers[PB_DEPTH] > 0;
    for (int n = 0; n < 20 && out[0] == 1; n++) {
        must(step(&first, out, ANSWER) == 0, "a step over an accepted image was declined");
        struct walk *other[] = {&anew, &again};
        for (int i = 0; i < 2; i++) {
            must(step(other[i], others, ANSWER) == 0, "a step of a walk resumed was declined");
            must(memcmp(others, out, 3 * sizeof *out) == 0 && memcmp(other[i]->buf, first.buf, out[1]) == 0, "a walk resumed");
            must(out[0] == 0 || others[4] == out[4], "the depth of a walk resumed");
            counted[i] += out[0];
            must(others[5] == counted[i], "the count of a walk resumed");
        }
        page_keys += out[0];
    }
}

static void whole(const struct picture *p, const uint64_t counts[4])
{
    struct ask a;
    uint64_t count[2] = {0, 0};
    draw_ask(p, &a, 0);
    must(tally(0, &a, count, 1) == 0 && count[0] == walk_whole(0, &a, counts), "the tally is not the number of keys");
    uint64_t keys = walk_whole(1, &a, counts);
    must(keys == count[0] || keys == count[0] + 1, "from a cursor and above it");
    resumed(p);
}

/* Damage. */

/* An offset that a field may be set to: mostly a record's. */
static uint64_t draw_offset(const struct picture *p)
{
    uint64_t real = p->at[below(p->records)], inside = below(p->len), wild = any();
    return ONE_OF(real, real, real, real + 8, real - 8, real + 1, 0, 1, 8, 9, inside, inside & ~7ull, p->len, p->len - TRAILER,
                  p->len - TRAILER - 256, p->len - TRAILER - 400, wild, wild & 0xffffffff, ~0ull, ~0ull - 399, 1ull << 63);
}

/* One field of a record, or of the trailer, or any bit. */
static void damage(const struct picture *p)
{
    uint8_t *r = image + p->at[below(p->records)];
    uint64_t i = below(16), slot = below(15), offset = draw_offset(p), wild = any();
    uint8_t bit = (uint8_t)(1 << below(8));
    int leaf = r[3] >> 7;
    switch (below(leaf ? 12 : 8)) {
    case 0:
        image[below(p->len)] ^= bit;
        break;
    case 1: /* root, key count, stated length, edition */
        put(image + p->len - TRAILER + 8 * below(4), offset, 8);
        break;
    case 2: /* version */
        r[below(4)] ^= bit;
        break;
    case 3: /* an ikey */
        put(r + (leaf ? 16 : 8) + 8 * slot, ONE_OF(0, 1, ~0ull, wild), 8);
        break;
    case 4:
    case 5: /* next, or a child */
        put(r + (leaf ? 392 : 128 + 8 * i), offset, 8);
        break;
    case 6: /* live mask, or key count */
        put(r + 4, leaf ? wild : ONE_OF(0, 1, 14, 15, 16, 255), leaf ? 2 : 1);
        break;
    case 7: /* a byte of the permutation, or of a separator */
        put(r + (leaf ? 8 + below(8) : 8 + 8 * slot), wild, 1);
        break;
    case 8: /* keylenx */
        r[136 + slot] = (uint8_t)ONE_OF(0, 1, 7, 8, 9, 63, 64, 65, 127, 128, 129, 255);
        break;
    case 9: /* value, or a layer's root */
        put(r + 152 + 8 * slot, offset, 8);
        break;
    case 10: /* a suffix's offset */
        put(r + 272 + 8 * slot, offset, 4);
        break;
    default: /* its length */
        put(r + 276 + 8 * slot, ONE_OF(0, 1, 8, 247, 248, 249, 256, 257, p->len, 0xffffffff, wild), 4);
    }
}

/* Trailer words that pass numbers 1 and 2. */
static void mend(size_t len)
{
    if (len >= TRAILER) {
        put(image + len - 16, len, 8);
        put(image + len - 8, 1, 8);
    }
}

/* Walks by hand. */

static void lengths(struct walk *w)
{
    w->numbers_len = below(16) ? PB_NUMBERS : ONE_OF(0, 1, 74, 75, 77, 80);
    w->buf_len = below(16) ? PB_BUFFER : ONE_OF(0, 1, 255, 257, 264);
    w->bound_len = below(16) ? PB_BUFFER : ONE_OF(0, 1, 255, 257, 264);
}

/* A value for one number of a record. */
static uint64_t draw_number(const uint64_t *n, size_t i, const struct picture *p)
{
    uint64_t wild = any(), small = below(32), offset = draw_offset(p), here = image_len;
    uint64_t left = n[PB_OFFSET] < 256 ? 256 - n[PB_OFFSET] : 0;
    if (below(40) == 0) {
        return wild;
    }
    switch (i) {
    case PB_IMAGE_LEN:
        return ONE_OF(here, here, here, here, here, here, here + 8, here - 8, 0);
    case PB_POSITION:
        return ONE_OF(small & 15, small & 15, small & 15, 0, 14, 15, 16);
    case PB_OFFSET:
        return 8 * n[PB_DEPTH] + ONE_OF(0, 0, 0, 0, 0, 0, 1, ~0ull, 8);
    case PB_LEN:
        return ONE_OF(small & 15, small & 15, 8, 9, wild % (left + 1), left - 1, left, left + 1, 256);
    case PB_IKEY:
        return ONE_OF(wild, 0, ~0ull, word(image + (wild % (p->len - 8))));
    case PB_DEPTH:
        return ONE_OF(small, small, small, 0, 0, 1, 30, 31, 32, 33);
    case PB_KIND:
        return ONE_OF(0, 0, 1, 1, 2, 2, 0, 1, 2, 3, 255, 256);
    case PB_BOUND_LEN:
        return ONE_OF(small, small, 0, 255, 256, 257);
    case PB_STATE:
        return ONE_OF(0, 1, 2, 0, 1, 2, 2, 2, 3, 4);
    case PB_MODE:
        return ONE_OF(0, 1, 0, 1, 0, 1, 0, 1, 0, 1, 2, 255, 256, 1ull << 32, 1ull << 63, ~0ull);
    case PB_LAST_DEPTH:
        return ONE_OF(small, small, small, small, 0, 30, 31, 31, 31, 32, 33, 1ull << 32);
    case PB_COUNT:
        return ONE_OF(small, small, small, 0, here - 2, here - 1, here - 1, here, here, here, here + 1, here + 2, ~0ull);
    default:
        return offset;
    }
}

/* Start, in a layer that the walk is in, or at any depth; there stands a key of the image or what was there. */
static void alter_start(struct walk *w, const struct picture *p)
{
    uint64_t *n = w->numbers, depth = below(32), root = word(image + image_len - TRAILER), offset = draw_offset(p);
    if (n[PB_DEPTH] < 32 && n[PB_OFFSET] == 8 * n[PB_DEPTH] && n[PB_LEN] <= 256 - n[PB_OFFSET] && below(2)) {
        put_start(w, below(n[PB_DEPTH] + 1), (int)below(2));
    } else {
        n[PB_DEPTH] = depth;
        n[PB_OFFSET] = 8 * depth;
        n[PB_LEN] = draw_number(n, PB_LEN, p);
        n[PB_ROOT] = ONE_OF(root, root, n[PB_ROOT], offset);
        if (below(4)) {
            n[PB_LEN] = draw_key(p, w->buf + n[PB_OFFSET], 256 - n[PB_OFFSET]);
        }
        n[PB_IKEY] = below(4) ? ikey_of(w->buf + n[PB_OFFSET], 8) : draw_number(n, PB_IKEY, p);
        n[PB_STATE] = START;
        n[PB_MODE] = draw_number(n, PB_MODE, p);
    }
    if (below(4) == 0) {
        n[PB_LEN] = draw_number(n, PB_LEN, p);
    }
    if (below(8) == 0) {
        fill(w->buf + below(256), 1);
    }
}

static void alter(struct walk *w, const struct picture *p)
{
    int all = below(2) == 0;
    for (size_t n = all ? PB_NUMBERS : 1 + below(4); n > 0; n--) {
        size_t i = all ? PB_NUMBERS - n : below(2) ? below(PB_STACK) : below(PB_NUMBERS);
        w->numbers[i] = draw_number(w->numbers, i, p);
        if (i == PB_DEPTH) {
            w->numbers[PB_OFFSET] = draw_number(w->numbers, PB_OFFSET, p);
        }
    }
    if (all) {
        w->numbers[PB_OFFSET] = draw_number(w->numbers, PB_OFFSET, p);
        w->numbers[PB_LEN] = draw_number(w->numbers, PB_LEN, p);
        fill(w->bound, below(257));
    }
    if (below(2)) {
        fill(w->buf, below(257));
    }
    if (below(2)) {
        alter_start(w, p);
    }
}

/* Rounds. */

/* Up to 40 steps of a walk that was placed, until one hands out no key; those that are declined for another room for the answer
 * stand between and count nothing. 02 [13]: "After every list of steps from a fresh placing the walk's count equals the number of
 * keys handed out." */
static void some_steps(struct walk *w)
{
    uint64_t out[8], keys = 0;
    fill(out, sizeof out);
    for (int n = 0; n < 40; n++) {
        size_t room = below(32) ? ANSWER : below(9);
        int code = step(w, out, room);
        keys += code == 0 && out[0] == 1;
        must(w->numbers[PB_COUNT] == keys, "the count after a list of steps");
        if (room == ANSWER && (code != 0 || out[0] == 0)) {
            return;
        }
    }
}

/* Anything over the image that is shown: check, tally, a placing and some steps. */
static void everything(const struct picture *p)
{
    struct ask a;
    struct walk w;
    uint64_t counts[4], out[8];
    fill(counts, sizeof counts);
    fill(out, sizeof out);
    fill(w.numbers, sizeof w.numbers);
    fill(w.buf, sizeof w.buf);
    fill(w.bound, sizeof w.bound);
    lengths(&w);
    draw_ask(p, &a, 1);
    int checked = check(counts, below(8) ? 3 : below(5));
    tally(checked, &a, out, below(8) ? 1 : ONE_OF(0, 2));
    if (place(&w, (int)below(2), &a) == 0) {
        some_steps(&w);
    }
    if (checked == 0 && check(counts, 3) == 0) {
        whole(p, counts);
    }
}

static void altered_walk(const struct picture *p)
{
    struct walk w = SIZED;
    struct ask a;
    uint64_t out[8];
    fill(out, sizeof out);
    draw_ask(p, &a, 0);
    place(&w, (int)below(2), &a);
    for (uint64_t n = below(12); n > 0 && step(&w, out, ANSWER) == 0; n--) {
    }
    alter(&w, p);
    for (uint64_t n = 1 + below(8); n > 0; n--) {
        if (step(&w, out, below(16) ? ANSWER : below(9)) != 0) {
            alter(&w, p);
        }
        if (below(8) == 0) {
            lengths(&w);
        }
    }
}

/* Sheets. */

static int name_order(const void *a, const void *b)
{
    const struct name *x = a, *y = b;
    return key_order(x->bytes, x->len, y->bytes, y->len);
}

/* A value or an end figure, of any length. */
static ull figure(void)
{
    ull n = any();
    return n >> below(64);
}

/* A sheet of some of the image's keys, as they are or altered: its length, and how many keys it has. */
static size_t draw_sheet(const struct picture *p, uint8_t *at, uint64_t *keys)
{
    struct name drawn[40];
    char *to = (char *)at;
    uint64_t n = below(2) ? below(4) : below(41), kept = 0;
    for (uint64_t i = 0; i < n; i++) {
        drawn[i].len = draw_key(p, drawn[i].bytes, 256);
    }
    qsort(drawn, n, sizeof *drawn, name_order);
    for (uint64_t i = 0; i < n; i++) {
        if (i == 0 || name_order(&drawn[kept - 1], &drawn[i]) < 0) {
            drawn[kept++] = drawn[i];
        }
    }
    to += sprintf(to, "sheet 1 keys %llu\n", (ull)kept);
    for (uint64_t i = 0; i < kept; i++) {
        to += sprintf(to, "%s", drawn[i].len ? "" : "-");
        for (uint64_t j = 0; j < drawn[i].len; j++) {
            to += sprintf(to, "%02x", drawn[i].bytes[j]);
        }
        to += sprintf(to, " %llu\n", figure());
    }
    to += sprintf(to, "end %llu\n", figure());
    *keys = kept;
    return (size_t)((uint8_t *)to - at);
}

/* A byte of a sheet changed, put in or left out; the length afterwards. */
static size_t damage_sheet(uint8_t *sheet, size_t len)
{
    size_t at = below(len + 1), by = below(3);
    uint8_t byte = (uint8_t)(below(4) ? ONE_OF('0', '1', '9', 'a', 'f', 'A', '-', ' ', '\n', '\r') : any());
    if (by == 2 && at < len) {
        memmove(sheet + at, sheet + at + 1, len - at - 1);
        return len - 1;
    }
    if (by == 1) {
        memmove(sheet + at + 1, sheet + at, len - at);
    }
    sheet[at] = byte;
    return by == 1 || at == len ? len + 1 : len;
}

/* A sheet is built where there is room, and the check has its keys; in a byte less it is declined with 33, and damaged, or any bytes, in
 * any room, nothing is amiss. */
static void sheets(const struct picture *p)
{
    static uint8_t sheet[ROOM], out[ROOM];
    uint64_t keys, len[2], counts[3];
    size_t sheet_len = draw_sheet(p, sheet, &keys), most = ONE_OF(4096, 4096, 4096, ROOM), room = below(2) ? most : below(2001);
    fill(len, sizeof len);
    int code = build(sheet, sheet_len, out, most, len, 1);
    must(code == 0 || code == 33, "a sheet in the form, with its keys in order");
    if (code == 0) {
        size_t image_of = len[0];
        must(pb_check(out, image_of, counts, 3) == 0 && counts[1] == keys, "the check of a built image");
        must(build(sheet, sheet_len, out, image_of - 1, len, 1) == 33 && len[0] == 0, "a byte less than the image");
        must(build(sheet, sheet_len, out, image_of, len, below(2) * 2) == 0, "room for the image and no more");
    }
    for (uint64_t n = 1 + below(4); n > 0; n--) {
        sheet_len = damage_sheet(sheet, sheet_len);
    }
    if (below(8) == 0) {
        sheet_len = below(1001);
        fill(sheet, sheet_len);
    }
    build(sheet, sheet_len, out, room, len, below(8) ? 1 : ONE_OF(0, 2));
}

/* A picture's image, or what a round has made of it. */
static void show_of(const struct picture *p, size_t len)
{
    show(len);
    is_whole = len == p->len && memcmp(image, p->bytes, len) == 0;
}

enum { WHOLE, DAMAGED, LENGTHS, BYTES, ALTERED, SHEETS, SORTS };

static int one_round(void)
{
    const struct picture *p = &pictures[below(picture_count)];
    uint64_t counts[4] = {0}, len = p->len;
    int sort = (int)ONE_OF(WHOLE, WHOLE, DAMAGED, DAMAGED, DAMAGED, LENGTHS, BYTES, ALTERED, ALTERED, ALTERED, SHEETS);
    memcpy(image, p->bytes, len);
    switch (sort) {
    case WHOLE:
        show_of(p, len);
        must(check(counts, 3) == 0, "an accepted image is declined");
        whole(p, counts);
        break;
    case DAMAGED:
        for (uint64_t n = 1 + below(4); n > 0; n--) {
            damage(p);
        }
        show_of(p, len);
        everything(p);
        break;
    case LENGTHS: {
        uint64_t few = below(1001), by = below(2) ? few : few & ~7ull;
        len = ONE_OF(by, len + by, by < len ? len - by : 0, 440 + by, 432, 440);
        if (len > p->len) {
            fill(image + p->len, len - p->len);
        }
        if (below(2)) {
            mend(len);
        }
        show_of(p, len);
        everything(p);
        break;
    }
    case BYTES:
        len = below(2) ? below(1001) : 8 * below(500);
        fill(image, len);
        if (below(4)) {
            mend(len);
        }
        if (len >= 440 && below(4)) {
            put(image + len - TRAILER, 8 * below(len / 8 - 50), 8);
            put(image + word(image + len - TRAILER), ONE_OF(0, 1ull << 31), 4);
        }
        show_of(p, len);
        everything(p);
        break;
    case SHEETS:
        sheets(p);
        return sort;
    default:
        for (uint64_t n = below(2) ? below(4) : 0; n > 0; n--) {
            damage(p);
        }
        show_of(p, len);
        altered_walk(p);
    }
    unchanged();
    return sort;
}

/* Lengths at 01's limits, with zero bytes before the trailer. */
static void limits(void)
{
    static const size_t at[] = {0, 8, 32, 432, 440, 441, 448, LONGEST - 8, LONGEST, LONGEST + 1, LONGEST + 8};
    memset(image, 0, sizeof image);
    for (size_t i = 0; i < sizeof at / sizeof *at; i++) {
        mend(at[i]);
        show(at[i]);
        everything(&pictures[0]);
        unchanged();
        memset(image + (at[i] < TRAILER ? 0 : at[i] - TRAILER), 0, TRAILER);
    }
}

/* A walk that nobody altered, and that hands out keys until it is out of range: over a leaf of two slots of one ikey, the longer key
 * first, whose `next` is itself. The check declines it with 8. 02 [13]: 21 covers "a count above the image's length". */
static void round_and_round(void)
{
    struct walk w = SIZED;
    struct ask a = {.kind = PB_UNBOUNDED};
    uint64_t counts[4] = {0}, out[8] = {0};
    uint8_t *leaf = image + 8;
    memset(image, 0, 440);
    put(leaf, 1ull << 31, 4);
    put(leaf + 4, 3, 2);
    put(leaf + 8, 0xedcba98765432102, 8);
    put(leaf + 16, ikey_of((const uint8_t *)"k", 1), 8);
    put(leaf + 24, ikey_of((const uint8_t *)"k", 1), 8);
    leaf[136] = 5;
    leaf[137] = 3;
    put(leaf + 392, 8, 8);
    put(image + 440 - TRAILER, 8, 8);
    mend(440);
    show(440);
    must(check(counts, 3) == 8, "the check of a leaf that is its own next");
    must(place(&w, 1, &a) == 0, "a placing over a leaf that is its own next");
    for (uint64_t n = 1; n <= image_len + 1; n++) {
        must(step(&w, out, ANSWER) == 0 && out[0] == 1 && out[1] == (n % 2 ? 5 : 3) && out[5] == n, "a key round and round");
    }
    must(step(&w, out, ANSWER) == 21, "more keys than the image has bytes");
    unchanged();
}

static void on_signal(int number)
{
    char text[100];
    int n = snprintf(text, sizeof text, "guard: SIGNAL %d in round %llu of seed %llu\n", number, round_number, seed);
    _exit(write(1, text, n) == n ? 1 : 2);
}

int main(int argc, char **argv)
{
    if (argc < 4) {
        fprintf(stderr, "usage: guard PACK SEED ROUNDS [heap]\n");
        return 2;
    }
    static const int signals[] = {SIGSEGV, SIGBUS, SIGILL, SIGFPE, SIGTRAP};
    for (size_t i = 0; i < sizeof signals / sizeof *signals; i++) {
        signal(signals[i], on_signal);
    }
    heap = argc > 4;
    seed = strtoull(argv[2], NULL, 10);
    ull rounds = strtoull(argv[3], NULL, 10), sorts[SORTS] = {0}, calls = 0;
    read_pack(argv[1]);
    make_rooms();
    state = seed;
    limits();
    round_and_round();
    for (round_number = 1; round_number <= rounds; round_number++) {
        sorts[one_round()]++;
    }

    printf("%s, seed %llu: %llu rounds over %zu accepted images: %llu whole, %llu damaged, %llu of other lengths, "
           "%llu of random bytes, %llu altered walks, %llu sheets\n",
           heap ? "exact blocks" : "guard pages", seed, rounds, picture_count, sorts[WHOLE], sorts[DAMAGED], sorts[LENGTHS],
           sorts[BYTES], sorts[ALTERED], sorts[SHEETS]);
    static const char *const names[CALLS] = {"check", "placing", "step", "tally", "builder"};
    for (int call = 0; call < CALLS; call++) {
        printf("  %-8s by number:", names[call]);
        for (int code = 0; code < 256; code++) {
            if (met[call][code]) {
                printf(" %d: %llu", code, met[call][code]);
                calls += met[call][code];
            }
        }
        printf("\n");
    }
    printf("  Start with more than eight bytes left: %llu steps, %llu of them below the root layer; %llu came to a deeper layer, "
           "%llu to the deepest, %llu were declined\n",
           starts.all, starts.below, starts.deeper, starts.deepest, starts.declined);
    printf("  included ends handed out, each with one step more: %llu over whole images, %llu over others\n", ends.whole,
           ends.other);
    printf("  21 for the last depth alone: %llu steps, for the count alone: %llu; %llu of these walks were ended; keys handed out where "
           "the count was the image's length: %llu\n",
           limits_met.depth, limits_met.count, limits_met.ended, limits_met.last);
    printf("  pages resumed: %llu, %llu of them in a sub-layer; %llu keys\n", pages, pages_below, page_keys);
    printf("  %llu calls, each made twice; no signal, nothing amiss\n", calls);

    for (size_t i = 0; i < picture_count; i++) {
        free(pictures[i].at);
        free(pictures[i].bytes);
        free(pictures[i].name);
    }
    free(pictures);
    for (int i = 0; i < SLICES * SIDES && heap; i++) {
        free(room[i / SIDES][i % SIDES]);
    }
    return 0;
}
