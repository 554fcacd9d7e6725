/* The six functions as guard.c calls them: each at both sides over equal bytes, its answer held to what documents 01 and 02 ([1], [2],
 * [12], [13]) and the header say of it. A call must return and leave the same at both sides, its number must be one that they have for
 * it, and where it is declined, the zeros must be there that it says then, and all else that it was lent must stay as it was. */
#ifndef CALLS_H
#define CALLS_H

#include "lend.h"
#include "punchbronze.h"

/* What a placing or a tally is asked for. */
struct ask {
    uint8_t cursor[264], key[264], kind;
    size_t cursor_len, key_len;
};

/* The numbers 11 to 13, or 0. */
static int ask_fault(const struct ask *a)
{
    return a->cursor_len > 256 ? 11 : a->kind > 2 ? 12 : a->key_len > 256 ? 13 : 0;
}

static void must_keep(const struct ask *a, const uint8_t *cursor, const uint8_t *key)
{
    must(memcmp(cursor, a->cursor, a->cursor_len) == 0 && memcmp(key, a->key, a->key_len) == 0, "cursor or bound key was written");
}

/* A walk's record, with the lengths that it is lent with; longer than a record, so that these can be too long. */
struct walk {
    uint64_t numbers[80];
    uint8_t buf[264], bound[264];
    size_t numbers_len, buf_len, bound_len;
};

/* Its states. */
enum { START, RETRY, FIND_NEXT, ENDED };

/* The places of a step's answer; the last two are the depth and the count. */
enum { ANSWER = 6 };

#define SIZED {.numbers_len = PB_NUMBERS, .buf_len = PB_BUFFER, .bound_len = PB_BUFFER}

static int is_sized(const struct walk *w)
{
    return w->numbers_len == PB_NUMBERS && w->buf_len == PB_BUFFER && w->bound_len == PB_BUFFER;
}

static void blank(struct walk *w)
{
    memset(w->numbers, 0, PB_NUMBERS * sizeof *w->numbers);
    memset(w->buf, 0, PB_BUFFER);
    memset(w->bound, 0, PB_BUFFER);
}

/* The ikey of a cursor: eight bytes, first byte highest, zero past its length. */
static uint64_t ikey_of(const uint8_t *at, size_t len)
{
    uint64_t ikey = 0;
    for (size_t i = 0; i < 8; i++) {
        ikey = ikey << 8 | (i < len ? at[i] : 0);
    }
    return ikey;
}

/* How often each number was met. */

enum { CHECKS, PLACINGS, STEPS, TALLIES, BUILDS, CALLS };

static ull met[CALLS][256];

/* Steps in state start with more than eight bytes left: all, those below the root layer, those that came to a deeper layer, those
 * of them that came to the deepest, and those declined. */
static struct {
    ull all, below, deeper, deepest, declined;
} starts;

static void count_start(const uint64_t *before, const uint64_t *after, int code)
{
    if (code != 21 && before[PB_STATE] == START && before[PB_LEN] > 8) {
        starts.all++;
        starts.below += before[PB_DEPTH] > 0;
        starts.deeper += after[PB_DEPTH] > before[PB_DEPTH];
        starts.deepest += after[PB_DEPTH] > before[PB_DEPTH] && after[PB_DEPTH] == 31;
        starts.declined += code != 0;
    }
}

/* What a declined call leaves of the lent output: zeros in its n places, where it was lent n; else, as any call with another length,
 * what was there. `all` numbers are compared, those behind the lent ones too. */
static void must_say(int code, const uint64_t *before, const uint64_t *after, size_t len, size_t n, size_t all, const char *fault)
{
    uint64_t due[8];
    memcpy(due, before, all * sizeof *due);
    if (len == n) {
        memset(due, 0, n * sizeof *due);
    }
    must((code == 0 && len == n) || memcmp(after, due, all * sizeof *due) == 0, fault);
}

static int check(uint64_t counts[4], size_t counts_len)
{
    uint64_t after[SIDES][4];
    uint8_t code[SIDES];
    for (int side = 0; side < SIDES; side++) {
        uint64_t *c = lend(OUT, side, counts, counts_len * sizeof *counts);
        code[side] = pb_check(lent[side], image_len, c, counts_len);
        memcpy(after[side], counts, sizeof after[side]);
        memcpy(after[side], c, counts_len * sizeof *c);
    }
    int early = heading();
    must(code[0] == code[1] && memcmp(after[0], after[1], sizeof after[0]) == 0, "two checks differ");
    must(early ? code[0] == early : code[0] == 0 || (code[0] >= 3 && code[0] <= 10), "the check's number");
    must_say(code[0], counts, after[0], counts_len, 3, 4, "what a declined check left");
    memcpy(counts, after[0], sizeof after[0]);
    met[CHECKS][code[0]]++;
    return code[0];
}

/* The record that a placing has to leave, by its number. */
static void placed(struct walk *w, int code, int from, const struct ask *a)
{
    if (code == 21) {
        return;
    }
    blank(w);
    w->numbers[PB_STATE] = ENDED;
    if (code != 0) {
        return;
    }
    w->numbers[PB_IMAGE_LEN] = image_len;
    w->numbers[PB_ROOT] = word(image + image_len - TRAILER);
    w->numbers[PB_LEN] = a->cursor_len;
    w->numbers[PB_IKEY] = ikey_of(a->cursor, a->cursor_len);
    w->numbers[PB_KIND] = a->kind;
    w->numbers[PB_BOUND_LEN] = a->kind ? a->key_len : 0;
    w->numbers[PB_STATE] = from || a->cursor_len > 8 ? START : RETRY;
    w->numbers[PB_MODE] = from;
    memcpy(w->buf, a->cursor, a->cursor_len);
    memcpy(w->bound, a->key, a->kind ? a->key_len : 0);
}

static int place(struct walk *w, int from, const struct ask *a) /* from is 0 or 1 */
{
    int due = !is_sized(w) ? 21 : heading() ? heading() : ask_fault(a);
    struct walk want = *w, after = *w;
    placed(&want, due, from, a);
    for (int side = 0; side < SIDES; side++) {
        uint8_t *cursor = lend(CURSOR, side, a->cursor, a->cursor_len), *key = lend(KEY, side, a->key, a->key_len);
        uint64_t *numbers = lend(NUMBERS, side, w->numbers, w->numbers_len * sizeof *numbers);
        uint8_t *buf = lend(BUF, side, w->buf, w->buf_len), *bound = lend(BOUND, side, w->bound, w->bound_len);
        int code = (from ? pb_place_from : pb_place_above)(lent[side], image_len, cursor, a->cursor_len, a->kind, key, a->key_len,
                                                           numbers, w->numbers_len, buf, w->buf_len, bound, w->bound_len);
        memcpy(after.numbers, numbers, w->numbers_len * sizeof *numbers);
        memcpy(after.buf, buf, w->buf_len);
        memcpy(after.bound, bound, w->bound_len);
        must(code == due, "the placing's number");
        must(memcmp(&after, &want, sizeof after) == 0, "the record after a placing");
        must_keep(a, cursor, key);
    }
    *w = after;
    met[PLACINGS][due]++;
    return due;
}

/* Whether number 21 is due: no walk's record, or one out of range. */
static int is_foreign(const struct walk *w, size_t out_len)
{
    const uint64_t *n = w->numbers;
    if (out_len != ANSWER || !is_sized(w)) {
        return 1;
    }
    return n[PB_STATE] > ENDED || n[PB_MODE] > 1 || n[PB_IMAGE_LEN] != image_len || n[PB_DEPTH] > 31
           || n[PB_OFFSET] != 8 * n[PB_DEPTH] || n[PB_LEN] > 256 - n[PB_OFFSET] || n[PB_POSITION] > 15 || n[PB_KIND] > 2
           || n[PB_BOUND_LEN] > 256 || n[PB_LAST_DEPTH] > 31 || n[PB_COUNT] > image_len;
}

/* Steps declined with 21 for the last depth alone, for the count alone, and those of both whose walk was ended; and steps that handed
 * out a key where the count was the image's length. */
static struct {
    ull depth, count, ended, last;
} limits_met;

static void count_limits(const struct walk *before, size_t out_len, const uint64_t *said, int code)
{
    const uint64_t *n = before->numbers;
    limits_met.last += code == 0 && said[0] == 1 && n[PB_COUNT] == image_len;
    if (code == 21 && is_sized(before)) {
        struct walk shallow = *before, fresh = *before;
        shallow.numbers[PB_LAST_DEPTH] = fresh.numbers[PB_COUNT] = 0;
        int depth = !is_foreign(&shallow, out_len), count = !is_foreign(&fresh, out_len);
        limits_met.depth += depth;
        limits_met.count += count;
        limits_met.ended += (depth || count) && n[PB_STATE] == ENDED;
    }
}

/* 02 [13]: a step's answer and the walk carry "the depth at which the last key was found and how many have been handed out so far",
 * and "a none gives both as they stand". The depth at which a key is found is the one that the walk then has. */
static void must_carry(const uint64_t *before, const uint64_t *after, const uint64_t *said)
{
    must(said[4] == after[PB_LAST_DEPTH] && said[5] == after[PB_COUNT], "depth and count of a step are not the walk's");
    if (said[0] == 1) {
        must(after[PB_LAST_DEPTH] == after[PB_DEPTH], "the depth of a key");
        must(after[PB_OFFSET] == 8 * after[PB_DEPTH] && said[1] == after[PB_OFFSET] + after[PB_LEN], "the length of a key");
        must(after[PB_COUNT] == before[PB_COUNT] + 1, "a key is not counted");
    } else {
        must(after[PB_LAST_DEPTH] == before[PB_LAST_DEPTH] && after[PB_COUNT] == before[PB_COUNT], "a none changed depth or count");
    }
}

/* Whether the key that a step handed out is exactly at the walk's included end. */
static int is_at_end(const struct walk *w, size_t key_len)
{
    const uint64_t *n = w->numbers;
    return n[PB_KIND] == PB_INCLUDED && key_len == n[PB_BOUND_LEN] && memcmp(w->buf, w->bound, key_len) == 0;
}

static int one_step(struct walk *w, uint64_t out[8], size_t out_len)
{
    struct walk after[SIDES] = {*w, *w};
    uint64_t said[SIDES][8];
    uint8_t code[SIDES];
    for (int side = 0; side < SIDES; side++) {
        uint64_t *numbers = lend(NUMBERS, side, w->numbers, w->numbers_len * sizeof *numbers);
        uint8_t *buf = lend(BUF, side, w->buf, w->buf_len), *bound = lend(BOUND, side, w->bound, w->bound_len);
        uint64_t *o = lend(OUT, side, out, out_len * sizeof *o);
        code[side] = pb_step(numbers, w->numbers_len, buf, w->buf_len, bound, w->bound_len, lent[side], image_len, o, out_len);
        memcpy(after[side].numbers, numbers, w->numbers_len * sizeof *numbers);
        memcpy(after[side].buf, buf, w->buf_len);
        memcpy(after[side].bound, bound, w->bound_len);
        memcpy(said[side], out, sizeof said[side]);
        memcpy(said[side], o, out_len * sizeof *o);
    }
    must(code[0] == code[1], "two steps return different numbers");
    must(memcmp(&after[0], &after[1], sizeof *w) == 0 && memcmp(said[0], said[1], sizeof said[0]) == 0, "two steps differ");
    must(memcmp(after[0].bound, w->bound, sizeof w->bound) == 0, "a step changed the bound");
    static const int kept[] = {PB_IMAGE_LEN, PB_KIND, PB_BOUND_LEN, PB_MODE};
    for (size_t i = 0; i < sizeof kept / sizeof *kept; i++) {
        must(after[0].numbers[kept[i]] == w->numbers[kept[i]], "a step changed image length, bound or start mode");
    }
    must(code[0] == 0 || (code[0] >= 21 && code[0] <= 23), "the step's number");
    must((code[0] == 21) == is_foreign(w, out_len), "21 at the wrong place");
    if (code[0] != 0) {
        must(memcmp(&after[0], w, sizeof *w) == 0, "a declined step changed the record");
        must_say(code[0], out, said[0], out_len, ANSWER, 8, "what a declined step left");
    } else {
        const uint64_t *s = said[0];
        must(s[0] <= 1 && s[1] <= 256 && s[3] <= image_len, "what a step said");
        uint64_t now = after[0].numbers[PB_STATE];
        int end = s[0] == 1 && is_at_end(&after[0], s[1]);
        must(s[0] == 1 || (s[1] == 0 && s[2] == 0 && now == ENDED), "none, and the walk is not ended");
        must(!end || now == ENDED, "the included end, and the walk is not ended");
        must(s[0] == 0 || end || now == FIND_NEXT, "another key, and the walk is not to find the next");
        must(w->numbers[PB_STATE] != ENDED || (s[0] == 0 && s[3] == 0 && memcmp(&after[0], w, sizeof *w) == 0),
             "an ended walk moved");
        must_carry(w->numbers, after[0].numbers, s);
    }
    count_start(w->numbers, after[0].numbers, code[0]);
    count_limits(w, out_len, said[0], code[0]);
    *w = after[0];
    memcpy(out, said[0], sizeof said[0]);
    met[STEPS][code[0]]++;
    return code[0];
}

/* Whether the image is one of the pack's, and the included ends handed out over such images and over others. */
static int is_whole;
static struct {
    ull whole, other;
} ends;

/* A step. Where it hands out the walk's included end, one more says none, without a move, with depth and count as they stand, and
 * leaves the record to the byte; but where that key has brought the count above the image's length, it is declined with 21. */
static int step(struct walk *w, uint64_t out[8], size_t out_len)
{
    int code = one_step(w, out, out_len);
    if (code == 0 && out[0] == 1 && is_at_end(w, out[1])) {
        int over = w->numbers[PB_COUNT] > image_len;
        const uint64_t due[ANSWER] = {0, 0, 0, 0, over ? 0 : out[4], over ? 0 : out[5]};
        struct walk again = *w;
        uint64_t said[8];
        memset(said, 255, sizeof said);
        must(one_step(&again, said, ANSWER) == (over ? 21 : 0), "the number of a step behind the included end");
        must(memcmp(said, due, sizeof due) == 0, "a step behind the included end");
        must(memcmp(&again, w, sizeof again) == 0, "a step behind the included end changed the record");
        ends.whole += is_whole;
        ends.other += !is_whole;
    }
    return code;
}

static int tally(int checked, const struct ask *a, uint64_t out[2], size_t out_len)
{
    int due = checked ? checked : ask_fault(a);
    uint64_t after[SIDES][2];
    for (int side = 0; side < SIDES; side++) {
        uint8_t *cursor = lend(CURSOR, side, a->cursor, a->cursor_len), *key = lend(KEY, side, a->key, a->key_len);
        uint64_t *o = lend(OUT, side, out, out_len * sizeof *o);
        int code = pb_tally(lent[side], image_len, cursor, a->cursor_len, a->kind, key, a->key_len, o, out_len);
        memcpy(after[side], out, sizeof after[side]);
        memcpy(after[side], o, out_len * sizeof *o);
        must(code == due, "the tally's number");
        must_say(due, out, after[side], out_len, 1, 2, "what a declined tally left");
        must_keep(a, cursor, key);
    }
    must(memcmp(after[0], after[1], sizeof after[0]) == 0, "two tallies differ");
    memcpy(out, after[0], sizeof after[0]);
    met[TALLIES][due]++;
    return due;
}

/* A building into out, of ROOM bytes, of which out_len are lent: nothing of it is written where the sheet is declined, and else
 * nothing behind the image. */
static int build(const uint8_t *sheet, size_t sheet_len, uint8_t *out, size_t out_len, uint64_t len[2], size_t len_len)
{
    static uint8_t after[SIDES][ROOM];
    uint64_t said[SIDES][2], code[SIDES];
    for (int side = 0; side < SIDES; side++) {
        uint8_t *s = lend(SHEET, side, sheet, sheet_len), *o = lend(BUILT, side, out, out_len);
        uint64_t *l = lend(OUT, side, len, len_len * sizeof *l);
        code[side] = pb_build(s, sheet_len, o, out_len, l, len_len);
        memcpy(after[side], o, out_len);
        memcpy(said[side], len, sizeof said[side]);
        memcpy(said[side], l, len_len * sizeof *l);
        must(memcmp(s, sheet, sheet_len) == 0, "the sheet was written");
    }
    must(code[0] == code[1] && memcmp(said[0], said[1], sizeof said[0]) == 0, "two buildings differ");
    must(memcmp(after[0], after[1], out_len) == 0, "two built images differ");
    must(code[0] == 0 || (code[0] >= 31 && code[0] <= 33), "the builder's number");
    must_say((int)code[0], len, said[0], len_len, 1, 2, "what a declined building left");
    size_t end = code[0] ? 0 : len_len == 1 ? said[0][0] : out_len;
    must(end <= out_len && memcmp(after[0] + end, out + end, out_len - end) == 0, "output was written where no image is");
    memcpy(out, after[0], out_len);
    memcpy(len, said[0], sizeof said[0]);
    met[BUILDS][code[0]]++;
    return (int)code[0];
}

#endif
