/* The forward scan of a Masstree image, and the building of one, for C.
 *
 * The library is `target/staticlib/libpunchbronze.a`, which `tools/staticlib punchbronze` writes. Behind this header stand proved
 * functions and nothing else: crates/punchbronze/src/lib.rt has their contracts, crates/punchbronze/specs/Interface.antt what each
 * call returns and leaves, crates/walk_record/specs/Record.antt the record of a walk, crates/builder/specs/Answer.antt what the
 * builder answers, and crates/c_demands/specs/CDemand.antt what is proved of all steps of a walk together.
 *
 * A slice is a pointer and then a length, which counts elements and not bytes. What C must see to, since nothing can check it:
 *   - a pointer is not NULL, is aligned for its type and is good for its length, also where that is 0;
 *   - what a call writes (the slices that are not const) overlaps no other slice of the same call.
 * Anything else may be passed: every image, every sheet, every length, every record, however damaged, gets one of the numbers below.
 *
 * Every function returns 0 or the number of a decline. What a call says goes into counts, out or, of pb_build, len, where that has the
 * length named below, and then it is always written: zeros where the call is declined. One of another length stays as it was. The out
 * of pb_build is room for an image, of any length, and nothing of it is written where the call is declined. A walk's record
 * stays as it was where a step is declined, or a placing with 21; a placing declined with 1, 2, 11, 12 or 13 leaves the all-zero ended
 * walk in it. No function keeps a pointer, takes memory other than the stack's or fails otherwise.
 *
 * Stack: a step takes about 10 KB and a placing 5 KB; pb_check and pb_tally take about 155 KB on the deepest image that can be accepted,
 * pb_build took 219 KB on the deepest sheet that was tried.
 * Time is promised over images that the check accepts: there all steps of a walk together make at most leaves + value slots + 4 x
 * sub-layers + 2 moves. Over any other image a step makes at most as many moves as the image has bytes, but one move may go down a chain
 * of internodes of any length, so that a step can take quadratic time. The check declines such an image at once.
 */
#ifndef PUNCHBRONZE_H
#define PUNCHBRONZE_H

#include <stddef.h>
#include <stdint.h>

#ifdef __cplusplus
extern "C" {
#endif

#define PB_BUFFER 256

/* The kinds of a bound. */
#define PB_UNBOUNDED 0
#define PB_INCLUDED 1
#define PB_EXCLUDED 2

/* Where each number of a walk stands. The stack's are the last: for each i below 31, numbers[PB_STACK + 2 * i] is the root of entry i,
 * and the next one its leaf. */
enum {
    PB_IMAGE_LEN = 0,
    PB_ROOT = 1,
    PB_LEAF = 2,
    PB_POSITION = 3,
    PB_OFFSET = 4,        /* of the cursor: where its layer's bytes begin in buf */
    PB_LEN = 5,           /* of the cursor: its bytes from there on */
    PB_IKEY = 6,
    PB_DEPTH = 7,
    PB_KIND = 8,
    PB_BOUND_LEN = 9,
    PB_STATE = 10,        /* 0 start, 1 retry, 2 find next, 3 ended */
    PB_MODE = 11,         /* 0 above, 1 from */
    PB_LAST_DEPTH = 12,   /* the layer depth at which the last key was found; 0 before the first */
    PB_COUNT = 13,        /* the keys handed out so far; a placing sets both to 0 */
    PB_STACK = 14,
    PB_NUMBERS = 76
};

/* A walk between calls: a record that the caller keeps. Fill it by a placing, and hand it to steps.
 *
 * numbers: as above.
 * buf: the cursor's bytes; after a step that hands out a key, its first bytes are the key.
 * bound: the bound's key. */
typedef struct pb_walk {
    uint64_t numbers[PB_NUMBERS];
    uint8_t buf[PB_BUFFER];
    uint8_t bound[PB_BUFFER];
} pb_walk;

/* Checks an image. Returns 0 where it is accepted, and then counts is { leaves, value slots with the dead ones, sub-layers }; else the
 * number of the first fault, 1 and 2 for its length and trailer, 3 to 9 for its tree, 10 for a trailer whose key count is not the number
 * of live keys, and then counts is { 0, 0, 0 }. counts stays as it was where its length is not 3. */
uint8_t pb_check(const uint8_t *image, size_t image_len, uint64_t *counts, size_t counts_len);

/* Places a walk above a cursor: it will hand out the keys past the cursor, in byte order, up to the bound. A cursor is any key of up
 * to 256 bytes, stored or not: placed above the last key that was handed out, a walk goes on where another stopped, and its first
 * step costs one move for each layer that the cursor leads into. Returns 0; or, with the all-zero ended walk in the record, 1 or 2
 * for the image's length and trailer, 11 for a cursor of over 256 bytes, 12 for a kind over 2, 13 for a bound key of over 256 bytes
 * (for kind 0 too); or 21 where the lengths of numbers, buf and bound are not 76, 256 and 256, and then the three stay as they were.
 * An image that the check does not accept may be placed over; its steps can then be declined with 21, 22 or 23. */
uint8_t pb_place_above(const uint8_t *image, size_t image_len, const uint8_t *cursor, size_t cursor_len, uint8_t kind,
                       const uint8_t *bound_key, size_t bound_key_len, uint64_t *numbers, size_t numbers_len, uint8_t *buf,
                       size_t buf_len, uint8_t *bound, size_t bound_len);

/* The same from the cursor on: a key that equals it is handed out too. From an empty cursor on is the whole image. */
uint8_t pb_place_from(const uint8_t *image, size_t image_len, const uint8_t *cursor, size_t cursor_len, uint8_t kind,
                      const uint8_t *bound_key, size_t bound_key_len, uint64_t *numbers, size_t numbers_len, uint8_t *buf,
                      size_t buf_len, uint8_t *bound, size_t bound_len);

/* One key further. Returns 0, and then out is { 1 for a key or 0 for none, key length, value, moves, depth, count }, and numbers and
 * buf are those of the walk after the step; the bound is not changed by a step. depth is the layer depth at which the last key was
 * found, for a key this one's; count is how many keys have been handed out so far, this one with them. A none has both as they stand
 * in the walk: 0 and 0 before the first key. Else numbers and buf stay as they were, out is six zeros, or stays as it was where its
 * length is not 6, and the number is
 *   21  the record is no walk's (lengths other than 76, 256 and 256, numbers[PB_KIND] over 255, numbers[PB_STATE] over 3,
 *       numbers[PB_MODE] over 1), or it is out of range (image length not image_len, depth over 31, offset not 8 * depth, offset plus
 *       length over 256, position over 15, kind over 2, bound length over 256, last depth over 31, count above image_len), or
 *       the length of out is not 6; an ended walk is no exception;
 *   22  the image cannot be read on;
 *   23  more moves than the image has bytes.
 * A walk that a placing put over an image that the check accepts, and that only steps over that image have changed, meets none of
 * the three where out has six places. One over an image that the check does not accept can meet 21 too, though never altered: it may
 * hand out more keys than the image has bytes, and with the key that brings its count above image_len it is out of range.
 * A step that hands out the key of an included bound leaves the walk ended, whatever the image holds behind it: numbers[PB_STATE] is 3,
 * and the next step over that image says none with 0 moves (or 21, where this key has brought the count above image_len). */
uint8_t pb_step(uint64_t *numbers, size_t numbers_len, uint8_t *buf, size_t buf_len, const uint8_t *bound, size_t bound_len,
                const uint8_t *image, size_t image_len, uint64_t *out, size_t out_len);

/* How many keys a walk above a cursor hands out. Returns 0, and then out is { count }; else the check's number, or 11, 12 or 13 as a
 * placing, and then out is { 0 }. out stays as it was where its length is not 1. */
uint8_t pb_tally(const uint8_t *image, size_t image_len, const uint8_t *cursor, size_t cursor_len, uint8_t kind,
                 const uint8_t *bound_key, size_t bound_key_len, uint64_t *out, size_t out_len);

/* Builds an image from a sheet of edition 1, the lines of a listing. Returns 0, and then the first bytes of out are the image, those
 * behind it stay as they were, and len is { the image's length }: pb_check accepts the image, and a walk over it from an empty cursor
 * on hands out the sheet's keys and values. Else nothing of out is written, len is { 0 }, and the number is the first of
 *   31  a line is not in the sheet's form, or the first line has another number than there are keys;
 *   32  a key is over 256 bytes, or not above the one before;
 *   33  out is shorter than the image, or the image would be over 16,777,216 bytes.
 * len stays as it was where its length is not 1. */
uint64_t pb_build(const uint8_t *sheet, size_t sheet_len, uint8_t *out, size_t out_len, uint64_t *len, size_t len_len);

#ifdef __cplusplus
}
#endif

#endif
