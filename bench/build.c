/* Times the building of an image from a sheet: build SHEET IMAGE REPEATS. With a sheet alone nothing is timed: it must be declined with 33
 * however long the output.
 *
 * The image must come out byte by byte as in the file IMAGE, with nothing written behind it, and an output of one byte less must be declined
 * with 33 and stay as it was; else the program stops. Building and checking take turns, REPEATS times, and a line is printed with the
 * shortest of their runs:
 *   SHEET keys N sheet BYTES image BYTES build NS check NS */
#include "common.h"

enum { MARK = 0xa5, BEHIND = 64 };

static uint8_t *read_file(const char *name, size_t *len)
{
    FILE *f = fopen(name, "rb");
    long end = f && fseek(f, 0, SEEK_END) == 0 ? ftell(f) : -1;
    uint8_t *bytes = end >= 0 ? malloc((size_t)end + 1) : NULL;
    if (bytes) {
        rewind(f);
        *len = fread(bytes, 1, (size_t)end, f);
    }
    if (f) {
        fclose(f);
    }
    return bytes;
}

static int is_marked(const uint8_t *bytes, size_t len)
{
    for (size_t i = 0; i < len; i++) {
        if (bytes[i] != MARK) {
            return 0;
        }
    }
    return 1;
}

/* Whether the sheet gives the image, and only where there is room for it. */
static int is_right(const uint8_t *sheet, size_t sheet_len, const uint8_t *image, size_t image_len, uint8_t *out)
{
    uint64_t len[1] = {1};
    memset(out, MARK, image_len + BEHIND);
    if (pb_build(sheet, sheet_len, out, image_len - 1, len, 1) != 33 || len[0] != 0 || !is_marked(out, image_len + BEHIND)) {
        return 0;
    }
    if (pb_build(sheet, sheet_len, out, image_len + BEHIND, len, 1) != 0 || len[0] != image_len) {
        return 0;
    }
    return memcmp(out, image, image_len) == 0 && is_marked(out + image_len, BEHIND);
}

/* Whether the sheet's image is over the longest. */
static int is_too_long(const uint8_t *sheet, size_t sheet_len)
{
    const size_t room = (size_t)1 << 25;
    uint64_t len[1] = {1};
    uint8_t *out = malloc(room);
    if (!out) {
        return 0;
    }
    memset(out, MARK, room);
    int told = pb_build(sheet, sheet_len, out, room, len, 1) == 33 && len[0] == 0 && is_marked(out, room);
    free(out);
    return told;
}

int main(int argc, char **argv)
{
    size_t sheet_len = 0, image_len = 0;
    uint8_t *sheet = argc == 2 || argc == 4 ? read_file(argv[1], &sheet_len) : NULL;
    if (sheet && argc == 2) {
        int told = is_too_long(sheet, sheet_len);
        if (!told) {
            fprintf(stderr, "%s: not declined with 33\n", argv[1]);
        }
        return told ? 0 : 1;
    }
    uint8_t *image = argc == 4 ? read_file(argv[2], &image_len) : NULL;
    int repeats = argc == 4 ? atoi(argv[3]) : 0;
    uint8_t *out = image_len >= 440 ? malloc(image_len + BEHIND) : NULL;
    if (!sheet || !image || !out || repeats < 1) {
        fprintf(stderr, "usage: build SHEET [IMAGE REPEATS]\n");
        return 2;
    }
    if (!is_right(sheet, sheet_len, image, image_len, out)) {
        fprintf(stderr, "%s: another image is built\n", argv[1]);
        return 1;
    }
    double build = 0, check = 0;
    for (int r = 0; r < repeats; r++) {
        uint64_t len[1], counts[3];
        double t0 = now();
        uint64_t number = pb_build(sheet, sheet_len, out, image_len, len, 1);
        double t1 = now();
        number += pb_check(out, image_len, counts, 3);
        double t2 = now();
        if (number != 0 || counts[1] != stated(image, image_len)) {
            fprintf(stderr, "%s: the image is not accepted\n", argv[1]);
            return 1;
        }
        build = r == 0 || t1 - t0 < build ? t1 - t0 : build;
        check = r == 0 || t2 - t1 < check ? t2 - t1 : check;
    }
    printf("%s keys %llu sheet %zu image %zu build %.0f check %.0f\n", argv[1], (unsigned long long)stated(image, image_len), sheet_len, image_len,
           build, check);
    return 0;
}
