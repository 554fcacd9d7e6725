/* Builds an image from a sheet and lists it: build SHEET IMAGE. The image goes into the file IMAGE; each line printed is a key's bytes in hex,
 * and its value, as the image has them. A sheet that the builder declines prints `refused` and its number, and no file is written. */
#include "file.h"

/* An image's longest length. */
enum { LONGEST = 16777216 };

/* The keys of an image; the number that the library declined with, or 0. */
static uint8_t print_keys(const uint8_t *image, size_t len)
{
    const uint8_t none[1] = {0};
    pb_walk walk;
    uint64_t out[6] = {0};
    uint8_t code = pb_place_from(image, len, none, 0, PB_UNBOUNDED, none, 0, walk.numbers, PB_NUMBERS, walk.buf, PB_BUFFER, walk.bound,
                                 PB_BUFFER);
    while (code == 0) {
        code = pb_step(walk.numbers, PB_NUMBERS, walk.buf, PB_BUFFER, walk.bound, PB_BUFFER, image, len, out, 6);
        if (code != 0 || out[0] == 0) {
            break;
        }
        print_key(walk.buf, out[1], out[2]);
    }
    return code;
}

static int write_file(const char *name, const uint8_t *bytes, size_t len)
{
    FILE *f = fopen(name, "wb");
    if (!f) {
        return 0;
    }
    int whole = fwrite(bytes, 1, len, f) == len;
    return fclose(f) == 0 && whole;
}

int main(int argc, char **argv)
{
    size_t len = 0;
    uint8_t *sheet = argc == 3 ? read_file(argv[1], &len) : NULL;
    uint8_t *image = malloc(LONGEST);
    if (!sheet || !image) {
        fprintf(stderr, "usage: build SHEET IMAGE\n");
        free(sheet);
        free(image);
        return 2;
    }
    uint64_t built[1];
    uint64_t code = pb_build(sheet, len, image, LONGEST, built, 1);
    if (code != 0) {
        printf("refused %llu\n", (unsigned long long)code);
    } else if (write_file(argv[2], image, built[0])) {
        code = print_keys(image, built[0]);
    } else {
        fprintf(stderr, "%s cannot be written\n", argv[2]);
        code = 2;
    }
    free(sheet);
    free(image);
    return code != 0;
}
