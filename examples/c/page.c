/* Pages through the keys of an image: page FILE. A page has twenty keys at most, and each is a walk of its own: the first from the
 * empty key on, every other above the last key of the page before. Nothing is kept from page to page but that key. */
#include "file.h"

#include <string.h>

enum { PAGE = 20 };

/* The name that the next page goes on from. */
struct name {
    uint8_t bytes[PB_BUFFER];
    size_t len;
};

/* One page; how many keys it has, or the number that the library declined with, as a negative number. */
static int page(const uint8_t *image, size_t len, int first, struct name *last)
{
    const uint8_t none[1] = {0};
    pb_walk walk;
    uint8_t code = (first ? pb_place_from : pb_place_above)(image, len, last->bytes, last->len, PB_UNBOUNDED, none, 0, walk.numbers,
                                                            PB_NUMBERS, walk.buf, PB_BUFFER, walk.bound, PB_BUFFER);
    int keys = 0;
    while (code == 0 && keys < PAGE) {
        uint64_t out[6] = {0};
        code = pb_step(walk.numbers, PB_NUMBERS, walk.buf, PB_BUFFER, walk.bound, PB_BUFFER, image, len, out, 6);
        if (code == 0 && out[0] == 0) {
            return keys;
        }
        if (code == 0) {
            print_key(walk.buf, out[1], out[2]);
            last->len = out[1];
            memcpy(last->bytes, walk.buf, last->len);
            keys++;
        }
    }
    return code == 0 ? keys : -code;
}

int main(int argc, char **argv)
{
    size_t len = 0;
    uint8_t *image = argc == 2 ? read_file(argv[1], &len) : NULL;
    if (!image) {
        fprintf(stderr, "usage: page FILE\n");
        return 2;
    }
    uint64_t counts[3];
    struct name last = {{0}, 0};
    uint8_t code = pb_check(image, len, counts, 3);
    int keys = code == 0 ? page(image, len, 1, &last) : -code;
    while (keys == PAGE) {
        puts("--");
        keys = page(image, len, 0, &last);
    }
    if (keys < 0) {
        printf("refused %d\n", -keys);
    }
    free(image);
    return keys < 0;
}
