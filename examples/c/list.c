/* Lists the keys of an image: list FILE. The first line has the check's three numbers, the last one the moves; between them each line is a
 * key's bytes in hex, and its value. An image that the check declines prints `refused` and its number. */
#include "file.h"

int main(int argc, char **argv)
{
    size_t len = 0;
    uint8_t *image = argc == 2 ? read_file(argv[1], &len) : NULL;
    if (!image) {
        fprintf(stderr, "usage: list FILE\n");
        return 2;
    }
    uint64_t counts[3];
    uint8_t code = pb_check(image, len, counts, 3);
    if (code != 0) {
        printf("refused %d\n", code);
        free(image);
        return 1;
    }
    printf("leaves %llu values %llu layers %llu\n", (unsigned long long)counts[0], (unsigned long long)counts[1],
           (unsigned long long)counts[2]);

    const uint8_t none[1] = {0};
    pb_walk walk;
    code = pb_place_from(image, len, none, 0, PB_UNBOUNDED, none, 0, walk.numbers, PB_NUMBERS, walk.buf, PB_BUFFER, walk.bound,
                         PB_BUFFER);
    uint64_t out[6] = {0};
    uint64_t moves = 0;
    while (code == 0) {
        code = pb_step(walk.numbers, PB_NUMBERS, walk.buf, PB_BUFFER, walk.bound, PB_BUFFER, image, len, out, 6);
        if (code != 0) {
            break;
        }
        moves += out[3];
        if (out[0] == 0) {
            break;
        }
        print_key(walk.buf, out[1], out[2]);
    }
    if (code != 0) {
        printf("declined %d\n", code);
    } else {
        printf("moves %llu\n", (unsigned long long)moves);
    }
    free(image);
    return code;
}
