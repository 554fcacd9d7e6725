/* What the examples share. */
#ifndef FILE_H
#define FILE_H

#include <stdio.h>
#include <stdlib.h>

#include "punchbronze.h"

/* A file's bytes, or NULL. */
static uint8_t *read_file(const char *name, size_t *len)
{
    FILE *f = fopen(name, "rb");
    if (!f) {
        return NULL;
    }
    size_t room = 4096, n = 0, got;
    uint8_t *bytes = malloc(room);
    while (bytes && (got = fread(bytes + n, 1, room - n, f)) > 0) {
        n += got;
        if (n == room) {
            room *= 2;
            uint8_t *more = realloc(bytes, room);
            if (!more) {
                free(bytes);
            }
            bytes = more;
        }
    }
    fclose(f);
    *len = n;
    return bytes;
}

/* A key's line: its bytes in hex, and its value. */
static void print_key(const uint8_t *key, uint64_t len, uint64_t value)
{
    putchar('=');
    for (uint64_t i = 0; i < len; i++) {
        printf("%02x", key[i]);
    }
    printf(" %llu\n", (unsigned long long)value);
}

#endif
