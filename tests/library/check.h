/* What the tests of the library share: checks that are counted, blocks with guard bytes round them, and files. */
#ifndef CHECK_H
#define CHECK_H

#include "lytab.h"

#include <stddef.h>
#include <stdint.h>
#include <stdio.h>
#include <stdlib.h>
#include <string.h>

enum { GUARD = 64, FILL = 0xA5 };

/* Bytes that are read. */
typedef struct {
    uint8_t *bytes;
    size_t length;
} bytes_read;

static int failures;

/* Says of a condition that doesn't hold where it stands. */
#define CHECK(condition) ((condition) ? (void)0 : told(__FILE__, __LINE__, #condition))

static void told(const char *file, int line, const char *condition) {
    printf("%s:%d: not so: %s\n", file, line, condition);
    failures++;
}

static void *needed(void *memory) {
    if (!memory) {
        puts("the test itself ran out of memory");
        exit(3);
    }
    return memory;
}

/* A block of so many bytes, filled with a byte that isn't likely, and with guard bytes on both sides. */
static void *block(size_t length) {
    uint8_t *whole = needed(malloc(length + 2 * GUARD));
    memset(whole, FILL, length + 2 * GUARD);
    return whole + GUARD;
}

static int is_filled(const void *from, size_t length) {
    const uint8_t *bytes = from;
    for (size_t i = 0; i < length; i++)
        if (bytes[i] != FILL) return 0;
    return 1;
}

/* Whether nothing was written round a block. */
static int is_guarded(const void *inside, size_t length) {
    const uint8_t *bytes = inside;
    return is_filled(bytes - GUARD, GUARD) && is_filled(bytes + length, GUARD);
}

static void release(void *inside) {
    free((uint8_t *)inside - GUARD);
}

/* A file of a folder, or the one of a path that begins with a slash. */
static bytes_read file_of(const char *folder, const char *name) {
    char path[4096];
    snprintf(path, sizeof path, "%s%s%s", *name == '/' ? "" : folder, *name == '/' ? "" : "/", name);
    FILE *file = fopen(path, "rb");
    if (!file) {
        printf("%s can't be read\n", path);
        exit(3);
    }
    bytes_read read = {NULL, 0};
    for (size_t room = 1 << 20; !feof(file) && !ferror(file); room *= 2) {
        read.bytes = needed(realloc(read.bytes, room));
        read.length += fread(read.bytes + read.length, 1, room - read.length, file);
    }
    fclose(file);
    return read;
}

/* The table file of the files of two names in a folder. */
static bytes_read tables_of(const char *folder, const char *lex, const char *yacc) {
    bytes_read one = file_of(folder, lex), other = file_of(folder, yacc), made = {needed(malloc(1 << 20)), 0};
    lytab_built built;
    CHECK(lytab_build(one.bytes, one.length, other.bytes, other.length, made.bytes, 1 << 20, &built) == LYTAB_DONE);
    made.length = built.needed;
    free(one.bytes);
    free(other.bytes);
    return made;
}

#endif
