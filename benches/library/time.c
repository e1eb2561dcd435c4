/* Times lytab_parse beside a parser of flex and bison that makes a tree with places in an arena, of the same text, in
 * turn; and many small texts by the calculator's tables. It says the least of so many runs.
 *
 *     time JSON_TABLES TEXT CALC_TABLES RUNS
 */
#define _POSIX_C_SOURCE 200809L
#include "lytab.h"
#include "peer.h"

#include <stdio.h>
#include <string.h>
#include <time.h>

int json_parse(void);

enum { CHUNK = 4096, MANY = 100 * 1000, CALLS = 2000 };

typedef struct {
    uint8_t *bytes;
    size_t length;
} bytes_read;

struct chunk {
    struct chunk *before;
    struct node parts[CHUNK];
};

struct node *root;
size_t parts_made;
static struct chunk *arena;
static size_t used = CHUNK;

struct node *part(uint32_t kind, uint32_t number, size_t start, size_t end, struct node *child) {
    if (used == CHUNK) {
        struct chunk *more = malloc(sizeof *more);
        if (!more) exit(3);
        more->before = arena;
        arena = more;
        used = 0;
    }
    parts_made++;
    arena->parts[used] = (struct node){kind, number, start, end, child, NULL};
    return &arena->parts[used++];
}

static void forget(void) {
    while (arena) {
        struct chunk *before = arena->before;
        free(arena);
        arena = before;
    }
    used = CHUNK;
}

static double seconds(void) {
    struct timespec now;
    clock_gettime(CLOCK_MONOTONIC, &now);
    return (double)now.tv_sec + (double)now.tv_nsec / 1e9;
}

static bytes_read file_of(const char *path) {
    bytes_read r = {NULL, 0};
    FILE *file = fopen(path, "rb");
    if (!file || fseek(file, 0, SEEK_END)) exit(3);
    r.length = (size_t)ftell(file);
    rewind(file);
    r.bytes = calloc(r.length + 2, 1);
    if (!r.bytes || fread(r.bytes, 1, r.length, file) != r.length) exit(3);
    fclose(file);
    return r;
}

static double least(double old, double since) {
    double took = seconds() - since;
    return took < old ? took : old;
}

static void compare(bytes_read tables, bytes_read text, int runs) {
    lytab_report report;
    if (lytab_parse(tables.bytes, tables.length, text.bytes, text.length, NULL, 0, NULL, 0, &report) != LYTAB_SHORT)
        exit(1);
    size_t room = report.needed;
    lytab_part *parts = malloc(room * sizeof *parts);
    char *copy = malloc(text.length + 2);
    double ours = 1e9, theirs = 1e9;
    for (int i = 0; i < runs; i++) {
        double start = seconds();
        if (lytab_parse(tables.bytes, tables.length, text.bytes, text.length, parts, room, NULL, 0, &report)) exit(1);
        ours = least(ours, start);
        memcpy(copy, text.bytes, text.length + 2);
        parts_made = 0;
        start = seconds();
        if (begin_text(copy, text.length) || json_parse()) exit(1);
        theirs = least(theirs, start);
        if (root->start != parts[0].start || root->end != parts[0].end || parts_made != room) exit(1);
        forget();
    }
    printf("%zu bytes, %zu parts: lytab_parse %.3f s, flex and bison %.3f s, ratio %.2f\n", text.length, room, ours,
           theirs, ours / theirs);
    free(parts);
    free(copy);
}

static void small(bytes_read tables, int runs) {
    static const char one[] = "1 + 2 * 3;";
    uint8_t *texts = malloc(MANY * 10);
    uint64_t *ends = malloc(MANY * sizeof *ends);
    lytab_text *told = malloc(MANY * sizeof *told);
    lytab_part *parts = malloc(MANY * 7 * sizeof *parts);
    lytab_report report;
    double many = 1e9, calls = 1e9;
    for (size_t i = 0; i < MANY; i++) {
        memcpy(texts + 10 * i, one, 10);
        ends[i] = 10 * (i + 1);
    }
    for (int run = 0; run < runs; run++) {
        double start = seconds();
        for (int i = 0; i < CALLS; i++)
            if (lytab_parse(tables.bytes, tables.length, texts, 10, parts, 7, NULL, 0, &report)) exit(1);
        calls = least(calls, start);
        start = seconds();
        if (lytab_parse_all(tables.bytes, tables.length, texts, MANY * 10, ends, MANY, told, MANY, parts, MANY * 7, NULL,
                            0, &report))
            exit(1);
        many = least(many, start);
    }
    printf("lytab_parse of 10 bytes %.4f ms, lytab_parse_all of %d such texts %.3f s\n", 1e3 * calls / CALLS, MANY, many);
    free(texts);
    free(ends);
    free(told);
    free(parts);
}

int main(int count, char **words) {
    if (count != 5) return 4;
    bytes_read json = file_of(words[1]), text = file_of(words[2]), calculator = file_of(words[3]);
    int runs = atoi(words[4]);
    small(calculator, runs);
    compare(json, text, runs);
    return 0;
}
