/* Reads a configuration file with liblytab, and prints its settings, each after the sections that contain it:
 *
 *     lytab build config.l config.y config.tables
 *     config config.tables server.conf
 *
 * Errors are printed in the format of compilers, with the line and a caret. The exit status is that of the library.
 */
#include <lytab.h>
#include <stdio.h>
#include <stdlib.h>
#include <string.h>

enum { DEEPEST = 100 };

/* Bytes and their number. */
typedef struct {
    uint8_t *bytes;
    size_t length;
} file_bytes;

/* The names of the terminals and rules of a table file. */
typedef struct {
    uint64_t *ends;
    char *bytes;
    uint64_t terminals;
} table_names;

/* A name. It isn't terminated by a zero byte. */
typedef struct {
    const char *begin;
    int length;
} name;

static void *checked(void *memory) {
    if (!memory) {
        fputs("config: out of memory\n", stderr);
        exit(LYTAB_MEMORY);
    }
    return memory;
}

static file_bytes read_file(const char *path) {
    FILE *file = fopen(path, "rb");
    if (!file) {
        perror(path);
        exit(LYTAB_MEMORY);
    }
    file_bytes read = {NULL, 0};
    for (size_t room = 4096; !feof(file) && !ferror(file); room *= 2) {
        read.bytes = checked(realloc(read.bytes, room));
        read.length += fread(read.bytes + read.length, 1, room - read.length, file);
    }
    fclose(file);
    return read;
}

/* The names of a table file. The first call returns only their sizes. */
static table_names names_of(const char *path, file_bytes tables) {
    lytab_counts counts;
    table_names names = {NULL, NULL, 0};
    uint32_t status = lytab_names(tables.bytes, tables.length, NULL, 0, NULL, 0, &counts);
    if (status == LYTAB_SHORT) {
        names.ends = checked(calloc(counts.terminals + counts.rules, sizeof *names.ends));
        names.bytes = checked(malloc(counts.bytes));
        status = lytab_names(tables.bytes, tables.length, names.ends, counts.terminals + counts.rules,
                             (uint8_t *)names.bytes, counts.bytes, &counts);
    }
    if (status != LYTAB_DONE) {
        fprintf(stderr, "%s: fault %u\n", path, (unsigned)counts.fault);
        exit((int)status);
    }
    names.terminals = counts.terminals;
    return names;
}

static name name_at(table_names names, uint64_t index) {
    uint64_t begin = index ? names.ends[index - 1] : 0;
    name found = {names.bytes + begin, (int)(names.ends[index] - begin)};
    return found;
}

/* Whether a part is a node of a constructor. */
static int is_node(table_names names, const lytab_part *part, const char *constructor) {
    if (part->kind != LYTAB_NODE) return 0;
    name found = name_at(names, names.terminals + part->number - 1);
    return strlen(constructor) == (size_t)found.length && !memcmp(constructor, found.begin, (size_t)found.length);
}

/* Prints the line of a byte, with a caret under the byte. */
static void show_line(file_bytes text, size_t at, uint64_t column) {
    size_t begin = at - (size_t)(column - 1), end = begin;
    while (end < text.length && text.bytes[end] != '\n') end++;
    if (begin == end) return;
    fprintf(stderr, "    %.*s\n    ", (int)(end - begin), (const char *)text.bytes + begin);
    for (size_t i = begin; i < at; i++) fputc(text.bytes[i] == '\t' ? '\t' : ' ', stderr);
    fputs("^\n", stderr);
}

/* Prints the error of a rejected text. */
static void print_error(const char *path, file_bytes text, table_names names, const lytab_report *report,
                        const uint32_t *expected) {
    uint64_t line, column;
    lytab_locate(text.bytes, text.length, report->start, &line, &column);
    fprintf(stderr, "%s:%llu:%llu: ", path, (unsigned long long)line, (unsigned long long)column);
    if (!report->number) {
        fputs("no token begins with this byte\n", stderr);
    } else {
        if (!report->terminal)
            fputs("unexpected end of the text; expected:", stderr);
        else
            fprintf(stderr, "unexpected '%.*s'; expected:", (int)(report->end - report->start),
                    (const char *)text.bytes + report->start);
        for (uint64_t i = 0; i < report->expected; i++) {
            name of = name_at(names, expected[i]);
            fprintf(stderr, " %.*s", of.length, of.begin);
        }
        fputc('\n', stderr);
    }
    show_line(text, report->start, column);
}

static void print_part(file_bytes text, const lytab_part *part) {
    printf("%.*s", (int)(part->end - part->start), (const char *)text.bytes + part->start);
}

/* Prints the settings. Parts are in the order of the text, and each precedes its children, so one loop over the list is
 * enough. A part is in the sections whose last part isn't reached yet. */
static void print_settings(file_bytes text, table_names names, const lytab_part *parts, uint64_t count) {
    uint64_t sections[DEEPEST];
    size_t depth = 0;
    for (uint64_t i = 0; i < count; i++) {
        while (depth && parts[sections[depth - 1]].next <= i) depth--;
        if (is_node(names, &parts[i], "Section")) {
            if (depth == DEEPEST) {
                fputs("config: sections are nested too deeply\n", stderr);
                exit(LYTAB_REFUSED);
            }
            sections[depth++] = i;
        } else if (is_node(names, &parts[i], "Setting")) {
            /* the first child of a section and of a setting is its name */
            for (size_t k = 0; k < depth; k++) {
                print_part(text, &parts[sections[k] + 1]);
                putchar('.');
            }
            print_part(text, &parts[i + 1]);
            fputs(" = ", stdout);
            print_part(text, &parts[parts[i + 1].next]);
            putchar('\n');
        }
    }
}

int main(int count, char **words) {
    if (count != 3) {
        fputs("usage: config TABLES FILE\n", stderr);
        return 4;
    }
    file_bytes tables = read_file(words[1]), text = read_file(words[2]);
    table_names names = names_of(words[1], tables);
    uint32_t *expected = checked(calloc(names.terminals, sizeof *expected));
    lytab_part *parts = NULL;
    lytab_report report;
    uint32_t status;
    size_t room = 0;
    while ((status = lytab_parse(tables.bytes, tables.length, text.bytes, text.length, parts, room, expected,
                                 names.terminals, &report)) == LYTAB_SHORT) {
        room = report.needed;
        parts = checked(realloc(parts, room * sizeof *parts));
    }
    if (status == LYTAB_DONE)
        print_settings(text, names, parts, report.needed);
    else if (status == LYTAB_REFUSED)
        print_error(words[2], text, names, &report, expected);
    else
        fprintf(stderr, "config: status %u, fault %u\n", (unsigned)status, (unsigned)report.fault);
    free(parts);
    free(expected);
    free(names.ends);
    free(names.bytes);
    free(tables.bytes);
    free(text.bytes);
    return (int)status;
}
