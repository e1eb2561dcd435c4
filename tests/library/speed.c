/* How long calls of the library take: `lytab_parse` of a text of 10 MB, of one of 10 bytes, and of a given text, and
 * `lytab_parse_all` of 100,000 texts of 10 bytes. It fails where one takes more than a minute.
 *
 *     speed EXAMPLES TABLES [LEX YACC TEXT]
 *
 * EXAMPLES is the folder examples/ of the repository, and TABLES the table file of the calculator there; LEX, YACC and
 * TEXT are files, whose text is timed too. The last line is 'N passed, M failed'.
 */
#define _POSIX_C_SOURCE 200809L
#include "check.h"

#include <time.h>

enum { LONG = 10 * 1000 * 1000, TIMES = 5, CALLS = 1000, TEXTS = 100 * 1000 };

static double seconds(void) {
    struct timespec now;
    clock_gettime(CLOCK_MONOTONIC, &now);
    return (double)now.tv_sec + (double)now.tv_nsec / 1e9;
}

/* A text of an array of small objects, of about LONG bytes. */
static bytes_read long_json(void) {
    static const char object[] = "{\"name\": \"value\", \"list\": [1, -2.5e3, true, null]},\n ";
    bytes_read made = {needed(malloc(LONG + 200)), 0};
    made.bytes[made.length++] = '[';
    while (made.length < LONG) {
        memcpy(made.bytes + made.length, object, sizeof object - 1);
        made.length += sizeof object - 1;
    }
    memcpy(made.bytes + made.length, "0]", 2);
    made.length += 2;
    return made;
}

/* Times a text of any length, whose parts are counted first; the least of some times is told. */
static void time_text(const char *of, bytes_read tables, bytes_read text) {
    lytab_report report;
    CHECK(lytab_parse(tables.bytes, tables.length, text.bytes, text.length, NULL, 0, NULL, 0, &report) == LYTAB_SHORT);
    size_t room = report.needed;
    lytab_part *parts = block(room * sizeof *parts);
    double least = 1e9;
    for (int i = 0; i < TIMES; i++) {
        double start = seconds();
        CHECK(lytab_parse(tables.bytes, tables.length, text.bytes, text.length, parts, room, NULL, 0, &report) ==
              LYTAB_DONE);
        double took = seconds() - start;
        least = took < least ? took : least;
    }
    CHECK(is_guarded(parts, room * sizeof *parts));
    CHECK(parts[0].next == room);
    CHECK(least < 60);
    printf("speed: lytab_parse of %zu bytes of %s: %.3f seconds, %zu parts\n", text.length, of, least, room);
    release(parts);
}

/* Times calls with a short text. How fast they are goes by what the C library keeps of memory that is given back: it
 * keeps more once large blocks were. */
static void time_calls(const char *when, bytes_read tables) {
    lytab_part parts[8];
    lytab_report report;
    double start = seconds();
    for (int i = 0; i < CALLS; i++)
        CHECK(lytab_parse(tables.bytes, tables.length, (const uint8_t *)"1 + 2 * 3;", 10, parts, 8, NULL, 0, &report) ==
              LYTAB_DONE);
    double took = (seconds() - start) / CALLS;
    CHECK(report.needed == 7);
    CHECK(took < 1);
    printf("speed: lytab_parse of 10 bytes by the calculator's %zu bytes of tables, %s: %.4f milliseconds\n",
           tables.length, when, 1e3 * took);
}

/* Times one call with many short texts. */
static void time_texts(bytes_read tables) {
    static const char text[] = "1 + 2 * 3;";
    uint8_t *texts = needed(malloc(TEXTS * 10));
    uint64_t *ends = needed(malloc(TEXTS * sizeof *ends));
    lytab_text *reports = needed(malloc(TEXTS * sizeof *reports));
    lytab_part *parts = needed(malloc(TEXTS * 7 * sizeof *parts));
    lytab_report report;
    for (size_t i = 0; i < TEXTS; i++) {
        memcpy(texts + 10 * i, text, 10);
        ends[i] = 10 * (i + 1);
    }
    double start = seconds();
    CHECK(lytab_parse_all(tables.bytes, tables.length, texts, TEXTS * 10, ends, TEXTS, reports, TEXTS, parts, TEXTS * 7,
                          NULL, 0, &report) == LYTAB_DONE);
    double took = seconds() - start;
    CHECK(report.needed == TEXTS * 7 && reports[TEXTS - 1].parts_end == report.needed);
    CHECK(took < 60);
    printf("speed: lytab_parse_all of %d texts of 10 bytes: %.3f seconds\n", TEXTS, took);
    free(texts);
    free(ends);
    free(reports);
    free(parts);
}

int main(int count, char **words) {
    if (count != 3 && count != 6) return 4;
    bytes_read calculator = file_of(".", words[2]);
    time_calls("at first", calculator);
    bytes_read json = tables_of(words[1], "json.l", "json.y"), text = long_json();
    time_text("JSON", json, text);
    time_calls("behind a long text", calculator);
    time_texts(calculator);
    if (count == 6) {
        bytes_read given = tables_of(".", words[3], words[4]), read = file_of(".", words[5]);
        time_text(words[5], given, read);
        free(given.bytes);
        free(read.bytes);
    }
    free(json.bytes);
    free(text.bytes);
    free(calculator.bytes);
    printf("%d passed, %d failed\n", !failures, failures != 0);
    return failures != 0;
}
