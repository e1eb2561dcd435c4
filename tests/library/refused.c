/* Tests of the library where memory is refused: each request of each call in turn, alone, and with all behind it. Such
 * a call says so (LYTAB_MEMORY) and nothing else, and its blocks are left alone; what it was given it gives back.
 *
 *     refused EXAMPLES
 *
 * EXAMPLES is the folder examples/ of the repository. It is linked with --wrap=malloc, --wrap=realloc and --wrap=free.
 * The last line is 'N passed, M failed'.
 */
#include "check.h"

enum { ROOM = 4000, PARTS = 20 };

/* How many requests are granted before one is refused, and whether all behind it are too; below 0, all are granted. */
static long granted = -1;
static int all_behind;
/* How many blocks are held. */
static long held;

void *__real_malloc(size_t size);
void *__real_realloc(void *at, size_t size);
void __real_free(void *at);
void *__wrap_malloc(size_t size);
void *__wrap_realloc(void *at, size_t size);
void __wrap_free(void *at);

static int is_refused(void) {
    if (granted < 0) return 0;
    if (granted > 0) {
        granted--;
        return 0;
    }
    if (!all_behind) granted = -1;
    return 1;
}

void *__wrap_malloc(size_t size) {
    void *given = is_refused() ? NULL : __real_malloc(size);
    held += given != NULL;
    return given;
}

void *__wrap_realloc(void *at, size_t size) {
    void *given = is_refused() ? NULL : __real_realloc(at, size);
    held += given && !at;
    return given;
}

void __wrap_free(void *at) {
    held -= at != NULL;
    __real_free(at);
}

static bytes_read tables, lex, yacc;
static uint8_t *bytes;
static uint64_t *ends;
static lytab_part *parts;
static lytab_report report;

static uint32_t a_tree(void) {
    return lytab_parse(tables.bytes, tables.length, (const uint8_t *)"(1 + 2) * 3;", 12, parts, PARTS,
                       (uint32_t *)bytes, ROOM / 4, &report);
}

static uint32_t a_refused_text(void) {
    return lytab_parse(tables.bytes, tables.length, (const uint8_t *)"1 + * 3;", 8, parts, PARTS, (uint32_t *)bytes,
                       ROOM / 4, &report);
}

static uint32_t many_texts(void) {
    static const uint64_t three[] = {2, 6, 18};
    return lytab_parse_all(tables.bytes, tables.length, (const uint8_t *)"1;1 + (1 + 2) * 3;", 18, three, 3,
                           (lytab_text *)ends, ROOM / sizeof(lytab_text), parts, PARTS, (uint32_t *)bytes, ROOM / 4,
                           &report);
}

static uint32_t tokens(void) {
    static const lytab_token four[] = {{2, 0, 0, 1}, {3, 0, 1, 2}, {2, 0, 2, 3}, {9, 0, 3, 4}};
    return lytab_parse_tokens(tables.bytes, tables.length, (const uint8_t *)"1+2;", 4, four, 4, parts, PARTS,
                              (uint32_t *)bytes, ROOM / 4, &report);
}

static uint32_t an_answer(void) {
    return lytab_answer(tables.bytes, tables.length, (const uint8_t *)"(1 + 2) * 3;", 12, bytes, ROOM, &report);
}

static uint32_t json(void) {
    return lytab_json(tables.bytes, tables.length, (const uint8_t *)"1 + * 3;", 8, bytes, ROOM, &report);
}

/* What is counted, and what is said of a build, is laid over a report: all of it is 0. */
static uint32_t names(void) {
    lytab_counts counts;
    memset(&counts, FILL, sizeof counts);
    uint32_t status = lytab_names(tables.bytes, tables.length, ends, ROOM / 8, bytes, ROOM, &counts);
    memset(&report, 0, sizeof report);
    memcpy(&report, &counts, sizeof counts);
    return status;
}

static uint32_t a_build(void) {
    lytab_built built;
    memset(&built, FILL, sizeof built);
    uint32_t status = lytab_build(lex.bytes, lex.length, yacc.bytes, yacc.length, bytes, ROOM, &built);
    memset(&report, 0, sizeof report);
    memcpy(&report, &built, sizeof built);
    return status;
}

static const struct {
    const char *name;
    uint32_t (*call)(void);
    uint32_t status;
} tests[] = {
    {"a tree", a_tree, LYTAB_DONE},
    {"a refused text", a_refused_text, LYTAB_REFUSED},
    {"many texts", many_texts, LYTAB_DONE},
    {"tokens", tokens, LYTAB_DONE},
    {"an answer", an_answer, LYTAB_DONE},
    {"an answer in JSON", json, LYTAB_REFUSED},
    {"names", names, LYTAB_DONE},
    {"a build", a_build, LYTAB_DONE},
};

static void fill(void) {
    memset(&report, FILL, sizeof report);
    memset(bytes, FILL, ROOM);
    memset(ends, FILL, ROOM);
    memset(parts, FILL, PARTS * sizeof *parts);
}

/* Refuses the requests of a call in turn, and answers how many it has. */
static long refuse_each(uint32_t (*call)(void), uint32_t wanted) {
    static const lytab_report nothing;
    for (long request = 0;; request++) {
        long before = held;
        fill();
        granted = request;
        uint32_t status = call();
        int was_refused = all_behind ? granted == 0 : granted < 0;
        granted = -1;
        CHECK(held == before);
        if (!was_refused) {
            CHECK(status == wanted);
            return request;
        }
        if (status != LYTAB_MEMORY) {
            /* it can do without what was refused */
            CHECK(status == wanted);
            continue;
        }
        CHECK(!memcmp(&report, &nothing, sizeof report));
        CHECK(is_filled(bytes, ROOM) && is_filled(ends, ROOM) && is_filled(parts, PARTS * sizeof *parts));
    }
}

int main(int count, char **words) {
    if (count != 2) return 4;
    tables = tables_of(words[1], "calc.l", "calc.y");
    lex = file_of(words[1], "calc.l");
    yacc = file_of(words[1], "calc.y");
    bytes = block(ROOM);
    ends = block(ROOM);
    parts = block(PARTS * sizeof *parts);
    int passed = 0, failed = 0;
    for (size_t i = 0; i < sizeof tests / sizeof *tests; i++) {
        failures = 0;
        all_behind = 0;
        long requests = refuse_each(tests[i].call, tests[i].status);
        all_behind = 1;
        refuse_each(tests[i].call, tests[i].status);
        CHECK(is_guarded(bytes, ROOM) && is_guarded(ends, ROOM) && is_guarded(parts, PARTS * sizeof *parts));
        printf("refused: %s: %ld requests\n", tests[i].name, requests);
        passed += !failures;
        failed += failures != 0;
    }
    release(bytes);
    release(ends);
    release(parts);
    free(tables.bytes);
    free(lex.bytes);
    free(yacc.bytes);
    printf("%d passed, %d failed\n", passed, failed);
    return failed != 0;
}
