/* Tests of the library with what it isn't made for: table files that are cut and changed, texts that are changed, or
 * deep, and many threads at once. Of what is damaged only the status is looked at, and that nothing is written outside
 * of the blocks.
 *
 *     hostile EXAMPLES
 *
 * EXAMPLES is the folder examples/ of the repository. The last line is 'N passed, M failed'.
 */
#include "check.h"

#include <pthread.h>

enum { PARTS = 24, BYTES = 200, EXPECTED = 12, NAMES = 40, TEXTS = 3, THREADS = 8, ROUNDS = 100 };

static bytes_read calculator;
static const char text[] = "(1 + 2) * 3; -4 ^ 5;";

static int is_status(uint32_t status) {
    return status <= LYTAB_SHORT;
}

/* Blocks for all calls. They are filled anew for each table file or text. */
typedef struct {
    lytab_part *parts;
    uint32_t *expected;
    uint64_t *ends;
    uint8_t *bytes;
    lytab_text *told;
} blocks;

static blocks all_blocks(void) {
    blocks b = {block(PARTS * sizeof(lytab_part)), block(EXPECTED * 4), block(NAMES * 8), block(BYTES),
                block(TEXTS * sizeof(lytab_text))};
    return b;
}

static int are_guarded(blocks b) {
    return is_guarded(b.parts, PARTS * sizeof(lytab_part)) && is_guarded(b.expected, EXPECTED * 4) &&
           is_guarded(b.ends, NAMES * 8) && is_guarded(b.bytes, BYTES) &&
           is_guarded(b.told, TEXTS * sizeof(lytab_text));
}

static void release_all(blocks b) {
    release(b.parts);
    release(b.expected);
    release(b.ends);
    release(b.bytes);
    release(b.told);
}

/* Asks the calls for many texts, which are a text in parts, and for tokens, which are its bytes. Ends and tokens may be
 * none. */
static void ask_more(blocks b, const uint8_t *tables, size_t length, const uint8_t *of, size_t of_length) {
    lytab_report report;
    uint64_t ends[] = {of_length / 3, of_length / 3 + of_length % 4, of_length};
    lytab_token tokens[8];
    for (size_t i = 0; i < 8; i++) {
        uint8_t byte = i < of_length ? of[i] : 1;
        tokens[i] = (lytab_token){byte % 13, 0, i, i + byte % 3};
    }
    uint32_t status = lytab_parse_all(tables, length, of, of_length, ends, 3, b.told, TEXTS, b.parts, PARTS, b.expected,
                                      EXPECTED, &report);
    CHECK(is_status(status) && status != LYTAB_REFUSED);
    CHECK(is_status(lytab_parse_tokens(tables, length, of, of_length, tokens, of_length % 9, b.parts, PARTS, b.expected,
                                       EXPECTED, &report)));
}

/* Asks all calls that read a table file. The status of lytab_parse is handed back. */
static uint32_t ask(blocks b, const uint8_t *tables, size_t length, const void *of, size_t of_length) {
    lytab_report report;
    lytab_counts counts;
    CHECK(is_status(lytab_answer(tables, length, of, of_length, b.bytes, BYTES, &report)));
    CHECK(is_status(lytab_json(tables, length, of, of_length, b.bytes, BYTES, &report)));
    CHECK(is_status(lytab_names(tables, length, b.ends, NAMES, b.bytes, BYTES, &counts)));
    ask_more(b, tables, length, of, of_length);
    uint32_t status = lytab_parse(tables, length, of, of_length, b.parts, PARTS, b.expected, EXPECTED, &report);
    CHECK(is_status(status));
    CHECK(are_guarded(b));
    return status;
}

/* A file that is cut anywhere ends too early. */
static void cut_tables(void) {
    blocks b = all_blocks();
    for (size_t length = 0; length < calculator.length; length++) {
        uint8_t *cut = needed(malloc(length + 1));
        lytab_report report;
        memcpy(cut, calculator.bytes, length);
        CHECK(ask(b, cut, length, text, sizeof text - 1) == LYTAB_FAULT);
        CHECK(lytab_answer(cut, length, NULL, 0, NULL, 0, &report) == LYTAB_FAULT && report.fault == 82);
        free(cut);
    }
    CHECK(is_filled(b.parts, PARTS * sizeof(lytab_part)) && is_filled(b.bytes, BYTES));
    release_all(b);
}

static void changed_tables(void) {
    static const uint8_t changes[] = {0x01, 0x80, 0xff, 0x10};
    blocks b = all_blocks();
    unsigned statuses[LYTAB_SHORT + 1] = {0};
    for (size_t at = 0; at < calculator.length; at++) {
        for (size_t change = 0; change < sizeof changes; change++) {
            calculator.bytes[at] ^= changes[change];
            uint32_t status = ask(b, calculator.bytes, calculator.length, text, sizeof text - 1);
            if (is_status(status)) statuses[status]++;
            calculator.bytes[at] ^= changes[change];
        }
    }
    printf("hostile: changed tables: %u trees, %u texts refused, %u files refused, %u without room\n", statuses[0],
           statuses[1], statuses[2], statuses[5]);
    CHECK(statuses[0] && statuses[1] && statuses[2]);
    release_all(b);
}

static void changed_texts(void) {
    blocks b = all_blocks();
    uint8_t changed[sizeof text - 1];
    for (size_t at = 0; at < sizeof changed; at++) {
        for (unsigned byte = 0; byte < 256; byte += 5) {
            memcpy(changed, text, sizeof changed);
            changed[at] = (uint8_t)byte;
            uint32_t status = ask(b, calculator.bytes, calculator.length, changed, sizeof changed);
            CHECK(status == LYTAB_DONE || status == LYTAB_REFUSED);
        }
    }
    release_all(b);
}

/* Files that are built of damaged ones: each byte of the grammar changed. */
static void changed_grammars(void) {
    static const char lex[] = "%%\n[0-9]+ return NUM;\n[ab]{2} return NUM;\n[-+*] return yytext[0];\n\" \" ;\n";
    char yacc[] = "%token NUM\n%left '+'\n%%\ns : s '+' s { $$ = Add($1,$3); } | NUM | ;\n";
    uint8_t *found = block(10000);
    for (size_t at = 0; at < sizeof yacc - 1; at++) {
        for (unsigned change = 1; change < 256; change += 7) {
            lytab_built told_of;
            yacc[at] ^= (char)change;
            uint32_t status = lytab_build((const uint8_t *)lex, sizeof lex - 1, (const uint8_t *)yacc, sizeof yacc - 1,
                                          found, 10000, &told_of);
            CHECK(status == LYTAB_DONE || (status == LYTAB_FAULT && told_of.fault));
            CHECK(is_guarded(found, 10000));
            yacc[at] ^= (char)change;
        }
    }
    release(found);
}

/* The same calls from many threads: each has to answer as one alone does. */
static void *asking(void *into) {
    unsigned *wrong = into;
    blocks b = all_blocks();
    for (unsigned round = 0; round < ROUNDS; round++) {
        lytab_report report;
        uint32_t status = lytab_parse(calculator.bytes, calculator.length, (const uint8_t *)text, sizeof text - 1,
                                      b.parts, PARTS, b.expected, EXPECTED, &report);
        *wrong += status != LYTAB_DONE || report.needed != 12 || b.parts[0].end != sizeof text - 1;
        status = lytab_answer(calculator.bytes, calculator.length, (const uint8_t *)"1;", 2, b.bytes, BYTES, &report);
        *wrong += status != LYTAB_DONE || report.needed != 20 || memcmp(b.bytes, "Sheet((),NUMBER\"1\")\n", 20);
        status = lytab_parse(calculator.bytes, calculator.length, (const uint8_t *)"1 +", 3, b.parts, PARTS,
                             b.expected, EXPECTED, &report);
        *wrong += status != LYTAB_REFUSED || report.expected != 3 || b.expected[2] != 10;
        static const uint64_t ends[] = {2, 5, 7};
        static const lytab_token tokens[] = {{2, 0, 0, 1}, {9, 0, 1, 2}};
        status = lytab_parse_all(calculator.bytes, calculator.length, (const uint8_t *)"1;1 +2;", 7, ends, 3, b.told,
                                 TEXTS, b.parts, PARTS, b.expected, EXPECTED, &report);
        *wrong += status != LYTAB_DONE || report.needed != 6 || b.told[1].report.number != 3;
        status = lytab_parse_tokens(calculator.bytes, calculator.length, (const uint8_t *)"ab", 2, tokens, 2, b.parts,
                                    PARTS, b.expected, EXPECTED, &report);
        *wrong += status != LYTAB_DONE || report.needed != 3 || b.parts[0].end != 2;
        *wrong += !are_guarded(b);
    }
    release_all(b);
    return NULL;
}

static void threads(void) {
    pthread_t started[THREADS];
    unsigned wrong[THREADS] = {0};
    for (int i = 0; i < THREADS; i++) CHECK(!pthread_create(&started[i], NULL, asking, &wrong[i]));
    for (int i = 0; i < THREADS; i++) {
        CHECK(!pthread_join(started[i], NULL));
        CHECK(!wrong[i]);
    }
}

/* A number in a million parentheses, and a million signs in front of one. */
static void deep_texts(void) {
    size_t half = 1000 * 1000;
    bytes_read of = {needed(malloc(2 * half + 2)), 2 * half + 2};
    memset(of.bytes, '(', half);
    of.bytes[half] = '1';
    memset(of.bytes + half + 1, ')', half);
    of.bytes[2 * half + 1] = ';';
    lytab_part *parts = block((half + 3) * sizeof *parts);
    lytab_report report;
    CHECK(lytab_parse(calculator.bytes, calculator.length, of.bytes, of.length, parts, 3, NULL, 0, &report) ==
          LYTAB_DONE);
    CHECK(report.needed == 3 && parts[2].start == half && parts[2].end == half + 1);
    memset(of.bytes, '-', half);
    memcpy(of.bytes + half, "1;", 2);
    CHECK(lytab_parse(calculator.bytes, calculator.length, of.bytes, half + 2, parts, half + 3, NULL, 0, &report) ==
          LYTAB_DONE);
    CHECK(report.needed == half + 3 && parts[half + 2].kind == LYTAB_TOKEN && parts[half + 2].start == half);
    CHECK(is_guarded(parts, (half + 3) * sizeof *parts));
    release(parts);
    free(of.bytes);
}

static const struct {
    const char *name;
    void (*run)(void);
} tests[] = {
    {"cut tables", cut_tables},
    {"changed tables", changed_tables},
    {"changed texts", changed_texts},
    {"changed grammars", changed_grammars},
    {"threads", threads},
    {"deep texts", deep_texts},
};

int main(int count, char **words) {
    if (count != 2) return 4;
    calculator = tables_of(words[1], "calc.l", "calc.y");
    int passed = 0, failed = failures != 0;
    for (size_t i = 0; i < sizeof tests / sizeof *tests; i++) {
        failures = 0;
        tests[i].run();
        if (failures) printf("hostile: %s: %d not so\n", tests[i].name, failures);
        passed += !failures;
        failed += failures != 0;
    }
    free(calculator.bytes);
    printf("%d passed, %d failed\n", passed, failed);
    return failed != 0;
}
