/* Tests of the library by hand: each call beside what the documents say that it answers. No expected value comes from
 * the library, or from lytab; each field of each struct has a value of its own somewhere, which no other field has
 * there, so the structs of lytab.h are those of the library.
 *
 *     calls EXAMPLES APART
 *
 * EXAMPLES is the folder examples/ of the repository, and APART has conflicts.l, conflicts.y and the table file of
 * both, conflicts.tables, which is made apart from lytab. The last line is 'N passed, M failed'.
 */
#include "check.h"

/* The terminals and rules of examples/calc.y, counted by hand. */
enum { END, UNDEF, NUMBER, PLUS, MINUS, TIMES, DIVIDE, NEGATED, POWER, SEMICOLON, OPEN, CLOSE, TERMINALS };
enum { EMPTY = 1, SHEET, ADD, SUBTRACT, MULTIPLY, RULES = 10 };

static const char *apart;
static bytes_read tables;

#define TEXT(literal) (const uint8_t *)(literal), sizeof(literal) - 1
#define TABLES tables.bytes, tables.length

static int is_report(const lytab_report *r, uint32_t fault, uint32_t section, uint32_t terminal, uint64_t number,
                     uint64_t start, uint64_t end, uint64_t needed_, uint64_t expected) {
    return r->fault == fault && r->section == section && r->terminal == terminal && r->unused == 0 &&
           r->number == number && r->start == start && r->end == end && r->needed == needed_ &&
           r->expected == expected;
}

static int is_part(const lytab_part *p, uint32_t kind, uint32_t number, uint64_t start, uint64_t end, uint64_t next) {
    return p->kind == kind && p->number == number && p->start == start && p->end == end && p->next == next;
}

/* The status of a text by the calculator's tables, with its report; and the parts and what is expected, in blocks of
 * exactly so many, round which nothing may be written. */
typedef struct {
    uint32_t status;
    lytab_report report;
    lytab_part *parts;
    uint32_t *expected;
    size_t parts_room, expected_room;
} parsed;

static parsed parse(const uint8_t *text, size_t length, size_t parts_room, size_t expected_room) {
    parsed p = {0, {0}, block(parts_room * sizeof(lytab_part)), block(expected_room * 4), parts_room, expected_room};
    memset(&p.report, FILL, sizeof p.report);
    p.status = lytab_parse(TABLES, text, length, p.parts, parts_room, p.expected, expected_room, &p.report);
    CHECK(is_guarded(p.parts, parts_room * sizeof(lytab_part)));
    CHECK(is_guarded(p.expected, expected_room * 4));
    return p;
}

static void forget(parsed p) {
    release(p.parts);
    release(p.expected);
}

static void the_version(void) {
    CHECK(LYTAB_VERSION == 1);
    CHECK(lytab_version() == 1);
}

static void a_tree(void) {
    parsed p = parse(TEXT("1;"), 3, 0);
    CHECK(p.status == LYTAB_DONE);
    CHECK(is_report(&p.report, 0, 0, 0, 0, 0, 0, 3, 0));
    CHECK(is_part(&p.parts[0], LYTAB_NODE, SHEET, 0, 2, 3));
    CHECK(is_part(&p.parts[1], LYTAB_NOTHING, 0, 0, 0, 2));
    CHECK(is_part(&p.parts[2], LYTAB_TOKEN, NUMBER, 0, 1, 3));
    forget(p);
}

/* A node stands from its rule's first token to its last one, also where the action drops these. Part 4 has five values
 * that differ. */
static void places(void) {
    parsed p = parse(TEXT("5; (1 + 2);"), 9, 0);
    CHECK(p.status == LYTAB_DONE);
    CHECK(p.report.needed == 7);
    CHECK(is_part(&p.parts[0], LYTAB_NODE, SHEET, 0, 11, 7));
    CHECK(is_part(&p.parts[1], LYTAB_NODE, SHEET, 0, 2, 4));
    CHECK(is_part(&p.parts[2], LYTAB_NOTHING, 0, 0, 0, 3));
    CHECK(is_part(&p.parts[3], LYTAB_TOKEN, NUMBER, 0, 1, 4));
    CHECK(is_part(&p.parts[4], LYTAB_NODE, ADD, 4, 9, 7));
    CHECK(is_part(&p.parts[5], LYTAB_TOKEN, NUMBER, 4, 5, 6));
    CHECK(is_part(&p.parts[6], LYTAB_TOKEN, NUMBER, 8, 9, 7));
    CHECK(is_filled(&p.parts[7], 2 * sizeof(lytab_part)));
    forget(p);
}

static void nested_places(void) {
    parsed p = parse(TEXT("(1 + 2) * 3;"), 7, 0);
    CHECK(p.status == LYTAB_DONE);
    CHECK(is_part(&p.parts[0], LYTAB_NODE, SHEET, 0, 12, 7));
    CHECK(is_part(&p.parts[1], LYTAB_NOTHING, 0, 0, 0, 2));
    CHECK(is_part(&p.parts[2], LYTAB_NODE, MULTIPLY, 0, 11, 7));
    CHECK(is_part(&p.parts[3], LYTAB_NODE, ADD, 1, 6, 6));
    CHECK(is_part(&p.parts[4], LYTAB_TOKEN, NUMBER, 1, 2, 5));
    CHECK(is_part(&p.parts[5], LYTAB_TOKEN, NUMBER, 5, 6, 6));
    CHECK(is_part(&p.parts[6], LYTAB_TOKEN, NUMBER, 10, 11, 7));
    forget(p);
}

/* What has no tokens stands where the part round it begins. */
static void an_empty_place(void) {
    parsed p = parse(TEXT(" 1;"), 3, 0);
    CHECK(p.status == LYTAB_DONE);
    CHECK(is_part(&p.parts[0], LYTAB_NODE, SHEET, 1, 3, 3));
    CHECK(is_part(&p.parts[1], LYTAB_NOTHING, 0, 1, 1, 2));
    forget(p);
}

/* The walk of lytab.h: the children of each part, counted. */
static void children(void) {
    static const unsigned counts[] = {2, 2, 0, 0, 2, 0, 0};
    parsed p = parse(TEXT("5; (1 + 2);"), 7, 0);
    for (uint64_t i = 0; i < 7; i++) {
        unsigned count = 0;
        for (uint64_t k = i + 1; k < p.parts[i].next && count < 7; k = p.parts[k].next) count++;
        CHECK(count == counts[i]);
    }
    forget(p);
}

static void an_empty_text(void) {
    parsed p = parse(TEXT(""), 1, 0);
    CHECK(p.status == LYTAB_DONE);
    CHECK(is_report(&p.report, 0, 0, 0, 0, 0, 0, 1, 0));
    CHECK(is_part(&p.parts[0], LYTAB_NOTHING, 0, 0, 0, 1));
    forget(p);
}

static void too_few_parts(void) {
    for (size_t room = 0; room < 3; room++) {
        parsed p = parse(TEXT("1;"), room, 2);
        CHECK(p.status == LYTAB_SHORT);
        CHECK(is_report(&p.report, 0, 0, 0, 0, 0, 0, 3, 0));
        CHECK(is_filled(p.parts, room * sizeof(lytab_part)));
        CHECK(is_filled(p.expected, 8));
        forget(p);
    }
}

/* The five fields that are said of a refused token differ. */
static void a_refused_token(void) {
    static const uint32_t wanted[] = {PLUS, MINUS, TIMES, DIVIDE, POWER, CLOSE};
    parsed p = parse(TEXT("1 + (2 300);"), 4, 8);
    CHECK(p.status == LYTAB_REFUSED);
    CHECK(is_report(&p.report, 0, 0, NUMBER, 5, 7, 10, 0, 6));
    CHECK(!memcmp(p.expected, wanted, sizeof wanted));
    CHECK(is_filled(p.expected + 6, 8));
    CHECK(is_filled(p.parts, 4 * sizeof(lytab_part)));
    forget(p);
}

/* As many of the expected terminals are written as there is room for. */
static void little_room_for_expected(void) {
    static const uint32_t wanted[] = {NUMBER, MINUS, OPEN};
    for (size_t room = 0; room < 5; room++) {
        parsed p = parse(TEXT("1 + * 3;"), 0, room);
        CHECK(p.status == LYTAB_REFUSED);
        CHECK(is_report(&p.report, 0, 0, TIMES, 3, 4, 5, 0, 3));
        size_t written = room < 3 ? room : 3;
        CHECK(!memcmp(p.expected, wanted, written * 4));
        CHECK(is_filled(p.expected + written, (room - written) * 4));
        forget(p);
    }
}

static void a_refused_end(void) {
    static const uint32_t wanted[] = {PLUS, MINUS, TIMES, DIVIDE, POWER, SEMICOLON};
    parsed p = parse(TEXT("1;\n2"), 9, 6);
    CHECK(p.status == LYTAB_REFUSED);
    CHECK(is_report(&p.report, 0, 0, END, 4, 4, 4, 0, 6));
    CHECK(!memcmp(p.expected, wanted, sizeof wanted));
    forget(p);
}

static void an_unmatched_byte(void) {
    parsed p = parse(TEXT("1 @"), 9, 6);
    CHECK(p.status == LYTAB_REFUSED);
    CHECK(is_report(&p.report, 0, 0, 0, 0, 2, 2, 0, 0));
    CHECK(is_filled(p.expected, 24));
    forget(p);
}

typedef uint32_t answering(const uint8_t *, size_t, const uint8_t *, size_t, uint8_t *, size_t, lytab_report *);

/* Whether a call answers a text so: with room for its bytes and some more, with exactly that room, and with each less,
 * where nothing may be written. */
static void answers(answering *call, const uint8_t *text, size_t length, const char *answer, uint32_t status,
                    lytab_report wanted) {
    size_t of = strlen(answer);
    for (size_t room = 0; room <= of + 2; room++) {
        uint8_t *bytes = block(room);
        lytab_report report;
        memset(&report, FILL, sizeof report);
        uint32_t found = call(TABLES, text, length, bytes, room, &report);
        CHECK(is_guarded(bytes, room));
        CHECK(report.needed == of);
        if (room < of) {
            CHECK(found == LYTAB_SHORT);
            CHECK(is_report(&report, 0, 0, 0, 0, 0, 0, of, 0));
            CHECK(is_filled(bytes, room));
        } else {
            CHECK(found == status);
            CHECK(is_report(&report, 0, 0, 0, wanted.number, wanted.start, wanted.end, of, wanted.expected));
            CHECK(!memcmp(bytes, answer, of));
            CHECK(is_filled(bytes + of, room - of));
        }
        release(bytes);
    }
}

static lytab_report refused(uint64_t number, uint64_t start, uint64_t end, uint64_t expected) {
    lytab_report report = {0, 0, 0, 0, number, start, end, 0, expected};
    return report;
}

static void plain_answers(void) {
    lytab_report none = {0};
    answers(lytab_answer, TEXT("1;"), "Sheet((),NUMBER\"1\")\n", LYTAB_DONE, none);
    answers(lytab_answer, TEXT(""), "()\n", LYTAB_DONE, none);
    answers(lytab_answer, TEXT("1 + * 3;"),
            "syntax error at token 3, byte 4: '*'\"*\"\nexpected: NUMBER '-' '('\n", LYTAB_REFUSED,
            refused(3, 4, 5, 3));
    answers(lytab_answer, TEXT("1 +"), "syntax error at end, token 3, byte 3\nexpected: NUMBER '-' '('\n",
            LYTAB_REFUSED, refused(3, 3, 3, 3));
    answers(lytab_answer, TEXT("1 @"), "no rule matches at byte 2\n", LYTAB_REFUSED, refused(0, 2, 2, 0));
}

static void json_answers(void) {
    lytab_report none = {0};
    answers(lytab_json, TEXT("1;"),
            "{\"node\":\"Sheet\",\"children\":[null,{\"token\":\"NUMBER\",\"text\":\"1\"}]}\n", LYTAB_DONE, none);
    answers(lytab_json, TEXT(""), "null\n", LYTAB_DONE, none);
    answers(lytab_json, TEXT("1 + * 3;"),
            "{\"error\":\"refused\",\"number\":3,\"byte\":4,\"token\":\"'*'\",\"text\":\"*\","
            "\"expected\":[\"NUMBER\",\"'-'\",\"'('\"]}\n",
            LYTAB_REFUSED, refused(3, 4, 5, 3));
    answers(lytab_json, TEXT("1 +"),
            "{\"error\":\"refused\",\"number\":3,\"byte\":3,\"token\":\"$end\","
            "\"expected\":[\"NUMBER\",\"'-'\",\"'('\"]}\n",
            LYTAB_REFUSED, refused(3, 3, 3, 3));
    answers(lytab_json, TEXT("1 @"), "{\"error\":\"unmatched\",\"byte\":2}\n", LYTAB_REFUSED, refused(0, 2, 2, 0));
}

static const char names[] =
    /* of the terminals */ "$end$undefNUMBER'+''-''*''/'NEGATED'^'';''('')'"
    /* of the rules */ "SheetAddSubtractMultiplyDividePowerNegate";
static const uint64_t ends[] = {4,  10, 16, 19, 22, 25, 28, 35, 38, 41, 44, 47,
                                47, 52, 55, 63, 71, 77, 82, 88, 88, 88};

static int are_counts(const lytab_counts *c, uint32_t fault, uint32_t section, uint64_t terminals, uint64_t rules,
                      uint64_t bytes) {
    return c->fault == fault && c->section == section && c->terminals == terminals && c->rules == rules &&
           c->bytes == bytes;
}

static void the_names(void) {
    uint64_t *found_ends = block(23 * 8);
    uint8_t *found = block(90);
    lytab_counts counts;
    memset(&counts, FILL, sizeof counts);
    CHECK(lytab_names(TABLES, found_ends, 23, found, 90, &counts) == LYTAB_DONE);
    CHECK(are_counts(&counts, 0, 0, TERMINALS, RULES, 88));
    CHECK(!memcmp(found_ends, ends, sizeof ends) && is_filled(found_ends + 22, 8));
    CHECK(!memcmp(found, names, 88) && is_filled(found + 88, 2));
    CHECK(is_guarded(found_ends, 23 * 8) && is_guarded(found, 90));
    release(found_ends);
    release(found);
}

/* Either block is short, or both are. */
static void too_little_room_for_names(void) {
    static const size_t rooms[][2] = {{0, 0}, {22, 0}, {0, 88}, {21, 88}, {22, 87}, {21, 87}};
    for (size_t i = 0; i < sizeof rooms / sizeof *rooms; i++) {
        uint64_t *found_ends = block(rooms[i][0] * 8);
        uint8_t *found = block(rooms[i][1]);
        lytab_counts counts;
        memset(&counts, FILL, sizeof counts);
        CHECK(lytab_names(TABLES, found_ends, rooms[i][0], found, rooms[i][1], &counts) == LYTAB_SHORT);
        CHECK(are_counts(&counts, 0, 0, TERMINALS, RULES, 88));
        CHECK(is_filled(found_ends, rooms[i][0] * 8) && is_guarded(found_ends, rooms[i][0] * 8));
        CHECK(is_filled(found, rooms[i][1]) && is_guarded(found, rooms[i][1]));
        release(found_ends);
        release(found);
    }
}

static void is_located(size_t byte, uint64_t line, uint64_t column) {
    static const uint8_t text[] = "ab\n\ncde";
    uint64_t found_line = 99, found_column = 99;
    lytab_locate(text, 7, byte, &found_line, &found_column);
    CHECK(found_line == line && found_column == column);
}

static void located(void) {
    is_located(0, 1, 1);
    is_located(2, 1, 3);
    is_located(3, 2, 1);
    is_located(4, 3, 1);
    is_located(6, 3, 3);
    is_located(7, 3, 4);
    is_located(8, 3, 4);
    is_located(SIZE_MAX, 3, 4);
    uint64_t line = 99, column = 99;
    lytab_locate(NULL, 0, 5, &line, &column);
    CHECK(line == 1 && column == 1);
}

/* The files of the example in docs/table-file.md. */
typedef struct {
    uint8_t bytes[2000];
    size_t length;
} example;

static void put(example *e, unsigned width, uint32_t number) {
    while (width--) e->bytes[e->length++] = (uint8_t)(number >> 8 * width);
}

static void put_text(example *e, const char *text) {
    put(e, 2, (uint32_t)strlen(text));
    while (*text) put(e, 1, (uint8_t)*text++);
}

static void put_numbers(example *e, unsigned width, const uint32_t *numbers, size_t count) {
    for (size_t i = 0; i < count; i++) put(e, width, numbers[i]);
}

/* Sections 1 to 8. `w` is how wide a number is, and the greatest number is none. */
static void put_scanner(example *e, unsigned w) {
    memcpy(e->bytes, "LYTB", 4);
    e->length = 4;
    put(e, 2, w / 2);
    put_numbers(e, w, (uint32_t[]){3, 1}, 2);
    put_text(e, "$end");
    put_text(e, "$undef");
    put_text(e, "'x'");
    for (int byte = 0; byte < 256; byte++) put(e, w, byte == 'x' ? 2 : 1);
    put(e, w, 1), put(e, 1, 1), put(e, w, 2), put(e, w, UINT32_MAX), put(e, 1, 0), put(e, w, 0);
    put_numbers(e, w, (uint32_t[]){1, 0, 0}, 3);
    put(e, w, 2);
    for (int byte = 0; byte < 256; byte++) put(e, 1, byte == 'x');
    put_numbers(e, w, (uint32_t[]){2, 0, 1}, 3);
    put_numbers(e, 4, (uint32_t[]){0, 0, 2}, 3);
    put_numbers(e, w, (uint32_t[]){0, 1, UINT32_MAX, 0}, 4);
}

/* Sections 9 to 12. */
static void put_parser(example *e, unsigned w) {
    put(e, w, 1), put(e, w, 0), put(e, 1, 1), put(e, 1, 1), put_text(e, ""), put(e, 1, 1), put(e, 1, 1);
    put_numbers(e, w, (uint32_t[]){3, 0, 1, 0}, 4);
    put_numbers(e, 4, (uint32_t[]){0, 0, 0, 3}, 4);
    put_numbers(e, w, (uint32_t[]){1, 0, w == 2 ? 0x8001 : 0x80000001, 2, UINT32_MAX, 0}, 6);
    put_numbers(e, 4, (uint32_t[]){0, 0, 0, 1}, 4);
    put_numbers(e, w, (uint32_t[]){2, 0}, 2);
}

static example the_example(unsigned width) {
    example e;
    e.length = 0;
    put_scanner(&e, width);
    put_parser(&e, width);
    return e;
}

static int is_built(const lytab_built *b, uint32_t fault, uint32_t file, uint64_t line, uint64_t column,
                    uint64_t needed_, uint64_t shift_reduce, uint64_t reduce_reduce) {
    return b->fault == fault && b->file == file && b->line == line && b->column == column && b->needed == needed_ &&
           b->shift_reduce == shift_reduce && b->reduce_reduce == reduce_reduce;
}

static void a_build(void) {
    example wanted = the_example(4);
    CHECK(wanted.length == 1481);
    for (size_t room = 1479; room <= 1483; room++) {
        uint8_t *found = block(room);
        lytab_built told_of;
        memset(&told_of, FILL, sizeof told_of);
        uint32_t status = lytab_build(TEXT("%%\nx return 'x';\n"), TEXT("%%\ns : 'x' ;\n"), found, room, &told_of);
        CHECK(is_guarded(found, room));
        CHECK(is_built(&told_of, 0, 0, 0, 0, 1481, 0, 0));
        CHECK(status == (room < 1481 ? LYTAB_SHORT : LYTAB_DONE));
        if (room < 1481) {
            CHECK(is_filled(found, room));
        } else {
            CHECK(!memcmp(found, wanted.bytes, 1481) && is_filled(found + 1481, room - 1481));
        }
        release(found);
    }
}

/* The numbers of both kinds of conflicts differ from one another, and from the length. */
static void a_build_with_conflicts(void) {
    bytes_read lex = file_of(apart, "conflicts.l"), yacc = file_of(apart, "conflicts.y");
    bytes_read wanted = file_of(apart, "conflicts.tables");
    uint8_t *found = block(wanted.length);
    lytab_built told_of;
    CHECK(lytab_build(lex.bytes, lex.length, yacc.bytes, yacc.length, NULL, 0, &told_of) == LYTAB_SHORT);
    CHECK(is_built(&told_of, 0, 0, 0, 0, wanted.length, 4, 1));
    CHECK(lytab_build(lex.bytes, lex.length, yacc.bytes, yacc.length, found, wanted.length, &told_of) == LYTAB_DONE);
    CHECK(is_built(&told_of, 0, 0, 0, 0, wanted.length, 4, 1));
    CHECK(!memcmp(found, wanted.bytes, wanted.length) && is_guarded(found, wanted.length));
    release(found);
    free(lex.bytes);
    free(yacc.bytes);
    free(wanted.bytes);
}

static void is_refused(const uint8_t *lex, size_t lex_length, const uint8_t *yacc, size_t yacc_length, uint32_t fault,
                       uint32_t file, uint64_t line, uint64_t column) {
    uint8_t *found = block(100);
    lytab_built told_of;
    memset(&told_of, FILL, sizeof told_of);
    CHECK(lytab_build(lex, lex_length, yacc, yacc_length, found, 100, &told_of) == LYTAB_FAULT);
    CHECK(is_built(&told_of, fault, file, line, column, 0, 0, 0));
    CHECK(is_filled(found, 100) && is_guarded(found, 100));
    release(found);
}

static void refused_builds(void) {
    is_refused(TEXT("%%\nx return A;\n"), TEXT("%token A\n\n%%\ns : A { $$ = N($2); } ;\n"), 35, LYTAB_YACC, 4, 17);
    is_refused(TEXT("%%\nx return A;\nyy return;\n"), TEXT("%token A\n%%\ns : A ;\n"), 24, LYTAB_LEX, 3, 10);
    is_refused(TEXT("%%\n\nab(c return A;\n"), TEXT("%token A\n%%\ns : A ;\n"), 4, LYTAB_LEX, 3, 3);
    is_refused(TEXT("%%\nx return A;\n"), TEXT("%token A\n%%\ns : q ;\n"), 40, LYTAB_NO_FILE, 0, 0);
    is_refused(TEXT("%%\nx return A;\n"), TEXT("%token A\n%%\ns : s A ;\n"), 60, LYTAB_NO_FILE, 0, 0);
    is_refused(NULL, 0, NULL, 0, 20, LYTAB_LEX, 1, 1);
    /* of all patterns together, which are too heavy, no line is named; each alone has a weight near a million */
    is_refused(TEXT("%%\n((x{100}){100}){100} return 'x';\n((y{100}){100}){100} return 'x';\n"),
               TEXT("%%\ns : 'x' ;\n"), 51, LYTAB_NO_FILE, 0, 0);
}

/* Whether all calls that read a table file refuse one so, and write nothing else. */
static void tables_refused(const uint8_t *file, size_t length, uint32_t fault, uint32_t section) {
    uint8_t *bytes = block(80);
    lytab_part *parts = block(2 * sizeof *parts);
    uint64_t *found_ends = block(80);
    lytab_report report;
    lytab_counts counts;
    memset(&report, FILL, sizeof report);
    CHECK(lytab_answer(file, length, TEXT("x"), bytes, 80, &report) == LYTAB_FAULT);
    CHECK(is_report(&report, fault, section, 0, 0, 0, 0, 0, 0));
    memset(&report, FILL, sizeof report);
    CHECK(lytab_json(file, length, TEXT("x"), bytes, 80, &report) == LYTAB_FAULT);
    CHECK(is_report(&report, fault, section, 0, 0, 0, 0, 0, 0));
    memset(&report, FILL, sizeof report);
    CHECK(lytab_parse(file, length, TEXT("x"), parts, 2, (uint32_t *)bytes, 20, &report) == LYTAB_FAULT);
    CHECK(is_report(&report, fault, section, 0, 0, 0, 0, 0, 0));
    lytab_text texts[2];
    const uint64_t both[] = {1, 1};
    memset(&report, FILL, sizeof report);
    memset(texts, FILL, sizeof texts);
    uint32_t status = lytab_parse_all(file, length, TEXT("x"), both, 1, texts, 2, parts, 2, (uint32_t *)bytes, 20,
                                      &report);
    if (fault == 90) {
        CHECK(status == LYTAB_DONE && is_report(&report, 0, 0, 0, 0, 0, 0, 0, 0));
        CHECK(texts[0].status == LYTAB_FAULT && texts[0].parts_end == 0 && texts[0].expected_end == 0);
        CHECK(is_report(&texts[0].report, 90, 0, 0, 0, 0, 0, 0, 0) && is_filled(texts + 1, sizeof *texts));
    } else {
        CHECK(status == LYTAB_FAULT && is_report(&report, fault, section, 0, 0, 0, 0, 0, 0));
        CHECK(is_filled(texts, sizeof texts));
        memset(&report, FILL, sizeof report);
        CHECK(lytab_parse_tokens(file, length, TEXT("x"), NULL, 0, parts, 2, (uint32_t *)bytes, 20, &report) ==
              LYTAB_FAULT);
        CHECK(is_report(&report, fault, section, 0, 0, 0, 0, 0, 0));
    }
    if (fault != 90) {
        memset(&counts, FILL, sizeof counts);
        CHECK(lytab_names(file, length, found_ends, 10, bytes, 80, &counts) == LYTAB_FAULT);
        CHECK(are_counts(&counts, fault, section, 0, 0, 0));
    }
    CHECK(is_filled(bytes, 80) && is_filled(parts, 2 * sizeof *parts) && is_filled(found_ends, 80));
    CHECK(is_guarded(bytes, 80) && is_guarded(parts, 2 * sizeof *parts) && is_guarded(found_ends, 80));
    release(bytes);
    release(parts);
    release(found_ends);
}

static void faults_of_tables(void) {
    example e = the_example(2);
    CHECK(e.length == 907);
    tables_refused(NULL, 0, 82, 0);
    tables_refused(TEXT("LYT"), 82, 0);
    tables_refused(TEXT("x"), 80, 0);
    tables_refused(TEXT("LYTB\0\3"), 81, 0);
    for (size_t length = 0; length < e.length; length++) tables_refused(e.bytes, length, 82, 0);
    tables_refused(e.bytes, e.length + 1, 83, 0);
    e.bytes[29] = 1; /* the first literal, in section 3, is terminal 257 */
    tables_refused(e.bytes, e.length, 84, 3);
    e = the_example(2);
    e.bytes[e.length - 1] = 3; /* the only goto, in section 12, is that of a state that isn't there */
    tables_refused(e.bytes, e.length, 84, 12);
}

/* A rule without a body that state 2 reduces by default, where the goto of state 2 leads to itself. */
static void endless_tables(void) {
    example e;
    e.length = 0;
    put_scanner(&e, 2);
    put(&e, 2, 1), put(&e, 2, 0), put(&e, 1, 0), put(&e, 1, 0), put_text(&e, ""), put(&e, 1, 0);
    put_numbers(&e, 2, (uint32_t[]){3, 0, 1, 1}, 4);
    put_numbers(&e, 4, (uint32_t[]){0, 0, 0, 3}, 4);
    put_numbers(&e, 2, (uint32_t[]){1, 0, 0x8001, 2, UINT32_MAX, 0}, 6);
    put_numbers(&e, 4, (uint32_t[]){0, 0, 1, 2}, 4);
    put_numbers(&e, 2, (uint32_t[]){2, 2, 0, 2}, 4);
    tables_refused(e.bytes, e.length, 85, 0);
}

/* No goto: the reduction of the only rule has nowhere to go, which shows when a text is answered. */
static void tables_at_fault(void) {
    example e = the_example(2);
    e.length -= 8;
    put(&e, 4, 0);
    tables_refused(e.bytes, e.length, 90, 0);
}

/* Blocks of nothing may be null. */
static void null_blocks(void) {
    lytab_report report;
    lytab_counts counts;
    memset(&report, FILL, sizeof report);
    CHECK(lytab_parse(TABLES, NULL, 0, NULL, 0, NULL, 0, &report) == LYTAB_SHORT);
    CHECK(is_report(&report, 0, 0, 0, 0, 0, 0, 1, 0));
    CHECK(lytab_parse(TABLES, TEXT("+"), NULL, 0, NULL, 0, &report) == LYTAB_REFUSED);
    CHECK(is_report(&report, 0, 0, PLUS, 1, 0, 1, 0, 4));
    CHECK(lytab_parse(NULL, 0, NULL, 0, NULL, 0, NULL, 0, &report) == LYTAB_FAULT);
    CHECK(is_report(&report, 82, 0, 0, 0, 0, 0, 0, 0));
    CHECK(lytab_answer(TABLES, NULL, 0, NULL, 0, &report) == LYTAB_SHORT && report.needed == 3);
    CHECK(lytab_json(TABLES, NULL, 0, NULL, 0, &report) == LYTAB_SHORT && report.needed == 5);
    CHECK(lytab_names(TABLES, NULL, 0, NULL, 0, &counts) == LYTAB_SHORT && counts.bytes == 88);
    CHECK(lytab_names(NULL, 0, NULL, 0, NULL, 0, &counts) == LYTAB_FAULT && counts.fault == 82);
    CHECK(lytab_parse_all(TABLES, NULL, 0, NULL, 0, NULL, 0, NULL, 0, NULL, 0, &report) == LYTAB_DONE);
    CHECK(is_report(&report, 0, 0, 0, 0, 0, 0, 0, 0));
    CHECK(lytab_parse_tokens(TABLES, NULL, 0, NULL, 0, NULL, 0, NULL, 0, &report) == LYTAB_SHORT);
    CHECK(is_report(&report, 0, 0, 0, 0, 0, 0, 1, 0));
}

/* Many texts one behind another, by the calculator's tables: the status, with the report of all; and blocks of exactly
 * so many. */
typedef struct {
    uint32_t status;
    lytab_report report;
    lytab_text *told;
    lytab_part *parts;
    uint32_t *expected;
    size_t told_room, parts_room, expected_room;
} many;

static const char six[] = "1;1 + * 3;5; (1 + 2);@2 *";
static const uint64_t six_ends[] = {2, 2, 10, 21, 22, 25};

static many parse_all(const uint64_t *of, size_t count, size_t told_room, size_t parts_room, size_t expected_room) {
    many m = {0, {0}, block(told_room * sizeof(lytab_text)), block(parts_room * sizeof(lytab_part)),
              block(expected_room * 4), told_room, parts_room, expected_room};
    memset(&m.report, FILL, sizeof m.report);
    m.status = lytab_parse_all(TABLES, TEXT(six), of, count, m.told, told_room, m.parts, parts_room, m.expected,
                               expected_room, &m.report);
    CHECK(is_guarded(m.told, told_room * sizeof(lytab_text)));
    CHECK(is_guarded(m.parts, parts_room * sizeof(lytab_part)));
    CHECK(is_guarded(m.expected, expected_room * 4));
    return m;
}

static int is_untouched(many m) {
    return is_filled(m.told, m.told_room * sizeof(lytab_text)) &&
           is_filled(m.parts, m.parts_room * sizeof(lytab_part)) && is_filled(m.expected, m.expected_room * 4);
}

static void forget_all(many m) {
    release(m.told);
    release(m.parts);
    release(m.expected);
}

static int is_text(const lytab_text *t, uint32_t status, uint64_t parts_end, uint64_t expected_end) {
    return t->status == status && t->unused == 0 && t->parts_end == parts_end && t->expected_end == expected_end;
}

static void many_texts(void) {
    static const uint32_t wanted[] = {NUMBER, MINUS, OPEN, NUMBER, MINUS, OPEN};
    many m = parse_all(six_ends, 6, 7, 12, 7);
    CHECK(m.status == LYTAB_DONE);
    CHECK(is_report(&m.report, 0, 0, 0, 0, 0, 0, 11, 6));
    CHECK(is_text(&m.told[0], LYTAB_DONE, 3, 0) && is_report(&m.told[0].report, 0, 0, 0, 0, 0, 0, 3, 0));
    CHECK(is_text(&m.told[1], LYTAB_DONE, 4, 0) && is_report(&m.told[1].report, 0, 0, 0, 0, 0, 0, 1, 0));
    CHECK(is_text(&m.told[2], LYTAB_REFUSED, 4, 3) && is_report(&m.told[2].report, 0, 0, TIMES, 3, 4, 5, 0, 3));
    CHECK(is_text(&m.told[3], LYTAB_DONE, 11, 3) && is_report(&m.told[3].report, 0, 0, 0, 0, 0, 0, 7, 0));
    CHECK(is_text(&m.told[4], LYTAB_REFUSED, 11, 3) && is_report(&m.told[4].report, 0, 0, 0, 0, 0, 0, 0, 0));
    CHECK(is_text(&m.told[5], LYTAB_REFUSED, 11, 6) && is_report(&m.told[5].report, 0, 0, END, 3, 3, 3, 0, 3));
    CHECK(is_part(&m.parts[0], LYTAB_NODE, SHEET, 0, 2, 3));
    CHECK(is_part(&m.parts[2], LYTAB_TOKEN, NUMBER, 0, 1, 3));
    CHECK(is_part(&m.parts[3], LYTAB_NOTHING, 0, 0, 0, 1));
    CHECK(is_part(&m.parts[4], LYTAB_NODE, SHEET, 0, 11, 7));
    CHECK(is_part(&m.parts[8], LYTAB_NODE, ADD, 4, 9, 7));
    CHECK(is_part(&m.parts[10], LYTAB_TOKEN, NUMBER, 8, 9, 7));
    CHECK(!memcmp(m.expected, wanted, sizeof wanted));
    CHECK(is_filled(&m.told[6], sizeof(lytab_text)) && is_filled(&m.parts[11], sizeof(lytab_part)));
    CHECK(is_filled(&m.expected[6], 4));
    forget_all(m);
}

/* Each text, alone: the same report, parts and terminals. */
static void each_alone(void) {
    many m = parse_all(six_ends, 6, 6, 11, 6);
    CHECK(m.status == LYTAB_DONE);
    for (size_t i = 0; i < 6; i++) {
        uint64_t start = i ? six_ends[i - 1] : 0, parts = i ? m.told[i - 1].parts_end : 0;
        uint64_t terminals = i ? m.told[i - 1].expected_end : 0;
        parsed p = parse((const uint8_t *)six + start, six_ends[i] - start, 7, 3);
        CHECK(p.status == m.told[i].status && !memcmp(&p.report, &m.told[i].report, sizeof p.report));
        CHECK(!memcmp(p.parts, m.parts + parts, (m.told[i].parts_end - parts) * sizeof(lytab_part)));
        CHECK(!memcmp(p.expected, m.expected + terminals, (m.told[i].expected_end - terminals) * 4));
        forget(p);
    }
    forget_all(m);
}

static void little_room_for_many(void) {
    static const uint32_t wanted[] = {NUMBER, MINUS, OPEN, NUMBER};
    many m = parse_all(six_ends, 6, 6, 10, 6);
    CHECK(m.status == LYTAB_SHORT && is_report(&m.report, 0, 0, 0, 0, 0, 0, 11, 6) && is_untouched(m));
    forget_all(m);
    m = parse_all(six_ends, 6, 5, 11, 6);
    CHECK(m.status == LYTAB_SHORT && is_report(&m.report, 0, 0, 0, 0, 0, 0, 11, 6) && is_untouched(m));
    forget_all(m);
    m = parse_all(six_ends, 6, 6, 11, 4);
    CHECK(m.status == LYTAB_DONE && is_report(&m.report, 0, 0, 0, 0, 0, 0, 11, 6));
    CHECK(m.told[5].expected_end == 6 && !memcmp(m.expected, wanted, sizeof wanted));
    forget_all(m);
}

static void wrong_ends(void) {
    static const uint64_t back[] = {2, 1, 0}, far[] = {25, 26}, alone[] = {UINT64_MAX};
    many m = parse_all(back, 3, 3, 9, 3);
    CHECK(m.status == LYTAB_MISUSED && is_report(&m.report, 0, 0, 0, 2, 0, 0, 0, 0) && is_untouched(m));
    forget_all(m);
    m = parse_all(far, 2, 2, 9, 3);
    CHECK(m.status == LYTAB_MISUSED && is_report(&m.report, 0, 0, 0, 2, 0, 0, 0, 0) && is_untouched(m));
    forget_all(m);
    m = parse_all(alone, 1, 1, 9, 3);
    CHECK(m.status == LYTAB_MISUSED && is_report(&m.report, 0, 0, 0, 1, 0, 0, 0, 0) && is_untouched(m));
    forget_all(m);
    m = parse_all(NULL, 0, 1, 1, 1);
    CHECK(m.status == LYTAB_DONE && is_report(&m.report, 0, 0, 0, 0, 0, 0, 0, 0) && is_untouched(m));
    forget_all(m);
}

/* Tokens over a text by the calculator's tables, whatever bytes stand there. */
static parsed parse_tokens(const char *text, const lytab_token *tokens, size_t count, size_t parts_room) {
    parsed p = {0, {0}, block(parts_room * sizeof(lytab_part)), block(4 * 4), parts_room, 4};
    memset(&p.report, FILL, sizeof p.report);
    p.status = lytab_parse_tokens(TABLES, (const uint8_t *)text, strlen(text), tokens, count, p.parts, parts_room,
                                  p.expected, 4, &p.report);
    CHECK(is_guarded(p.parts, parts_room * sizeof(lytab_part)));
    CHECK(is_guarded(p.expected, 4 * 4));
    return p;
}

static void tokens_given(void) {
    static const lytab_token tokens[] = {
        {NUMBER, 0, 0, 3}, {PLUS, 0, 4, 8}, {NUMBER, 0, 9, 12}, {SEMICOLON, 0, 12, 12}};
    parsed p = parse_tokens("one plus two", tokens, 4, 6);
    CHECK(p.status == LYTAB_DONE && is_report(&p.report, 0, 0, 0, 0, 0, 0, 5, 0));
    CHECK(is_part(&p.parts[0], LYTAB_NODE, SHEET, 0, 12, 5));
    CHECK(is_part(&p.parts[1], LYTAB_NOTHING, 0, 0, 0, 2));
    CHECK(is_part(&p.parts[2], LYTAB_NODE, ADD, 0, 12, 5));
    CHECK(is_part(&p.parts[3], LYTAB_TOKEN, NUMBER, 0, 3, 4));
    CHECK(is_part(&p.parts[4], LYTAB_TOKEN, NUMBER, 9, 12, 5));
    CHECK(is_filled(&p.parts[5], sizeof(lytab_part)) && is_filled(p.expected, 16));
    forget(p);
    p = parse_tokens("one plus two", tokens, 4, 4);
    CHECK(p.status == LYTAB_SHORT && is_report(&p.report, 0, 0, 0, 0, 0, 0, 5, 0));
    CHECK(is_filled(p.parts, 4 * sizeof(lytab_part)) && is_filled(p.expected, 16));
    forget(p);
    p = parse_tokens("", NULL, 0, 1);
    CHECK(p.status == LYTAB_DONE && is_report(&p.report, 0, 0, 0, 0, 0, 0, 1, 0));
    CHECK(is_part(&p.parts[0], LYTAB_NOTHING, 0, 0, 0, 1));
    forget(p);
}

static void tokens_refused(void) {
    static const lytab_token tokens[] = {{NUMBER, 0, 0, 3}, {PLUS, 0, 4, 8}, {TIMES, 0, 9, 10}, {UNDEF, 0, 10, 11}};
    static const uint32_t wanted[] = {NUMBER, MINUS, OPEN};
    parsed p = parse_tokens("one plus times", tokens, 4, 2);
    CHECK(p.status == LYTAB_REFUSED && is_report(&p.report, 0, 0, TIMES, 3, 9, 10, 0, 3));
    CHECK(!memcmp(p.expected, wanted, sizeof wanted) && is_filled(p.expected + 3, 4));
    CHECK(is_filled(p.parts, 2 * sizeof(lytab_part)));
    forget(p);
    p = parse_tokens("one plus times", tokens, 2, 2);
    CHECK(p.status == LYTAB_REFUSED && is_report(&p.report, 0, 0, END, 3, 14, 14, 0, 3));
    CHECK(!memcmp(p.expected, wanted, sizeof wanted));
    forget(p);
}

static void no_tokens(const char *text, const lytab_token *tokens, size_t count, uint64_t number) {
    parsed p = parse_tokens(text, tokens, count, 4);
    CHECK(p.status == LYTAB_MISUSED && is_report(&p.report, 0, 0, 0, number, 0, 0, 0, 0));
    CHECK(is_filled(p.parts, 4 * sizeof(lytab_part)) && is_filled(p.expected, 16));
    forget(p);
}

/* One that is none is told, also behind one that would be refused. */
static void wrong_tokens(void) {
    lytab_token tokens[] = {{TIMES, 0, 0, 1}, {NUMBER, 0, 1, 2}, {END, 0, 2, 3}};
    no_tokens("abc", tokens, 3, 3);
    tokens[2].terminal = TERMINALS;
    no_tokens("abc", tokens, 3, 3);
    tokens[1].start = 3;
    no_tokens("abc", tokens, 3, 2);
    tokens[0].end = 4;
    no_tokens("abc", tokens, 3, 1);
    tokens[0].start = tokens[0].end = UINT64_MAX;
    no_tokens("abc", tokens, 1, 1);
}

static const struct {
    const char *name;
    void (*run)(void);
} tests[] = {
    {"the version", the_version},
    {"a tree", a_tree},
    {"places", places},
    {"nested places", nested_places},
    {"an empty place", an_empty_place},
    {"children", children},
    {"an empty text", an_empty_text},
    {"too few parts", too_few_parts},
    {"a refused token", a_refused_token},
    {"little room for what is expected", little_room_for_expected},
    {"a refused end", a_refused_end},
    {"an unmatched byte", an_unmatched_byte},
    {"plain answers", plain_answers},
    {"answers in JSON", json_answers},
    {"the names", the_names},
    {"too little room for names", too_little_room_for_names},
    {"located", located},
    {"a build", a_build},
    {"a build with conflicts", a_build_with_conflicts},
    {"refused builds", refused_builds},
    {"faults of tables", faults_of_tables},
    {"endless tables", endless_tables},
    {"tables at fault", tables_at_fault},
    {"null blocks", null_blocks},
    {"many texts", many_texts},
    {"each of many texts alone", each_alone},
    {"little room for many texts", little_room_for_many},
    {"wrong ends", wrong_ends},
    {"tokens that are given", tokens_given},
    {"tokens that are refused", tokens_refused},
    {"wrong tokens", wrong_tokens},
};

int main(int count, char **words) {
    if (count != 3) return 4;
    apart = words[2];
    tables = tables_of(words[1], "calc.l", "calc.y");
    int passed = 0, failed = 0;
    for (size_t i = 0; i < sizeof tests / sizeof *tests; i++) {
        failures = 0;
        tests[i].run();
        if (failures) printf("calls: %s: %d not so\n", tests[i].name, failures);
        passed += !failures;
        failed += failures != 0;
    }
    free(tables.bytes);
    printf("%d passed, %d failed\n", passed, failed);
    return failed != 0;
}
