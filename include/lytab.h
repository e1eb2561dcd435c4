/* lytab's parser and table generator for C. Texts are parsed with table files as by `lytab run`, and table files are
 * built from a lex file and a yacc file as by `lytab build`.
 *
 * Every call takes all its input as arguments, and writes only into blocks of the caller. The library keeps no state
 * between calls: it frees all memory that it allocated with malloc before it returns, so there is nothing to free and
 * nothing to lock, and threads may call it at the same time.
 *
 * Bytes count from 0; tokens, rules, lines and columns count from 1; columns count bytes. A block is a pointer and the
 * number of items that fit. If that number is 0, the pointer isn't used and may be NULL.
 *
 * Proved, for all bytes of tables, texts and files: a call returns, touches nothing but its blocks, and does what these
 * comments describe, as far as docs/proved.md covers it. Trusted: each pointer is valid for the given number of items,
 * the blocks that a call writes overlap none of its other blocks, and the structs here are those of the library.
 */
#ifndef LYTAB_H
#define LYTAB_H

#include <stddef.h>
#include <stdint.h>

#ifdef __cplusplus
extern "C" {
#endif

/* What calls return: the exit statuses of the program, and one more. */
enum lytab_status {
    LYTAB_DONE = 0,     /* the text has a tree; for other calls: success */
    LYTAB_REFUSED = 1,  /* syntax error: an unexpected token, or a byte that no rule matches */
    LYTAB_FAULT = 2,    /* the table file, or the lex or yacc file, is rejected */
    LYTAB_MEMORY = 3,   /* out of memory */
    LYTAB_MISUSED = 4,  /* invalid argument: an end of a text, or a token; `number` of the report is the first one */
    LYTAB_SHORT = 5     /* a block is too short; only the report is written, with the required size */
};

/* The details of a status. A field that isn't described for a status is 0. */
typedef struct lytab_report {
    uint32_t fault;     /* status 2: the error code, 80 to 85 and 90 */
    uint32_t section;   /* status 2, code 84: the section of the table file that is out of range */
    uint32_t terminal;  /* status 1, lytab_parse: the terminal of the unexpected token; 0 is the end of the text */
    uint32_t unused;
    uint64_t number;    /* status 1: the number of the unexpected token, for the end the number of tokens plus one; 0 if
                           no rule matches a byte; status 4: the first invalid end or token, counted from 1 */
    uint64_t start;     /* status 1: the offset of the token, or of the byte that no rule matches */
    uint64_t end;       /* status 1: the offset after the token; `start` for the end of the text and for a byte */
    uint64_t needed;    /* status 0 and 5: the size of the output, in bytes or parts; status 1: its size in bytes, 0 for
                           lytab_parse */
    uint64_t expected;  /* status 1: the number of expected terminals; for lytab_parse_all, status 0 and 5: the number
                           of expected terminals of all texts */
} lytab_report;

/* Parses a text with a table file, and writes the output of `lytab run`: one line with the tree or with a byte that no
 * rule matches, or two lines for an unexpected token. */
uint32_t lytab_answer(const uint8_t *tables, size_t tables_length, const uint8_t *text, size_t text_length,
                      uint8_t *answer, size_t room, lytab_report *report);

/* The same for the output of `lytab run --json`: one line of JSON. */
uint32_t lytab_json(const uint8_t *tables, size_t tables_length, const uint8_t *text, size_t text_length,
                    uint8_t *answer, size_t room, lytab_report *report);

enum lytab_kind { LYTAB_NOTHING = 0, LYTAB_TOKEN = 1, LYTAB_NODE = 2 };

/* A part of a tree. A tree is a list of its parts in preorder: each part precedes its children. So part 0 is the whole
 * tree, and this loop visits the children of part i:
 *
 *     for (uint64_t k = i + 1; k < parts[i].next; k = parts[k].next) visit(k);
 */
typedef struct lytab_part {
    uint32_t kind;    /* a lytab_kind */
    uint32_t number;  /* the terminal of a token, the rule of a node, 0 for nothing */
    uint64_t start;   /* the offset of its first byte */
    uint64_t end;     /* the offset after its last byte */
    uint64_t next;    /* the index after its last part */
} lytab_part;

/* Parses a text with a table file, and writes the parts of its tree, with the spans of `lytab run --places`. For a
 * syntax error it writes no parts, but the expected terminals in ascending order, as many as fit. */
uint32_t lytab_parse(const uint8_t *tables, size_t tables_length, const uint8_t *text, size_t text_length,
                     lytab_part *parts, size_t parts_room, uint32_t *expected, size_t expected_room,
                     lytab_report *report);

/* The result of one of many texts. */
typedef struct lytab_text {
    uint32_t status;        /* what lytab_parse returns for this text alone: LYTAB_DONE, LYTAB_REFUSED or LYTAB_FAULT */
    uint32_t unused;
    uint64_t parts_end;     /* the end of its parts in the block; they begin at that of the text before it */
    uint64_t expected_end;  /* the same for its expected terminals */
    lytab_report report;    /* what lytab_parse reports for this text alone */
} lytab_text;

/* Parses many texts with a table file, which is read once. The result of each is that of lytab_parse for this text
 * alone, with spans and `next` that count from its own start. `texts` has all texts in order without separators, and
 * text i ends at ends[i]. `told` has space for told_room results, and gets one for each end.
 *
 * LYTAB_DONE: each text has its result in `told`; the parts of all texts follow one another, and so do the expected
 * terminals, as many as fit. LYTAB_FAULT: the table file is rejected (80 to 85; if the tables are faulty on a text, 90,
 * only that text has this status). LYTAB_MISUSED: an end is before the previous one, or after texts_length.
 * LYTAB_SHORT: `told` or `parts` is too short; `needed` is the number of parts. */
uint32_t lytab_parse_all(const uint8_t *tables, size_t tables_length, const uint8_t *texts, size_t texts_length,
                         const uint64_t *ends, size_t ends_count, lytab_text *told, size_t told_room, lytab_part *parts,
                         size_t parts_room, uint32_t *expected, size_t expected_room, lytab_report *report);

/* A token that the caller has found. */
typedef struct lytab_token {
    uint32_t terminal;  /* as lytab_names counts them; not 0, which is the end */
    uint32_t unused;
    uint64_t start;     /* the offset of its first byte */
    uint64_t end;       /* the offset after its last byte; `start` if it has no bytes */
} lytab_token;

/* Parses the given tokens of a text with a table file, in this order and followed by the end of the text, and writes
 * the parts of their tree. The scanner of the table file doesn't run, so the tokens may come from another one, and
 * bytes between them are skipped. Statuses, blocks and report are those of lytab_parse, except that no byte is
 * unmatched. LYTAB_MISUSED: a token has a terminal that the table file doesn't have, or terminal 0, or ends before it
 * begins, or after the text; `number` is the first such token, and nothing else is written.
 *
 * If the tokens are in the order of the text, the span of each part lies within that of its parent. */
uint32_t lytab_parse_tokens(const uint8_t *tables, size_t tables_length, const uint8_t *text, size_t text_length,
                            const lytab_token *tokens, size_t tokens_count, lytab_part *parts, size_t parts_room,
                            uint32_t *expected, size_t expected_room, lytab_report *report);

/* The sizes of the names of a table file. Unknown ones are 0. */
typedef struct lytab_counts {
    uint32_t fault;      /* status 2: as in a lytab_report */
    uint32_t section;
    uint64_t terminals;  /* the number of terminals 0, 1, .. */
    uint64_t rules;      /* the number of rules 1, 2, .., whose names follow those of the terminals */
    uint64_t bytes;      /* the number of bytes of all names */
} lytab_counts;

/* Writes the names of a table file: those of the terminals, as they are printed, then the constructors of the rules,
 * which are empty for rules that make no node. They follow one another in `names`; name i ends at ends[i]. */
uint32_t lytab_names(const uint8_t *tables, size_t tables_length, uint64_t *ends, size_t ends_room, uint8_t *names,
                     size_t names_room, lytab_counts *counts);

/* Finds the line and the column of a byte of a text; for an offset after the text, those of its end. */
void lytab_locate(const uint8_t *text, size_t text_length, size_t byte, uint64_t *line, uint64_t *column);

enum lytab_file { LYTAB_NO_FILE = 0, LYTAB_LEX = 1, LYTAB_YACC = 2 };

/* The details of a build. A field that isn't described for a status is 0. */
typedef struct lytab_built {
    uint32_t fault;          /* status 2: the error code, as `lytab build` prints it */
    uint32_t file;           /* status 2: the lytab_file of the error, or LYTAB_NO_FILE for an error without a location:
                                in both files together, or in all patterns together */
    uint64_t line;           /* status 2 in a file: the location of the error */
    uint64_t column;
    uint64_t needed;         /* status 0 and 5: the size of the table file in bytes */
    uint64_t shift_reduce;   /* status 0 and 5: the number of conflicts of each kind */
    uint64_t reduce_reduce;
} lytab_built;

/* Builds the table file of a lex file and a yacc file, as `lytab build` writes it. */
uint32_t lytab_build(const uint8_t *lex, size_t lex_length, const uint8_t *yacc, size_t yacc_length, uint8_t *tables,
                     size_t room, lytab_built *built);

/* The version of these calls and structs: 1. A program may compare it with LYTAB_VERSION at startup. */
#define LYTAB_VERSION 1
uint32_t lytab_version(void);

#ifdef __cplusplus
}
#endif

#endif
