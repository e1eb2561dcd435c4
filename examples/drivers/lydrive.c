/* Answers a text by a table file of lytab, as `lytab run` does: a driver of its own in C99, written from
 * docs/table-file.md, docs/trees.md and docs/texts-and-faults.md alone, for processors that lytab isn't made for.
 *
 *     cc -std=c99 -O2 lydrive.c -o lydrive
 *     ./lydrive TABLES [TEXT]
 *
 * Nothing of it is proved. It looks for all faults of a table file, 80 to 85, so that it ends on every file: by tables
 * that pass the last check no run of reductions on one token goes on for ever. Its statuses are those of lytab. */
#include <stdint.h>
#include <stdio.h>
#include <stdlib.h>
#include <string.h>

enum { TREE = 0, REFUSED = 1, FAULT = 2, FAILED = 3, WORDS = 4 };
enum { BAD_MAGIC = 80, BAD_VERSION, TRUNCATED, TRAILING, OUT_OF_RANGE, ENDLESS, FAULTY_TABLES = 90 };
enum { MOST_REDUCTIONS = 100000 };

static void die(int status, const char *line) {
    fprintf(stderr, "lytab: %s\n", line);
    exit(status);
}

static void fault(int number, int section) {
    static const char *const names[] = {"BadMagic", "BadVersion", "Truncated", "Trailing", "OutOfRange", "Endless"};
    char line[80];
    const char *name = number == FAULTY_TABLES ? "TableFault" : names[number - BAD_MAGIC];
    if (section)
        snprintf(line, sizeof line, "tables: fault %d %s section %d", number, name, section);
    else
        snprintf(line, sizeof line, "tables: fault %d %s", number, name);
    die(FAULT, line);
}

static void *needed(void *memory) {
    if (!memory) die(FAILED, "out of memory");
    return memory;
}

static void *room(size_t count, size_t each) {
    return needed(calloc(count ? count : 1, each));
}

/* Makes room for one more item at the end of a growing array. */
#define GROW(array, count, capacity) \
    do { \
        if ((count) == (capacity)) { \
            (capacity) = (capacity) ? 2 * (capacity) : 64; \
            (array) = needed(realloc((array), (capacity) * sizeof *(array))); \
        } \
    } while (0)

/* ---- The table file ---- */

/* Rows of entries, laid over one another. */
typedef struct {
    uint32_t *base, *next, *check;
    uint32_t rows, slots;
} Comb;

typedef struct {
    uint32_t returns, terminal, condition, cut, length;
} ScanRule;

typedef struct {
    uint32_t left, body, kind, name_length, places;
    const uint8_t *name, *place;
} Rule;

enum { NOTHING = 0, PASS = 1, BUILD = 2 };
enum { WHOLE = 0, HEAD = 1, TAIL = 2 };

typedef struct {
    uint32_t terminals, nonterminals, scan_rules, conditions, classes, scan_states, rules, states;
    /* "none", and where shifts and reductions begin among the entries of the parser's actions */
    uint32_t none, shift, reduce;
    const uint8_t **name;
    uint32_t *name_length;
    uint32_t literal[256], class_of[256];
    ScanRule *scan_rule;
    uint32_t (*start)[2];
    uint32_t *accepted, *defaults;
    Rule *rule;
    Comb scan_rows, actions, gotos;
} Tables;

/* The fields of a file, one behind another. */
typedef struct {
    const uint8_t *bytes;
    size_t length, at;
    int is_wide;
} Fields;

static const uint8_t *take(Fields *f, size_t count) {
    if (f->length - f->at < count) fault(TRUNCATED, 0);
    f->at += count;
    return f->bytes + f->at - count;
}

static uint32_t take_u8(Fields *f) {
    return take(f, 1)[0];
}

static uint32_t take_u16(Fields *f) {
    const uint8_t *p = take(f, 2);
    return (uint32_t)p[0] << 8 | p[1];
}

static uint32_t take_u32(Fields *f) {
    const uint8_t *p = take(f, 4);
    return (uint32_t)p[0] << 24 | (uint32_t)p[1] << 16 | (uint32_t)p[2] << 8 | p[3];
}

static uint32_t take_num(Fields *f) {
    return f->is_wide ? take_u32(f) : take_u16(f);
}

/* A count of fields, each of at least so many bytes: no room is taken for more than there can be. */
static uint32_t counted(const Fields *f, uint32_t count, size_t each) {
    if ((f->length - f->at) / each < count) fault(TRUNCATED, 0);
    return count;
}

static uint32_t *take_nums(Fields *f, uint32_t count) {
    uint32_t *nums = room(counted(f, count, f->is_wide ? 4 : 2), sizeof *nums);
    for (uint32_t i = 0; i < count; i++) nums[i] = take_num(f);
    return nums;
}

static void take_comb(Fields *f, Comb *c, uint32_t rows) {
    c->rows = rows;
    c->base = room(counted(f, rows, 4), sizeof *c->base);
    for (uint32_t i = 0; i < rows; i++) c->base[i] = take_u32(f);
    c->slots = take_u32(f);
    c->next = take_nums(f, c->slots);
    c->check = take_nums(f, c->slots);
}

static uint32_t entry(const Tables *t, const Comb *c, uint32_t row, uint32_t column) {
    uint64_t slot = (uint64_t)c->base[row] + column;
    return slot < c->slots && c->check[slot] == row ? c->next[slot] : t->none;
}

static void take_header(Fields *f, Tables *t) {
    if (memcmp(f->bytes, "LYTB", f->length < 4 ? f->length : 4)) fault(BAD_MAGIC, 0);
    take(f, 4);
    uint32_t version = take_u16(f);
    if (version != 1 && version != 2) fault(BAD_VERSION, 0);
    f->is_wide = version == 2;
    t->none = f->is_wide ? 0xffffffff : 0xffff;
    t->shift = f->is_wide ? 0x80000000 : 0x8000;
    t->reduce = t->shift >> 1;
}

static void take_scanner(Fields *f, Tables *t) {
    size_t wide = f->is_wide ? 4 : 2;
    t->terminals = take_num(f);
    t->nonterminals = take_num(f);
    t->name = room(counted(f, t->terminals, 2), sizeof *t->name);
    t->name_length = room(t->terminals, sizeof *t->name_length);
    for (uint32_t i = 0; i < t->terminals; i++) {
        t->name_length[i] = take_u16(f);
        t->name[i] = take(f, t->name_length[i]);
    }
    for (int i = 0; i < 256; i++) t->literal[i] = take_num(f);
    t->scan_rules = take_num(f);
    t->scan_rule = room(counted(f, t->scan_rules, 2 + 3 * wide), sizeof *t->scan_rule);
    for (uint32_t i = 0; i < t->scan_rules; i++) {
        ScanRule *r = t->scan_rule + i;
        r->returns = take_u8(f);
        r->terminal = take_num(f);
        r->condition = take_num(f);
        r->cut = take_u8(f);
        r->length = take_num(f);
    }
    t->conditions = take_num(f);
    t->start = room(counted(f, t->conditions, 2 * wide), sizeof *t->start);
    for (uint32_t i = 0; i < t->conditions; i++)
        for (int k = 0; k < 2; k++) t->start[i][k] = take_num(f);
    t->classes = take_num(f);
    for (int i = 0; i < 256; i++) t->class_of[i] = take_u8(f);
    t->scan_states = take_num(f);
    t->accepted = take_nums(f, t->scan_states);
    take_comb(f, &t->scan_rows, t->scan_states);
}

static void take_parser(Fields *f, Tables *t) {
    t->rules = take_num(f);
    t->rule = room(counted(f, t->rules, (f->is_wide ? 4 : 2) + 5), sizeof *t->rule);
    for (uint32_t i = 0; i < t->rules; i++) {
        Rule *r = t->rule + i;
        r->left = take_num(f);
        r->body = take_u8(f);
        r->kind = take_u8(f);
        r->name_length = take_u16(f);
        r->name = take(f, r->name_length);
        r->places = take_u8(f);
        r->place = take(f, r->places);
    }
    t->states = take_num(f);
    t->defaults = take_nums(f, t->states);
    take_comb(f, &t->actions, t->states);
    take_comb(f, &t->gotos, t->states);
}

static void in_range(int is_so, int section) {
    if (!is_so) fault(OUT_OF_RANGE, section);
}

static int is_action(const Tables *t, uint32_t value, uint32_t column) {
    if (value == 0) return 1;
    if (value == 1) return column == 0;
    if (value >= t->shift) return column != 0 && value - t->shift < t->states;
    return value > t->reduce && value - t->reduce <= t->rules;
}

static void check_comb(const Tables *t, const Comb *c, uint32_t width, int section) {
    for (uint32_t row = 0; row < c->rows; row++) in_range(c->base[row] <= c->slots, section);
    for (uint32_t slot = 0; slot < c->slots; slot++) {
        uint32_t row = c->check[slot], value = c->next[slot];
        if (row == t->none) {
            in_range(value == 0, section);
            continue;
        }
        in_range(row < c->rows && c->base[row] <= slot && slot - c->base[row] < width, section);
        if (section == 8) in_range(value < t->scan_states, section);
        if (section == 11) in_range(is_action(t, value, slot - c->base[row]), section);
        if (section == 12) in_range(value < t->states, section);
    }
}

static void check_names(const Tables *t, uint32_t most) {
    in_range(t->terminals >= 2 && t->nonterminals >= 1, 2);
    in_range((uint64_t)t->terminals + t->nonterminals + 1 <= most, 2);
    for (uint32_t i = 0; i < t->terminals; i++) in_range(1 <= t->name_length[i] && t->name_length[i] <= 255, 2);
    in_range(t->name_length[0] == 4 && !memcmp(t->name[0], "$end", 4), 2);
    in_range(t->name_length[1] == 6 && !memcmp(t->name[1], "$undef", 6), 2);
    for (int i = 0; i < 256; i++) in_range(1 <= t->literal[i] && t->literal[i] < t->terminals, 3);
}

static void check_scanner(const Tables *t, uint32_t most_rules, uint32_t most_states) {
    in_range(t->scan_rules <= most_rules, 4);
    for (uint32_t i = 0; i < t->scan_rules; i++) {
        const ScanRule *r = t->scan_rule + i;
        in_range(r->returns <= 2 && r->cut <= TAIL, 4);
        in_range(r->returns == 1 ? 1 <= r->terminal && r->terminal < t->terminals : r->terminal == 0, 4);
        in_range(r->condition == t->none || r->condition < t->conditions, 4);
        in_range((r->cut != WHOLE || r->length == 0) && (r->cut != HEAD || r->length >= 1), 4);
    }
    in_range(1 <= t->conditions && t->conditions <= 255, 5);
    for (uint32_t i = 0; i < t->conditions; i++)
        for (int k = 0; k < 2; k++) in_range(t->start[i][k] == t->none || t->start[i][k] < t->scan_states, 5);
    in_range(1 <= t->classes && t->classes <= 256, 6);
    for (int i = 0; i < 256; i++) in_range(t->class_of[i] < t->classes, 6);
    in_range(t->scan_states <= most_states, 7);
    for (uint32_t i = 0; i < t->scan_states; i++) in_range(t->accepted[i] <= t->scan_rules, 7);
    check_comb(t, &t->scan_rows, t->classes, 8);
}

static void check_rule(const Tables *t, const Rule *r) {
    in_range(r->left < t->nonterminals && r->kind <= BUILD, 9);
    if (r->kind == NOTHING) in_range(r->body == 0 && r->places == 0, 9);
    if (r->kind == PASS) in_range(r->places == 1, 9);
    in_range(r->kind == BUILD ? 1 <= r->name_length && r->name_length <= 255 : r->name_length == 0, 9);
    for (uint32_t i = 0; i < r->places; i++) {
        in_range(1 <= r->place[i] && r->place[i] <= r->body, 9);
        for (uint32_t k = 0; k < i; k++) in_range(r->place[i] != r->place[k], 9);
    }
}

static void check_parser(const Tables *t, uint32_t most_rules, uint32_t most_states) {
    in_range(1 <= t->rules && t->rules <= most_rules, 9);
    for (uint32_t i = 0; i < t->rules; i++) check_rule(t, t->rule + i);
    in_range(1 <= t->states && t->states <= most_states, 10);
    for (uint32_t i = 0; i < t->states; i++) in_range(t->defaults[i] <= t->rules, 10);
    check_comb(t, &t->actions, t->terminals, 11);
    check_comb(t, &t->gotos, t->nonterminals, 12);
}

static uint32_t action(const Tables *t, uint32_t state, uint32_t terminal) {
    uint32_t found = entry(t, &t->actions, state, terminal);
    if (found != t->none) return found;
    return t->defaults[state] ? t->reduce + t->defaults[state] : 0;
}

/* Whether the run on a terminal that begins with `top` on `below` makes no more reductions than may be. It ends where a
 * reduction would pop `below`. */
static int run_ends(const Tables *t, uint32_t below, uint32_t top, uint32_t terminal) {
    static uint32_t *states;
    static size_t capacity;
    size_t height = 0;
    for (int i = 0; i < 2; i++) {
        GROW(states, height, capacity);
        states[height++] = i ? top : below;
    }
    for (int reductions = 0; reductions <= MOST_REDUCTIONS; reductions++) {
        uint32_t what = action(t, states[height - 1], terminal);
        if (what <= t->reduce || what >= t->shift) return 1;
        const Rule *r = t->rule + (what - t->reduce - 1);
        if (r->body >= height) return 1;
        height -= r->body;
        uint32_t next = entry(t, &t->gotos, states[height - 1], r->left);
        if (next == t->none) return 1;
        GROW(states, height, capacity);
        states[height++] = next;
    }
    return 0;
}

static void check_runs(const Tables *t) {
    for (uint32_t below = 0; below < t->states; below++)
        for (uint32_t column = 0; column < t->terminals + t->nonterminals; column++) {
            uint32_t top = t->none;
            if (column >= t->terminals)
                top = entry(t, &t->gotos, below, column - t->terminals);
            else if (entry(t, &t->actions, below, column) != t->none && action(t, below, column) >= t->shift)
                top = action(t, below, column) - t->shift;
            for (uint32_t terminal = 0; top != t->none && terminal < t->terminals; terminal++)
                if (!run_ends(t, below, top, terminal)) fault(ENDLESS, 0);
        }
}

static void read_tables(Tables *t, const uint8_t *file, size_t length) {
    Fields fields = {file, length, 0, 0};
    take_header(&fields, t);
    take_scanner(&fields, t);
    take_parser(&fields, t);
    if (fields.at != length) fault(TRAILING, 0);
    uint32_t most_rules = fields.is_wide ? 131071 : 8191, most_states = fields.is_wide ? 262143 : 16383;
    check_names(t, fields.is_wide ? 16383 : 4095);
    check_scanner(t, most_rules, most_states);
    check_parser(t, most_rules, most_states);
    check_runs(t);
}

/* ---- Terms, and how they are printed ---- */

enum { EMPTY, LEAF, NODE };

/* A leaf has a terminal, and its bytes from `first` to `end` in the text; a node a rule, and its children from `first`
 * on. */
typedef struct {
    uint32_t kind, symbol;
    size_t first, end;
} Term;

static Term *terms;
static uint32_t *children;
static size_t term_count, term_capacity, child_count, child_capacity;

static uint32_t add(uint32_t kind, uint32_t symbol, size_t first, size_t end) {
    GROW(terms, term_count, term_capacity);
    terms[term_count] = (Term){kind, symbol, first, end};
    return (uint32_t)term_count++;
}

static void put(const void *bytes, size_t count) {
    if (fwrite(bytes, 1, count, stdout) != count) die(FAILED, "cannot write -");
}

static void put_token(const Tables *t, uint32_t terminal, const uint8_t *bytes, size_t count) {
    static const char hexadecimal[] = "0123456789abcdef";
    put(t->name[terminal], t->name_length[terminal]);
    put("\"", 1);
    for (size_t i = 0; i < count; i++) {
        char escape[] = {'\\', 'x', hexadecimal[bytes[i] >> 4], hexadecimal[bytes[i] & 15]};
        if (bytes[i] == '\n') {
            put("\\n", 2);
        } else if (bytes[i] == '\t') {
            put("\\t", 2);
        } else if (bytes[i] == '\\' || bytes[i] == '"') {
            put("\\", 1);
            put(bytes + i, 1);
        } else if (32 <= bytes[i] && bytes[i] <= 126) {
            put(bytes + i, 1);
        } else {
            put(escape, sizeof escape);
        }
    }
    put("\"", 1);
}

/* Prints a term, with a stack of the nodes that aren't ended in place of recursion. */
static void put_tree(const Tables *t, const uint8_t *text, uint32_t root) {
    struct {
        uint32_t node, next;
    } *open = NULL;
    size_t depth = 0, capacity = 0;
    for (uint32_t term = root;;) {
        const Term *x = terms + term;
        if (x->kind == EMPTY) put("()", 2);
        if (x->kind == LEAF) put_token(t, x->symbol, text + x->first, x->end - x->first);
        if (x->kind == NODE) {
            put(t->rule[x->symbol].name, t->rule[x->symbol].name_length);
            put("(", 1);
            GROW(open, depth, capacity);
            open[depth].node = term;
            open[depth++].next = 0;
        }
        while (depth && open[depth - 1].next == t->rule[terms[open[depth - 1].node].symbol].places) {
            put(")", 1);
            depth--;
        }
        if (!depth) break;
        if (open[depth - 1].next) put(",", 1);
        term = children[terms[open[depth - 1].node].first + open[depth - 1].next++];
    }
    put("\n", 1);
    free(open);
}

/* ---- The parser ---- */

typedef struct {
    uint32_t state, term;
} Level;

typedef struct {
    uint64_t number;
    uint32_t terminal;
    size_t start, end;
} Token;

static Level *stack;
static size_t height, stack_capacity;
/* The stack before the token that is fed has its levels below `low` still, and there was more above: these states. */
static uint32_t *popped;
static size_t low, was, popped_capacity;

static void push(uint32_t state, uint32_t term) {
    GROW(stack, height, stack_capacity);
    stack[height++] = (Level){state, term};
}

/* Takes so many levels off the stack, and keeps the states of those that stood there before the token. */
static void pop(size_t count) {
    height -= count;
    for (; low > height; low--) popped[low - 1] = stack[low - 1].state;
}

/* Whether a terminal would be read, or accepted, where these states are on the stack. */
static int is_expected(const Tables *t, uint32_t terminal, uint32_t **states, size_t *capacity) {
    size_t count = was;
    for (size_t i = 0; i < was; i++) (*states)[i] = i < low ? stack[i].state : popped[i];
    for (;;) {
        uint32_t what = action(t, (*states)[count - 1], terminal);
        if (what >= t->shift || (what == 1 && count > 1)) return 1;
        if (what <= t->reduce) return 0;
        const Rule *r = t->rule + (what - t->reduce - 1);
        if (r->body >= count) return 0;
        count -= r->body;
        uint32_t next = entry(t, &t->gotos, (*states)[count - 1], r->left);
        if (next == t->none) return 0;
        GROW(*states, count, *capacity);
        (*states)[count++] = next;
    }
}

static void put_refusal(const Tables *t, const uint8_t *text, const Token *token) {
    unsigned long long number = token->number;
    if (token->terminal == 0) {
        printf("syntax error at end, token %llu, byte %zu\n", number, token->start);
    } else {
        printf("syntax error at token %llu, byte %zu: ", number, token->start);
        put_token(t, token->terminal, text + token->start, token->end - token->start);
        put("\n", 1);
    }
    put("expected:", 9);
    size_t capacity = was + 1;
    uint32_t *states = room(capacity, sizeof *states);
    for (uint32_t terminal = 0; terminal < t->terminals; terminal++)
        if (is_expected(t, terminal, &states, &capacity)) {
            put(" ", 1);
            put(t->name[terminal], t->name_length[terminal]);
        }
    put("\n", 1);
    free(states);
}

/* Makes a reduction: what the rule makes of the terms of its body is put onto what is left of the stack. */
static void reduce(const Tables *t, uint32_t rule) {
    const Rule *r = t->rule + rule;
    if (r->body >= height) fault(FAULTY_TABLES, 0);
    const Level *body = stack + height - r->body;
    uint32_t term;
    if (r->kind == PASS) {
        term = body[r->place[0] - 1].term;
    } else if (r->kind == NOTHING) {
        term = add(EMPTY, 0, 0, 0);
    } else {
        term = add(NODE, rule, child_count, 0);
        for (uint32_t i = 0; i < r->places; i++) {
            GROW(children, child_count, child_capacity);
            children[child_count++] = body[r->place[i] - 1].term;
        }
    }
    pop(r->body);
    uint32_t next = entry(t, &t->gotos, stack[height - 1].state, r->left);
    if (next == t->none) fault(FAULTY_TABLES, 0);
    push(next, term);
}

/* Feeds the parser with a token, and says whether it is refused. */
static int is_refused(const Tables *t, const uint8_t *text, const Token *token) {
    low = was = height;
    if (popped_capacity < height) {
        popped_capacity = 2 * height;
        popped = needed(realloc(popped, popped_capacity * sizeof *popped));
    }
    for (;;) {
        uint32_t what = action(t, stack[height - 1].state, token->terminal);
        if (what >= t->shift) {
            push(what - t->shift, add(LEAF, token->terminal, token->start, token->end));
            return 0;
        }
        if (what > t->reduce) {
            reduce(t, what - t->reduce - 1);
            continue;
        }
        if (what == 1 && height < 2) fault(FAULTY_TABLES, 0);
        if (what == 1) return 0;
        put_refusal(t, text, token);
        return 1;
    }
}

/* ---- The scanner ---- */

/* The rule of the longest match at a byte, counted from 1, and where that ends; 0 where no rule matches. */
static uint32_t match(const Tables *t, const uint8_t *text, size_t length, size_t at, uint32_t state, size_t *end) {
    uint32_t rule = 0;
    while (state != t->none && at < length) {
        state = entry(t, &t->scan_rows, state, t->class_of[text[at++]]);
        if (state != t->none && t->accepted[state]) {
            rule = t->accepted[state];
            *end = at;
        }
    }
    return rule;
}

static size_t cut(const ScanRule *r, size_t matched) {
    if (r->cut == WHOLE) return matched;
    if (r->length > matched || (r->cut == TAIL && r->length == matched)) fault(FAULTY_TABLES, 0);
    return r->cut == HEAD ? r->length : matched - r->length;
}

static int answer(const Tables *t, const uint8_t *text, size_t length) {
    uint32_t condition = 0;
    int is_line_start = 1;
    Token token = {0, 0, 0, 0};
    push(0, 0);
    for (size_t at = 0, end = 0; at < length;) {
        uint32_t rule = match(t, text, length, at, t->start[condition][is_line_start], &end);
        if (!rule) {
            printf("no rule matches at byte %zu\n", at);
            return REFUSED;
        }
        const ScanRule *r = t->scan_rule + rule - 1;
        size_t taken = cut(r, end - at);
        if (r->returns) {
            token.number++;
            token.terminal = r->returns == 1 ? r->terminal : t->literal[text[at]];
            token.start = at;
            token.end = at + taken;
            if (is_refused(t, text, &token)) return REFUSED;
        }
        if (r->condition != t->none) condition = r->condition;
        at += taken;
        is_line_start = text[at - 1] == '\n';
    }
    token = (Token){token.number + 1, 0, length, length};
    if (is_refused(t, text, &token)) return REFUSED;
    put_tree(t, text, stack[height - 1].term);
    return TREE;
}

/* ---- The program ---- */

static uint8_t *whole(FILE *file, const char *path, size_t *length) {
    uint8_t *bytes = needed(malloc(1));
    size_t capacity = 1, count = 0;
    char line[300];
    snprintf(line, sizeof line, "cannot read %s", path);
    if (!file) die(FAILED, line);
    for (size_t got = 1; got; count += got) {
        if (capacity - count < 65536) bytes = needed(realloc(bytes, capacity = 2 * capacity + 65536));
        got = fread(bytes + count, 1, capacity - count, file);
    }
    if (ferror(file)) die(FAILED, line);
    *length = count;
    return bytes;
}

int main(int count, char **words) {
    static Tables tables;
    size_t file_length, length;
    if (count != 2 && count != 3) {
        fprintf(stderr, "usage: lydrive TABLES [TEXT]\n");
        return WORDS;
    }
    uint8_t *file = whole(fopen(words[1], "rb"), words[1], &file_length);
    uint8_t *text = count == 3 ? whole(fopen(words[2], "rb"), words[2], &length) : whole(stdin, "-", &length);
    read_tables(&tables, file, file_length);
    int status = answer(&tables, text, length);
    if (fflush(stdout)) die(FAILED, "cannot write -");
    free(file);
    free(text);
    return status;
}
