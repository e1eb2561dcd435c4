%define api.pure full
%define api.prefix {json_}
%define api.value.type {struct node *}
%define api.location.type {struct place}
%locations
%code requires {
#include <stddef.h>
#include <stdint.h>
struct place {
    size_t first, last;
};
}
%code {
#include "peer.h"
int json_lex(JSON_STYPE *value, JSON_LTYPE *at);
static void json_error(const JSON_LTYPE *at, const char *why) { (void)at, (void)why; }
#define YYLLOC_DEFAULT(here, parts, count) \
    do { \
        (here).first = (count) ? YYRHSLOC(parts, 1).first : YYRHSLOC(parts, 0).last; \
        (here).last = YYRHSLOC(parts, count).last; \
    } while (0)
#define NODE(rule, at, child) part(2, rule, (at).first, (at).last, child)
static struct node *with(struct node *first, struct node *next) {
    first->next = next;
    return first;
}
}
%token STRING NUMBER TRUE FALSE NUL
%%
text : value { root = $1; } ;
value : object | array | STRING | NUMBER | TRUE | FALSE | NUL ;
object : '{' '}' { $$ = NODE(8, @$, NULL); } | '{' members '}' { $$ = NODE(9, @$, $2); } ;
members : member | members ',' member { $$ = NODE(11, @$, with($1, $3)); } ;
member : STRING ':' value { $$ = NODE(12, @$, with($1, $3)); } ;
array : '[' ']' { $$ = NODE(13, @$, NULL); } | '[' elements ']' { $$ = NODE(14, @$, $2); } ;
elements : value | elements ',' value { $$ = NODE(16, @$, with($1, $3)); } ;
%%
