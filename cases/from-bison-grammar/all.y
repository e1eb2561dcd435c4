%{ /* %} */
#include <stdio.h>
%}
%code requires { struct place { int line; }; }
%define api.pure full
%union { int number; struct { int at; } place; }
%token <number> IF 300 "if" ELSE "else" X
%token END 0 "end of file" sub-name
%term '+', MINUS
%left '+' error
%binary  MINUS
%expect 2
%% /* the rules */
s   : "if" e { open("}"); } s         { done("}"); }
    | "if" e { open('{'); } { /* two */ }
      s "else" s
    | error ';' | '{' list[l] '}'     { use("{"); }
    ;
%type <number> e list;
%token LATE;
list: %empty | list s { $$ = 1; };
e   : e '+' e
    | MINUS e %prec NEG { negate(); } <number>{ last(); }
    | X[value] "<="  sub-name
    | X LATE
;
%%
int main() { return yyparse(); }
