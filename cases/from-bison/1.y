%{
#include <stdio.h>
void yyerror(const char *s) { printf("%s }\n", s); }
%}
%define parse.error verbose
%union { double d; struct { int x; } s; }
%token <d> NUM 258 "number"
%token PLUS "+" EOL "end of line"
%type <d> exp
%left "+" '-'
%left '*' '/'
%precedence NEG
%start input
%%
input: %empty | input line ;
line: EOL | exp EOL { printf("%g\n", $1); } | error EOL { yyerrok; } ;
exp: NUM
   | exp "+" exp     { $$ = $1 + $3; }
   | exp '-' exp     { $$ = $1 - $3; }
   | exp '*' exp     { $$ = $1 * $3; }
   | exp '/' exp     { if ($3 == 0) { yyerror("}"); } else $$ = $1 / $3; }
   | '-' exp %prec NEG { $$ = -$2; }
   | '(' exp ')'     { $$ = $2; /* the value alone */ }
   ;
%%
int main(void) { return yyparse(); }
