%token N
%precedence '<'
%left '+'
%precedence NEG
%%
e : e '+' e { $$ = add($1, $3); }
  | e '<' e
  | '-' e %prec NEG { $$ = -$2; }
  | N ;
