%token NUMBER
%left '+' '-'
%left '*'
%%
sum : sum '+' sum   { $$ = Add($1,$3); }
    | sum '-' sum   { $$ = Subtract($1,$3); }
    | sum '*' sum   { $$ = Multiply($1,$3); }
    | NUMBER ;
