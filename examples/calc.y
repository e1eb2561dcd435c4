/* A calculator: expressions, each with a semicolon behind it. */
%token NUMBER

/* From the loosest operators to the tightest. A minus in front binds as NEGATED, so -2^2 is -(2^2). */
%left '+' '-'
%left '*' '/'
%right NEGATED
%right '^'

%%
sheet
    :                                   /* Without symbols and an action the tree is (). */
    | sheet expression ';'              { $$ = Sheet($1,$2); }
    ;

expression
    : expression '+' expression         { $$ = Add($1,$3); }
    | expression '-' expression         { $$ = Subtract($1,$3); }
    | expression '*' expression         { $$ = Multiply($1,$3); }
    | expression '/' expression         { $$ = Divide($1,$3); }
    | expression '^' expression         { $$ = Power($1,$3); }
    | '-' expression %prec NEGATED      { $$ = Negate($2); }
    | '(' expression ')'                { $$ = $2; }
    | NUMBER                            /* Without an action it is that of the first symbol. */
    ;
