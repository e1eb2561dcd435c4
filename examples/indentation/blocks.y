/* A small language with blocks by indentation, over the tokens that blocks.py finds. A block is the lines that are
   indented further than the one in front of it: it begins with INDENT and ends with DEDENT. */
%token NAME NUMBER IF WHILE PRINT NEWLINE INDENT DEDENT

%nonassoc '<'
%left '+' '-'

%%
program
    : statements                        { $$ = Program($1); }
    ;

statements
    :
    | statements statement              { $$ = Then($1,$2); }
    ;

statement
    : NAME '=' expression NEWLINE       { $$ = Set($1,$3); }
    | PRINT expression NEWLINE          { $$ = Print($2); }
    | IF expression ':' block           { $$ = If($2,$4); }
    | WHILE expression ':' block        { $$ = While($2,$4); }
    ;

block
    : NEWLINE INDENT statements DEDENT  { $$ = $3; }
    ;

expression
    : expression '<' expression         { $$ = Less($1,$3); }
    | expression '+' expression         { $$ = Add($1,$3); }
    | expression '-' expression         { $$ = Subtract($1,$3); }
    | NAME
    | NUMBER
    ;
