%token ID ARROW
%right ARROW
%%
lines : lines line '\n' { $$ = append($1, $2); }
      | /* nothing */   { $$ = 0; }
line : type
     | { $$ = mid(); } '(' type ')' '(' type ')' { $$ = $<x>3; }
type : type ARROW type ;
type : ID { $$ = (struct node *) $1; }
%%
