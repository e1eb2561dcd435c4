%token LESS LABEL COLON X
%%
all : one | all one ;
one : LESS { first(); } LABEL COLON { $$ = $3; } | X ;
