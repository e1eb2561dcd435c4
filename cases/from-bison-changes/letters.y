%token IF X NINE WORD
%%
all : one | all one ;
one : IF | X | NINE | WORD ;
