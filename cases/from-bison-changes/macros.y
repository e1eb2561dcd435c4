%token T_ONE T_BOTH T_THREE
%%
all : one | all one ;
one : T_ONE | T_BOTH | T_THREE | ';' | '(' | '?' ;
