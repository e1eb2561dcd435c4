%token NUM
%%
s : NUMM ;
