%token A
%%
s : A @REST@ ;
