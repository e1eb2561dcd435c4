%token A
VERSION(3, %define x)
%%
s : A ;
