%token A
%%
s : A
#include "more.y"
  ;
