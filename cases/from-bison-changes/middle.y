%token IF X
%%
s : IF { enter(); } t { leave($3); }
  | X
  ;
t : { begin(); } X t
  | ';'
  ;
%%
