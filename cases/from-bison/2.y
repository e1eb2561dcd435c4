%define api.token.prefix {TOKEN_}
%token NAME STRING
%%
file: sets ;
sets: sets set { list_add($1, $2); $$ = $1; }
    | set      { $$ = list_new($1); }
    ;
set: NAME[name] { begin($name); } '=' STRING[value] ';' { $$ = make_set($name, $value); }
   | NAME[n] ';' { $$ = $n; }
   ;
