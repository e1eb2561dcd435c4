/* A configuration file, over the words of config.l: settings, and sections of such. */
%token NAME NUMBER STRING YES NO

%%
file
    : entries                   { $$ = File($1); }
    ;

entries
    :
    | entries entry             { $$ = Entries($1,$2); }
    ;

entry
    : NAME '=' value ';'        { $$ = Setting($1,$3); }
    | NAME '{' entries '}'      { $$ = Section($1,$3); }
    ;

value
    : STRING
    | NUMBER
    | YES
    | NO
    | '[' ']'                   { $$ = List(); }
    | '[' values ']'            { $$ = List($2); }
    ;

values
    : value
    | values ',' value          { $$ = Values($1,$3); }
    ;
