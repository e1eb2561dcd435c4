/* JSON (RFC 8259), over the words of json.l. */
%token STRING NUMBER TRUE FALSE NULL

%%
value
    : object
    | array
    | STRING
    | NUMBER
    | TRUE
    | FALSE
    | NULL
    ;

object
    : '{' '}'                   { $$ = Object(); }
    | '{' members '}'           { $$ = Object($2); }
    ;

members
    : member
    | members ',' member        { $$ = Members($1,$3); }
    ;

member
    : STRING ':' value          { $$ = Member($1,$3); }
    ;

array
    : '[' ']'                   { $$ = Array(); }
    | '[' elements ']'          { $$ = Array($2); }
    ;

elements
    : value
    | elements ',' value        { $$ = Elements($1,$3); }
    ;
