/*!re2c
    digit = [0-9];
    letter = [A-Za-z_];
    exp = [eE] [+-]? digit+;
    suffix = [uUlLfF]*;
    "/*"                    { goto comment; }
    "//" [^\n]*             { continue; }
    "#" [^\n]*              { if (start == text || start[-1] == '\n') continue; return STUCK; }
    [ \t\r\n]+              { continue; }
    "break"                 { return T_BREAK; }
    "case"                  { return T_CASE; }
    "char"                  { return T_CHAR; }
    "const"                 { return T_CONST; }
    "continue"              { return T_CONTINUE; }
    "default"               { return T_DEFAULT; }
    "do"                    { return T_DO; }
    "double"                { return T_DOUBLE; }
    "else"                  { return T_ELSE; }
    "enum"                  { return T_ENUM; }
    "extern"                { return T_EXTERN; }
    "float"                 { return T_FLOAT; }
    "for"                   { return T_FOR; }
    "goto"                  { return T_GOTO; }
    "if"                    { return T_IF; }
    "int"                   { return T_INT; }
    "long"                  { return T_LONG; }
    "return"                { return T_RETURN; }
    "short"                 { return T_SHORT; }
    "signed"                { return T_SIGNED; }
    "sizeof"                { return T_SIZEOF; }
    "static"                { return T_STATIC; }
    "struct"                { return T_STRUCT; }
    "switch"                { return T_SWITCH; }
    "typedef"               { return T_TYPEDEF; }
    "union"                 { return T_UNION; }
    "unsigned"              { return T_UNSIGNED; }
    "void"                  { return T_VOID; }
    "volatile"              { return T_VOLATILE; }
    "while"                 { return T_WHILE; }
    letter (letter | digit)* "_t" { return T_TYPE_NAME; }
    letter (letter | digit)* { return T_NAME; }
    "0" [xX] [0-9a-fA-F]+ suffix | digit+ suffix | digit+ exp suffix |
    digit* "." digit+ exp? suffix | digit+ "." digit* exp? suffix { return T_NUMBER; }
    ['] ([^'\\\n] | "\\" [^\n])+ ['] { return T_CHARACTER; }
    ["] ([^"\\\n] | "\\" [^\n])* ["] { return T_STRING; }
    "..."                   { return T_ELLIPSIS; }
    ">>="                   { return T_SHR_SET; }
    "<<="                   { return T_SHL_SET; }
    "+="                    { return T_ADD_SET; }
    "-="                    { return T_SUB_SET; }
    "*="                    { return T_MUL_SET; }
    "/="                    { return T_DIV_SET; }
    "%="                    { return T_MOD_SET; }
    "&="                    { return T_AND_SET; }
    "^="                    { return T_XOR_SET; }
    "|="                    { return T_OR_SET; }
    ">>"                    { return T_SHR; }
    "<<"                    { return T_SHL; }
    "++"                    { return T_INC; }
    "--"                    { return T_DEC; }
    "->"                    { return T_ARROW; }
    "&&"                    { return T_AND; }
    "||"                    { return T_OR; }
    "<="                    { return T_LE; }
    ">="                    { return T_GE; }
    "=="                    { return T_EQ; }
    "!="                    { return T_NE; }
    [[\](){};,:=.&!~+*/%<>^|?-] { return of_byte[*start]; }
    *                       { return STUCK; }
    $                       { return 0; }
*/
comment:
/*!re2c
    "*/"                    { continue; }
    [^*]+ | "*"             { goto comment; }
    $                       { return 0; }
*/
