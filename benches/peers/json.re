/*!re2c
    hex = [0-9a-fA-F];
    int = "0" | [1-9][0-9]*;
    [ \t\r\n]+ { continue; }
    "true"     { return T_TRUE; }
    "false"    { return T_FALSE; }
    "null"     { return T_NULL_WORD; }
    "-"? int ("." [0-9]+)? ([eE] [+-]? [0-9]+)? { return T_NUMBER; }
    ["] ([^"\\\x00-\x1f] | "\\" (["\\/bfnrt] | "u" hex{4}))* ["] { return T_STRING; }
    [[\]{}:,]  { return of_byte[*start]; }
    *          { return STUCK; }
    $          { return 0; }
*/
