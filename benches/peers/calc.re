/*!re2c
    [0-9]+   { return T_NUM; }
    [ \t\n]+ { continue; }
    [^\n]    { return of_byte[*start]; }
    *        { return STUCK; }
    $        { return 0; }
*/
