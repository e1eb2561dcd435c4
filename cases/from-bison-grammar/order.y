%start last
%%
first: { begin(); } 'a' { end(); }
last: first | last first %prec 'a'
    ;
