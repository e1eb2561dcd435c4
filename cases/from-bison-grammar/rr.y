%expect 0
%expect-rr 1
%%
s : a | b ;
a : 'x' ;
b : 'x' ;
