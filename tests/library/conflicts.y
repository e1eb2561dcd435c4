%%
s : e | a | b ;
e : e '+' e | e '*' e | 'n' ;
a : 'x' ;
b : 'x' ;
