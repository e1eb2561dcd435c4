%token END 0 "end"
%define lr.type ielr
%precedence '<' NOT
%left '+'
%precedence SIGN
%%
e : e '<' e | e '+' e | '-' e %prec SIGN | 'n' "end" ;
