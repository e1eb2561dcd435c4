%{ /* %} */ %}
%term HASH, X, WORD
%token CALL BOX SIGNS UNIT PART OTHER
%binary error X
%%
all : one | all one ;
one : HASH X | WORD | CALL '(' | BOX | SIGNS | UNIT WORD | PART OTHER | OTHER ;
%{ int between; %}
