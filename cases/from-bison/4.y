%token ID
%left <x> "&&"
%nonassoc '<'
%%
statement : "while" '(' cond ')' statement
          | ID '=' ID ';' { assign ($1, $3); }
          | ';'
cond : cond "&&" cond | ID '<' ID | ID ;
