%skeleton "lalr1.cc"
%require "3.2"
%language "c++"
%code requires { class driver; }
%param { driver& drv }
%locations
%token END 0 "end of file"
%token <std::string> WORD "word"
%token IF "if" EQ "=="
%nterm <int> unit
%printer { yyo << $$; } <*>;
%expect 0
%%
%start unit;
unit: list END { drv.result = 1; };
list: list one | one ;
one: "if" "word" "==" "word" { $$ = std::make_pair($2, $4); }
   | "word" ;
