%token A B
%%
s : A t ;
%type <x> t u
t : u | t u ;
%destructor { f("|"); } <x>
u : B
%printer { } B
  | A ;
