%token END 0 "end" X EOL
%%
text  : lines END ;
lines : line | lines line ;
line  : words EOL | words "end" | END ;
words : X | words X ;
