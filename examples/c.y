/*
A subset of C (ISO C99, 6.5 to 6.9) over the words of c.l: functions, declarations, statements and expressions. A type
has words of its own, or is a struct by its name: without typedef a name is never a type, and a scanner needs no list.
*/
%token NAME INTEGER REAL TEXT
%token VOID CHAR SHORT INT LONG FLOAT DOUBLE SIGNED UNSIGNED STRUCT CONST STATIC EXTERN
%token IF ELSE WHILE DO FOR RETURN BREAK CONTINUE SIZEOF
%token ASSIGN ARROW MORE LESS

/* Words of c.l that the subset does without: the scanner returns them, so they have to be tokens. */
%token AUTO CASE DEFAULT ENUM GOTO INLINE REGISTER RESTRICT SWITCH TYPEDEF UNION VOLATILE ELLIPSIS

/* Operators between two operands, from the loosest to the tightest. */
%left OR
%left AND
%left '|'
%left '^'
%left '&'
%left EQUAL UNEQUAL
%left '<' '>' ATMOST ATLEAST
%left LEFT RIGHT
%left '+' '-'
%left '*' '/' '%'

%start file
%%
file
    : part
    | file part                                     { $$ = File($1,$2); }
    ;
part
    : type declarator block                         { $$ = Function($1,$2,$3); }
    | declaration
    ;

/* Declarations. */
declaration
    : type ';'                                      { $$ = Declare($1); }
    | type variables ';'                            { $$ = Declare($1,$2); }
    ;
variables
    : variable
    | variables ',' variable                        { $$ = Variables($1,$3); }
    ;
variable
    : declarator
    | declarator '=' assignment                     { $$ = Set($1,$3); }
    ;
type
    : specifier
    | type specifier                                { $$ = Type($1,$2); }
    ;
specifier
    : VOID | CHAR | SHORT | INT | LONG | FLOAT | DOUBLE | SIGNED | UNSIGNED
    | CONST | STATIC | EXTERN
    | STRUCT NAME                                   { $$ = Struct($2); }
    | STRUCT NAME '{' fields '}'                    { $$ = Struct($2,$4); }
    ;
fields
    : field
    | fields field                                  { $$ = Fields($1,$2); }
    ;
field
    : type declarator ';'                           { $$ = Field($1,$2); }
    ;
declarator
    : '*' declarator                                { $$ = Pointer($2); }
    | direct
    ;
direct
    : NAME
    | direct '[' assignment ']'                     { $$ = ArrayOf($1,$3); }
    | direct '(' ')'                                { $$ = Takes($1); }
    | direct '(' parameters ')'                     { $$ = Takes($1,$3); }
    ;
parameters
    : parameter
    | parameters ',' parameter                      { $$ = Parameters($1,$3); }
    ;
parameter
    : type
    | type declarator                               { $$ = Parameter($1,$2); }
    ;

/* Statements. An else belongs to the nearest if: that is C's one conflict, and what a shift settles. */
block
    : '{' '}'                                       { $$ = Block(); }
    | '{' lines '}'                                 { $$ = Block($2); }
    ;
lines
    : line
    | lines line                                    { $$ = Lines($1,$2); }
    ;
line
    : declaration
    | statement
    ;
statement
    : block
    | maybe ';'                                     { $$ = Do($1); }
    | IF '(' expression ')' statement               { $$ = If($3,$5); }
    | IF '(' expression ')' statement ELSE statement        { $$ = IfElse($3,$5,$7); }
    | WHILE '(' expression ')' statement            { $$ = While($3,$5); }
    | DO statement WHILE '(' expression ')' ';'     { $$ = DoWhile($2,$5); }
    | FOR '(' maybe ';' maybe ';' maybe ')' statement       { $$ = For($3,$5,$7,$9); }
    | FOR '(' declaration maybe ';' maybe ')' statement     { $$ = For($3,$4,$6,$8); }
    | RETURN maybe ';'                              { $$ = Return($2); }
    | BREAK ';'                                     { $$ = Break(); }
    | CONTINUE ';'                                  { $$ = Continue(); }
    ;
maybe
    :                                               /* nothing */
    | expression
    ;

/* Expressions. */
expression
    : assignment
    | expression ',' assignment                     { $$ = Comma($1,$3); }
    ;
assignment
    : choice
    | prefix '=' assignment                         { $$ = Set($1,$3); }
    | prefix ASSIGN assignment                      { $$ = Change($2,$1,$3); }
    ;
choice
    : binary
    | binary '?' expression ':' choice              { $$ = Choose($1,$3,$5); }
    ;
binary
    : operand
    | binary OR binary                              { $$ = Or($1,$3); }
    | binary AND binary                             { $$ = And($1,$3); }
    | binary '|' binary                             { $$ = BitOr($1,$3); }
    | binary '^' binary                             { $$ = BitXor($1,$3); }
    | binary '&' binary                             { $$ = BitAnd($1,$3); }
    | binary EQUAL binary                           { $$ = Equal($1,$3); }
    | binary UNEQUAL binary                         { $$ = Unequal($1,$3); }
    | binary '<' binary                             { $$ = Below($1,$3); }
    | binary '>' binary                             { $$ = Above($1,$3); }
    | binary ATMOST binary                          { $$ = AtMost($1,$3); }
    | binary ATLEAST binary                         { $$ = AtLeast($1,$3); }
    | binary LEFT binary                            { $$ = ShiftLeft($1,$3); }
    | binary RIGHT binary                           { $$ = ShiftRight($1,$3); }
    | binary '+' binary                             { $$ = Add($1,$3); }
    | binary '-' binary                             { $$ = Subtract($1,$3); }
    | binary '*' binary                             { $$ = Multiply($1,$3); }
    | binary '/' binary                             { $$ = Divide($1,$3); }
    | binary '%' binary                             { $$ = Rest($1,$3); }
    ;
operand
    : prefix
    | '(' cast ')' operand                          { $$ = Cast($2,$4); }
    ;
cast
    : type
    | cast '*'                                      { $$ = Pointer($1); }
    ;
prefix
    : postfix
    | step prefix                                   { $$ = Prefix($1,$2); }
    | sign operand                                  { $$ = Prefix($1,$2); }
    | SIZEOF prefix                                 { $$ = SizeOf($2); }
    | SIZEOF '(' cast ')'                           { $$ = SizeOf($3); }
    ;
step
    : MORE | LESS
    ;
sign
    : '&' | '*' | '+' | '-' | '~' | '!'
    ;
postfix
    : primary
    | postfix '[' expression ']'                    { $$ = Index($1,$3); }
    | postfix '(' ')'                               { $$ = Call($1); }
    | postfix '(' arguments ')'                     { $$ = Call($1,$3); }
    | postfix '.' NAME                              { $$ = Member($1,$3); }
    | postfix ARROW NAME                            { $$ = Member($1,$2,$3); }
    | postfix step                                  { $$ = Postfix($1,$2); }
    ;
arguments
    : assignment
    | arguments ',' assignment                      { $$ = Arguments($1,$3); }
    ;
primary
    : NAME
    | INTEGER
    | REAL
    | TEXT
    | '(' expression ')'                            { $$ = $2; }
    ;
