/* Statements. An else may belong to either of two ifs: one conflict, which is expected. */
%token IF ELSE WHILE NAME
%expect 1

%%

statements
    : %empty
    | statements statement
    ;

statement
    : ';'
    | NAME '=' NAME ';'
    | '{' statements '}'
    | WHILE '(' NAME ')' statement
    | IF '(' NAME ')' statement
    | IF '(' NAME ')' statement ELSE statement
    ;
