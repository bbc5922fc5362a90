/* Sums, with rules that no text needs: a block never ends, and nothing leads to a list. */
%token NUMBER NAME
%left '+'

%%

sum
    : sum '+' sum
    | NUMBER
    | block
    ;

block
    : '{' block '}'
    | '{' sum block '}'
    ;

list
    : NAME
    | list ',' NAME
    ;
