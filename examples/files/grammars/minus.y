/* Differences: the operator groups to the left. */
%token NUMBER
%left '-'

%%

sum
    : sum '-' sum
    | NUMBER
    ;
