/* Sums and products of numbers, as on a pocket calculator. */
%token NUMBER
%left '+' '-'
%left '*' '/'
%precedence NEGATIVE

%%

line
    : sum '\n'
    ;

sum
    : sum '+' sum
    | sum '-' sum
    | sum '*' sum
    | sum '/' sum
    | '-' sum %prec NEGATIVE
    | '(' sum ')'
    | NUMBER
    ;
