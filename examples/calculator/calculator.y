/* A line of arithmetic. The code that computes it is in calculator.c. */
%token NUMBER
%left '+' '-'
%left '*' '/'
%precedence NEGATIVE

%%

line
    : %empty
    | sum
    ;

sum
    : sum '+' sum
    | sum '-' sum
    | sum '*' sum
    | sum '/' sum
    | '-' sum %prec NEGATIVE
    | '(' sum ')'
    | NUMBER
    ;
