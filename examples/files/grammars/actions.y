%{
/* A desk calculator with names. The code is passed over. */
#include <stdio.h>
#define CLOSE '}'
%}

%union {
    double value;
    char *name;
}

%token <value> NUMBER "number"
%token <name>  NAME   "name"
%token LET "let" ASSIGN ":=" QUIT 0 "end of file"
%type  <value> sum product factor
%left '+' '-'
%start lines

%%

lines
    : %empty
    | lines line '\n'           { printf("> "); }
    | lines error '\n'          { yyerrok; }
    ;

line
    : sum                       { printf("%g\n", $1); /* } */ }
    | "let" "name" { define($2); } ":=" sum
      {
          if ($5 != 0) { set($2, $5); }
      }
    ;

sum
    : product
    | sum '+' product           { $$ = $1 + $3; }
    | sum '-' product           { $$ = $1 - $3; }
    ;

product
    : factor
    | product { check($1); } '*' { check($1); } factor[right]  { $$ = $1 * $right; }
    ;

factor
    : NUMBER
    | NAME                      { $$ = value_of($1); }
    | '(' sum ')'               { $$ = $2; }
    | '-' factor                { $$ = -$2; }
    ;

%%

int main(void) { return yyparse(); }
