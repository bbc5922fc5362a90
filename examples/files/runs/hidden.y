/* Precedence lets e come before Y again and again. */
%token Y X
%left Y
%left EMPTY
%%
s: e s X | Y ;
e: %empty %prec EMPTY ;
