/* t derives itself, and that rule comes first. */
%token A
%start s
%%
t: t | A ;
s: t ;
