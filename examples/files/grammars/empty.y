/* Declarations in which nearly all may be left out. The rules of `size` and `width` go in a circle, so
   the grammar is ambiguous. */
%token NAME NUMBER CONST STATIC

%%

declaration
    : storage constness NAME size
    ;

storage
    : %empty
    | STATIC
    ;

constness
    : %empty
    | CONST
    ;

size
    : width
    | '[' NUMBER ']'
    ;

width
    : %empty
    | size
    ;
