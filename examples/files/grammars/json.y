/* JSON texts, by RFC 8259. */
%token STRING NUMBER TRUE FALSE NULL

%%

text
    : value
    ;

value
    : object
    | array
    | STRING
    | NUMBER
    | TRUE
    | FALSE
    | NULL
    ;

object
    : '{' '}'
    | '{' members '}'
    ;

members
    : member
    | members ',' member
    ;

member
    : STRING ':' value
    ;

array
    : '[' ']'
    | '[' elements ']'
    ;

elements
    : value
    | elements ',' value
    ;
