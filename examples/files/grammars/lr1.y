/* LR(1), but not LALR(1): after 'e', what comes next says which of two rules it is, but only
   together with what came first. */
%%

order
    : 'a' first 'c'
    | 'a' second 'd'
    | 'b' second 'c'
    | 'b' first 'd'
    ;

first
    : 'e'
    ;

second
    : 'e'
    ;
