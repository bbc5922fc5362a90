/* Each symbol derives the one below it twice: the empty text takes 128 rules. */
%%
s: a6 ;
a6: a5 a5 ;
a5: a4 a4 ;
a4: a3 a3 ;
a3: a2 a2 ;
a2: a1 a1 ;
a1: a0 a0 ;
a0: %empty ;
