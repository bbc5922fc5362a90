/* Names that C and Rust don't take as they are: words of their own, names that differ in case alone, marks, and texts
   that end a comment or begin an escape. */
%define api.token.prefix {TOK_}
%token if while IF If end-of-line two.words _ SELF
%token STAR "*/" OPEN "/*" QUESTION "??/" BACK "a \\ b" QUOTE "\"" ACCENT "é" TAB '\t' PERCENT '%' "percent"
%token BELL '\007'

%%

self
    : %empty
    | self if Self end-of-line
    | self while "{}" "*/" two.words
    | self IF "/*" If '\''
    | self error '\\'
    ;

Self
    : _ "??/" "a \\ b" se-lf
    | SELF "\"" "é" '"' { act(); } '\t' "percent"
    | '\007' '?' '\n' '\377'
    ;

se-lf
    : se.lf
    | se-lf se.lf
    ;

se.lf
    : QUOTE
    | se.lf '/'
    ;
