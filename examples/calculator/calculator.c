// A calculator: reads a sum a line, and prints its value. Of a line that is wrong it prints the column, counted from 1,
// and what was expected there, and goes on with the next line. The status is 1 then.

#define PARSER_VALUE double
#include "tables.h"

#include <ctype.h>
#include <stdio.h>

// The column of the character that was read last.
static int column = 0;

// Returns the value of the left side of a rule from those of its right side. That of a whole line is printed.
static double reduce(int rule, double *values, void *data)
{
    (void)data;
    switch (rule) {
    case RULE_LINE_2: printf("%.10g\n", values[0]); return 0;
    case RULE_SUM_1: return values[0] + values[2];
    case RULE_SUM_2: return values[0] - values[2];
    case RULE_SUM_3: return values[0] * values[2];
    case RULE_SUM_4: return values[0] / values[2];
    case RULE_SUM_5: return -values[1];
    case RULE_SUM_6: return values[1];
    case RULE_SUM_7: return values[0];
    default: return 0;
    }
}

// Returns the next character, which isn't read yet.
static int peek(void)
{
    int character = getchar();
    return character == EOF ? EOF : ungetc(character, stdin);
}

// Reads the next character.
static int next(void)
{
    column++;
    return getchar();
}

// Reads digits, and those behind a point.
static double number(void)
{
    double value = 0, unit = 1;
    while (isdigit(peek()))
        value = 10 * value + (next() - '0');
    if (peek() == '.')
        for (next(); isdigit(peek()); value += (next() - '0') * unit)
            unit /= 10;
    return value;
}

// Reads a token and its value: 0 at the end of the line, which stays, and -1 for a character that is none.
static int token(double *value)
{
    if (peek() == '\n' || peek() == EOF)
        return 0;
    if (!isdigit(peek()))
        return parser_character(next());
    *value = number();
    return TOKEN_NUMBER;
}

// Prints what was expected in the place of a token, which a character begins.
static void complain(struct parser *parser, int start, int unexpected, int character)
{
    const char *before = "; expected";
    int other;
    printf("column %d: unexpected ", start);
    if (unexpected >= 0)
        printf("%s", unexpected ? parser_name(unexpected) : "end");
    else
        printf(isprint(character) ? "'%c'" : "byte %d", character);
    for (other = 0; other < PARSER_TERMINALS; other++)
        if (parser_takes(parser, other) > 0) {
            printf("%s %s", before, other ? parser_name(other) : "end");
            before = ",";
        }
    printf("\n");
}

// Computes a line. Returns whether it is right.
static int compute(struct parser *parser)
{
    enum parser_status status;
    int start, character, read;
    column = 0;
    do {
        double value = 0;
        while (peek() != '\n' && isspace(peek()))
            next();
        start = column + 1;
        character = peek();
        read = token(&value);
        status = parser_push(parser, read, value, reduce, NULL);
    } while (status == PARSER_MORE);
    if (status == PARSER_UNEXPECTED)
        complain(parser, start, read, character);
    if (status == PARSER_MEMORY)
        printf("column %d: out of memory\n", start);
    while (peek() != '\n' && peek() != EOF)
        next();
    next();
    return status == PARSER_ACCEPTED;
}

int main(void)
{
    struct parser parser;
    int failed = 0;
    parser_begin(&parser);
    while (peek() != EOF)
        if (!compute(&parser)) {
            failed = 1;
            parser_end(&parser);
        }
    parser_end(&parser);
    return failed;
}
