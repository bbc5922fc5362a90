// The calls of conthiral.h on tables of parsers beside the table of a textbook, and on texts, tokens and arrays that
// are refused: test_tables [SEED [ROUNDS]]. Compiled with REFUSES and linked with --wrap=malloc,--wrap=realloc, it
// refuses each request for memory in turn.

#include "conthiral.h"

#include <stdio.h>
#include <stdlib.h>
#include <string.h>
#include <time.h>

enum { STATES = 64, ENTRIES = 512, RULES = 16, SYMBOLS = 32, BYTES = 256, ROOM = 1024, SIZES = 9 };

// The nine sizes that a call writes.
enum { TERMINALS, NONTERMINALS, STATE_COUNT, ENTRY_COUNT, RULE_COUNT, RIGHT_COUNT, BYTE_COUNT, BASE, EACH };

static const size_t MARK = 0x5bd1e995;

struct table {
    size_t sizes[SIZES], terminals;
    size_t offsets[STATES + 1], symbols[ENTRIES], actions[ENTRIES], left[RULES], lengths[RULES], right[SYMBOLS];
    size_t starts[SYMBOLS + 1];
    char names[BYTES];
};

// What a parser wrote.
struct parsed {
    size_t reductions[ROOM], count, at;
};

static uint64_t seed;
static long tried;
static int wrong;

static uint64_t random_word(void) {
    seed ^= seed << 13;
    seed ^= seed >> 7;
    seed ^= seed << 17;
    return seed;
}

static size_t below(size_t n) { return n ? random_word() % n : 0; }

static void is(bool right, const char *call, const char *what) {
    tried++;
    if (!right && wrong++ < 20) {
        printf("%s: %s\n", call, what);
    }
}

static bool same(const void *one, const void *other, size_t bytes) { return !memcmp(one, other, bytes); }

// Each request for memory is refused in turn: REFUSE_EACH makes a call again and again, until it asks for no more. A call
// either tells that and writes nothing, or it asks for less and writes what it should.
#ifdef REFUSES
static long left_over = -1;
static conthiral_status told;

void *__real_malloc(size_t size);
void *__real_realloc(void *old, size_t size);

static bool refuses(void) { return left_over >= 0 && left_over-- == 0; }

void *__wrap_malloc(size_t size) { return refuses() ? NULL : __real_malloc(size); }

void *__wrap_realloc(void *old, size_t size) { return refuses() ? NULL : __real_realloc(old, size); }

// Whether a request of a call was refused.
static bool was_refused(conthiral_status status, const char *call) {
    bool refused = left_over < 0;
    left_over = -1;
    told = status;
    is(status == CONTHIRAL_OK || (refused && status == CONTHIRAL_MEMORY), call, "another status for memory");
    return refused;
}

#define REFUSE_EACH(made, now, was, wanted, call)                                                                      \
    for (long n = 0; (now) = (was), left_over = n, was_refused(made, call); n++) {                                     \
        is(same(&(now), told == CONTHIRAL_OK ? &(wanted) : &(was), sizeof(now)), call, "a refused call writes");       \
    }                                                                                                                  \
    (now) = (wanted);
#else
#define REFUSE_EACH(made, now, was, wanted, call) (void)(wanted);
#endif

// ---- calls

static conthiral_status sizes_of(const char *text, struct table *t, size_t *line, size_t *column) {
    return conthiral_table_sizes(text, strlen(text), t->sizes, SIZES, line, column);
}

static conthiral_status table_of(const char *text, struct table *t, const size_t *sizes) {
    return conthiral_table(text, strlen(text), t->offsets, sizes[STATE_COUNT] + 1, t->symbols, sizes[ENTRY_COUNT],
                           t->actions, sizes[ENTRY_COUNT], t->left, sizes[RULE_COUNT], t->lengths, sizes[RULE_COUNT],
                           t->right, sizes[RIGHT_COUNT], &t->terminals);
}

static conthiral_status names_of(const char *text, struct table *t, const size_t *sizes) {
    return conthiral_table_names(text, strlen(text), t->starts, sizes[TERMINALS] + sizes[NONTERMINALS] + 1, t->names,
                                 sizes[BYTE_COUNT]);
}

static conthiral_status parse(const struct table *t, const size_t *tokens, size_t count, size_t room, struct parsed *p) {
    return conthiral_parse(t->terminals, t->offsets, t->sizes[STATE_COUNT] + 1, t->symbols, t->sizes[ENTRY_COUNT],
                           t->actions, t->sizes[ENTRY_COUNT], t->left, t->sizes[RULE_COUNT], t->lengths,
                           t->sizes[RULE_COUNT], tokens, count, p->reductions, room, &p->count, &p->at);
}

// How many reductions suffice for a sentence of so many tokens, if there is room for them.
static size_t enough(const struct table *t, size_t count) {
    size_t most = t->sizes[BASE] + t->sizes[EACH] * count;
    return most < ROOM ? most : ROOM;
}

static void mark(void *place, size_t bytes) {
    for (size_t k = 0; k < bytes / sizeof MARK; k++) {
        memcpy((char *)place + k * sizeof MARK, &MARK, sizeof MARK);
    }
}

// Makes a table from a text that is right.
static void make(const char *text, struct table *t) {
    static struct table was, wanted;
    size_t line = MARK, column = MARK;
    mark(t, sizeof *t);
    was = *t;
    is(sizes_of(text, t, &line, &column) == CONTHIRAL_OK, "table_sizes", "another status");
    wanted = *t;
    REFUSE_EACH(sizes_of(text, t, &line, &column), *t, was, wanted, "table_sizes")
    is(line == MARK && column == MARK, "table_sizes", "a place is written");
    is(t->sizes[BASE] + t->sizes[EACH] < SIZE_MAX, "table_sizes", "no number suffices");
    was = *t;
    for (int array = STATE_COUNT; array < BYTE_COUNT; array++) {
        for (int more = -1; more < 2; more += 2) {
            size_t other[SIZES];
            memcpy(other, t->sizes, sizeof other);
            other[array] += more;
            is(table_of(text, t, other) == CONTHIRAL_LENGTH, "table", "another length isn't refused");
        }
    }
    is(same(t, &was, sizeof was), "table", "a refused call writes");
    is(table_of(text, t, t->sizes) == CONTHIRAL_OK, "table", "another status");
    is(t->terminals == t->sizes[TERMINALS], "table", "other terminals");
    wanted = *t;
    REFUSE_EACH(table_of(text, t, t->sizes), *t, was, wanted, "table")
    was = *t;
    is(names_of(text, t, t->sizes) == CONTHIRAL_OK, "table_names", "another status");
    wanted = *t;
    REFUSE_EACH(names_of(text, t, t->sizes), *t, was, wanted, "table_names")
}

// The symbol with a name.
static size_t symbol(const struct table *t, const char *name) {
    for (size_t k = 0; k < t->sizes[TERMINALS] + t->sizes[NONTERMINALS]; k++) {
        size_t bytes = t->starts[k + 1] - t->starts[k];
        if (bytes == strlen(name) && same(t->names + t->starts[k], name, bytes)) {
            return k;
        }
    }
    is(false, "table_names", name);
    return 0;
}

// What is done in a state at a symbol, or MARK.
static size_t entry(const struct table *t, size_t state, size_t own) {
    for (size_t k = t->offsets[state]; k < t->offsets[state + 1]; k++) {
        if (t->symbols[k] == own) {
            return t->actions[k];
        }
    }
    return MARK;
}

// ---- the expressions of Aho, Lam, Sethi and Ullman, Compilers, 2nd edition, figure 4.37

static const char EXPRESSIONS[] = "%token id\n%%\nE: E '+' T | T;\nT: T '*' F | F;\nF: '(' E ')' | id;\n";
static const char *const COLUMNS[] = {"id", "'+'", "'*'", "'('", "')'", "$end", "E", "T", "F"};
static const char *const BOOK[12][9] = {
    {"s5", "", "", "s4", "", "", "s1", "s2", "s3"},     {"", "s6", "", "", "", "acc", "", "", ""},
    {"", "r2", "s7", "", "r2", "r2", "", "", ""},       {"", "r4", "r4", "", "r4", "r4", "", "", ""},
    {"s5", "", "", "s4", "", "", "s8", "s2", "s3"},     {"", "r6", "r6", "", "r6", "r6", "", "", ""},
    {"s5", "", "", "s4", "", "", "", "s9", "s3"},       {"s5", "", "", "s4", "", "", "", "", "s10"},
    {"", "s6", "", "", "s11", "", "", "", ""},          {"", "r1", "s7", "", "r1", "r1", "", "", ""},
    {"", "r3", "r3", "", "r3", "r3", "", "", ""},       {"", "r5", "r5", "", "r5", "r5", "", "", ""},
};

// Whether a state has what the book says of it. `ours` has its number, and gets those of the states that it leads to.
static bool is_as_in_the_book(const struct table *t, size_t state, size_t *ours) {
    bool right = true;
    for (size_t k = 0; k < 9; k++) {
        const char *says = BOOK[state][k];
        size_t found = entry(t, ours[state], symbol(t, COLUMNS[k]));
        size_t number = *says ? strtoul(says + 1, NULL, 10) : 0;
        if (*says == 's') {
            right &= found % 4 == 0 && (ours[number] == MARK || ours[number] == found / 4);
            ours[number] = found / 4;
        } else if (*says == 'r') {
            right &= found == 4 * number + 1;
        } else if (*says == 'a') {
            right &= found % 4 == 2 && found / 4 < t->sizes[STATE_COUNT];
        } else {
            right &= found == MARK;
        }
    }
    return right;
}

static void expressions(void) {
    static struct table t;
    static const size_t sizes[] = {7, 4, 13, 45, 7, 14, 33}, lengths[] = {2, 3, 1, 3, 1, 3, 1};
    static const char *const lefts[] = {"$accept", "E", "E", "T", "T", "F", "F"};
    static const char *const right[] = {"E", "$end", "E", "'+'", "T", "T", "T", "'*'", "F", "F", "'('", "E", "')'", "id"};
    size_t ours[12] = {0};
    mark(ours + 1, sizeof ours - sizeof *ours);
    make(EXPRESSIONS, &t);
    for (int k = 0; k < BASE; k++) {
        is(t.sizes[k] == sizes[k], "table_sizes", "another size");
    }
    // each state of the book but the first is one to which a state before it leads
    for (size_t state = 0; state < 12; state++) {
        is(ours[state] < t.sizes[STATE_COUNT] && is_as_in_the_book(&t, state, ours), "table", "not the book's table");
    }
    for (size_t one = 0; one < 12; one++) {
        for (size_t other = 0; other < one; other++) {
            is(ours[one] != ours[other], "table", "one state for two of the book's");
        }
    }
    for (size_t rule = 0; rule < 7; rule++) {
        is(t.left[rule] == symbol(&t, lefts[rule]) && t.lengths[rule] == lengths[rule], "table", "another rule");
    }
    for (size_t k = 0; k < 14; k++) {
        is(t.right[k] == symbol(&t, right[k]), "table", "another symbol of a right side");
    }
    is(t.offsets[0] == 0 && t.offsets[t.sizes[STATE_COUNT]] == t.sizes[ENTRY_COUNT], "table", "other offsets");
}

// ---- parsing

// The tokens of a text of letters: i is id, and others are themselves.
static size_t tokens_of(const struct table *t, const char *text, size_t *tokens) {
    size_t count = 0;
    for (; text[count]; count++) {
        char name[] = {'\'', text[count], '\'', 0};
        tokens[count] = text[count] == 'x' ? 1000 : symbol(t, text[count] == 'i' ? "id" : name);
    }
    return count;
}

static void accepts(const struct table *t, const char *text, const char *rules) {
    static struct parsed made, was, wanted;
    size_t tokens[ROOM], count = tokens_of(t, text, tokens), most = strlen(rules);
    mark(&made, sizeof made);
    was = made;
    is(parse(t, tokens, count, most - 1, &made) == CONTHIRAL_LENGTH, "parse", "there is room for too many");
    is(same(&made, &was, sizeof was), "parse", "a refused call writes");
    is(parse(t, tokens, count, most, &made) == CONTHIRAL_OK, "parse", text);
    is(made.count == most && made.at == MARK, "parse", "another count");
    is(most <= enough(t, count), "table_sizes", text);
    for (size_t k = 0; k < ROOM; k++) {
        is(made.reductions[k] == (k < most ? (size_t)(rules[k] - '0') : was.reductions[k]), "parse", "another rule");
    }
    wanted = made;
    REFUSE_EACH(parse(t, tokens, count, most, &made), made, was, wanted, "parse")
}

static void refuses_token(const struct table *t, const char *text, size_t at) {
    static struct parsed made, was;
    size_t tokens[ROOM], count = tokens_of(t, text, tokens);
    mark(&made, sizeof made);
    was = made;
    is(parse(t, tokens, count, ROOM, &made) == CONTHIRAL_TOKEN, "parse", text);
    is(made.at == at, "parse", "another index");
    made.at = was.at;
    is(same(&made, &was, sizeof was), "parse", "a refused call writes");
}

static void parses(void) {
    static struct table t;
    make(EXPRESSIONS, &t);
    // the moves of figure 4.38
    accepts(&t, "i*i+i", "64632641");
    accepts(&t, "i", "642");
    accepts(&t, "(i+i)*i", "64264154632");
    refuses_token(&t, "", 0);
    refuses_token(&t, "i+", 2);
    refuses_token(&t, "(i", 2);
    refuses_token(&t, "i)", 1);
    refuses_token(&t, "ii", 1);
    refuses_token(&t, "i+x", 2);
    refuses_token(&t, "x", 0);
}

// ---- trees, by the right sides of rules

// Writes a random expression of at most so many tokens, and returns how many.
static size_t expression(const struct table *t, size_t *tokens, size_t most) {
    size_t count = 0, open = 0;
    for (bool more = true; more;) {
        for (; below(3) == 0 && count + open + 3 < most; open++) {
            tokens[count++] = symbol(t, "'('");
        }
        tokens[count++] = symbol(t, "id");
        for (; open > 0 && below(2); open--) {
            tokens[count++] = symbol(t, "')'");
        }
        more = below(8) > 0 && count + open + 3 < most;
        if (more) {
            tokens[count++] = symbol(t, below(2) ? "'+'" : "'*'");
        }
    }
    for (; open > 0; open--) {
        tokens[count++] = symbol(t, "')'");
    }
    return count;
}

// Whether the reductions, read backwards, derive the tokens from what rule 0 has before the end: each puts a right side
// where the last nonterminal is.
static bool derives(const struct table *t, const struct parsed *made, const size_t *tokens, size_t count) {
    size_t form[ROOM + 4] = {t->right[0]}, length = 1;
    for (size_t k = made->count; k-- > 0;) {
        size_t rule = made->reductions[k], from = 0, at = length;
        for (size_t before = 0; before < rule; before++) {
            from += t->lengths[before];
        }
        while (at > 0 && form[at - 1] < t->terminals) {
            at--;
        }
        if (at == 0 || form[at - 1] != t->left[rule] || length + t->lengths[rule] > ROOM) {
            return false;
        }
        memmove(form + at - 1 + t->lengths[rule], form + at, (length - at) * sizeof *form);
        memcpy(form + at - 1, t->right + from, t->lengths[rule] * sizeof *form);
        length += t->lengths[rule] - 1;
    }
    return length == count && same(form, tokens, count * sizeof *form);
}

static void trees(long rounds) {
    static struct table t;
    static struct parsed made;
    size_t tokens[ROOM];
    make(EXPRESSIONS, &t);
    for (long round = 0; round < rounds; round++) {
        size_t count = expression(&t, tokens, 1 + below(100));
        is(parse(&t, tokens, count, enough(&t, count), &made) == CONTHIRAL_OK, "parse", "too few reductions suffice");
        is(derives(&t, &made, tokens, count), "parse", "the reductions derive other tokens");
    }
}

// Symbols that become empty, rules that become themselves, and a parser that makes reductions without end.
static void empties(void) {
    static struct table t;
    static struct parsed made;
    make("%%\ns: a b c | s 'z';\na: ;\nb: a a;\nc: 'y' | b b;\n", &t);
    accepts(&t, "", "333433433461");
    accepts(&t, "z", "3334334334612");
    accepts(&t, "zzz", "333433433461222");
    accepts(&t, "y", "333451");
    accepts(&t, "yz", "3334512");
    make("%% a: a | 'z';", &t);
    accepts(&t, "z", "2");
    refuses_token(&t, "", 0);
    make("%start s\n%%\ne: ;\ns: e s | ;\n", &t);
    is(parse(&t, NULL, 0, enough(&t, 0), &made) == CONTHIRAL_LENGTH, "parse", "reductions without end");
    is(parse(&t, NULL, 0, ROOM, &made) == CONTHIRAL_LENGTH, "parse", "reductions without end");
}

// ---- texts that are refused, each with its line and its column

static void refuses_text(const char *text, size_t at_line, size_t at_column) {
    static struct table t, was;
    size_t line = MARK, column = MARK, none[SIZES] = {0};
    mark(&t, sizeof t);
    was = t;
    is(sizes_of(text, &t, &line, &column) == CONTHIRAL_TEXT, "table_sizes", text);
    is(line == at_line && column == at_column, "table_sizes", "another place");
    is(table_of(text, &t, none) == CONTHIRAL_TEXT, "table", text);
    is(names_of(text, &t, none) == CONTHIRAL_TEXT, "table_names", text);
    is(same(&t, &was, sizeof was), "table", "a refused call writes");
    line = column = MARK;
    is(conthiral_table_sizes(text, strlen(text), t.sizes, SIZES - 1, &line, &column) == CONTHIRAL_LENGTH, "table_sizes",
       "eight sizes");
    is(line == MARK && column == MARK, "table_sizes", "a place is written");
}

static void texts(void) {
    refuses_text("", 1, 1);
    refuses_text("%%", 1, 3);
    refuses_text("%token A\n%% s: A | b ;", 2, 11);
    refuses_text("%% s: 'a", 1, 7);
    refuses_text("%%\ns: s 'a';\n", 2, 1);
}

// ---- arrays that are no table

// Parses some tokens by a table with some numbers changed, or by any numbers.
static void spoils(const struct table *right) {
    static struct table t;
    static struct parsed made, was;
    size_t tokens[ROOM], count = below(8);
    t = *right;
    size_t *const arrays[] = {t.offsets, t.symbols, t.actions, t.left, t.lengths};
    const size_t counts[] = {t.sizes[STATE_COUNT] + 1, t.sizes[ENTRY_COUNT], t.sizes[ENTRY_COUNT], t.sizes[RULE_COUNT],
                             t.sizes[RULE_COUNT]};
    for (size_t changes = 1 + below(4); changes > 0; changes--) {
        size_t array = below(5);
        arrays[array][below(counts[array])] = below(2) ? below(64) : (size_t)random_word();
    }
    for (size_t k = 0; k < count; k++) {
        tokens[k] = below(4) ? 2 + below(t.terminals) : (size_t)random_word();
    }
    mark(&made, sizeof made);
    was = made;
    conthiral_status status = parse(&t, tokens, count, ROOM, &made);
    is(status != CONTHIRAL_NOT_CANONICAL && status != CONTHIRAL_TEXT && status <= CONTHIRAL_TOKEN, "parse", "a status");
    if (status == CONTHIRAL_OK) {
        is(made.count <= ROOM && made.at == MARK, "parse", "a count");
        return;
    }
    is(status == CONTHIRAL_TOKEN ? made.at <= count : made.at == MARK, "parse", "an index");
    made.at = was.at;
    is(same(&made, &was, sizeof was), "parse", "a refused call writes");
}

static void no_tables(long rounds) {
    static struct table t;
    static struct parsed made;
    make(EXPRESSIONS, &t);
    size_t i = symbol(&t, "id"), zero = 0;
    is(conthiral_parse(0, NULL, 0, NULL, 0, NULL, 0, NULL, 0, NULL, 0, NULL, 0, NULL, 0, &zero, &made.at) == CONTHIRAL_TOKEN,
       "parse", "no arrays");
    // the rules are too few for the first reduction, by rule 6
    t.sizes[RULE_COUNT] = 6;
    size_t tokens[] = {i, i};
    is(parse(&t, tokens, 1, ROOM, &made) == CONTHIRAL_RANGE, "parse", "a rule that isn't there");
    t.sizes[RULE_COUNT] = 7;
    for (long round = 0; round < rounds; round++) {
        spoils(&t);
    }
}

int main(int count, char **arguments) {
    seed = count > 1 ? strtoull(arguments[1], NULL, 10) : (uint64_t)time(NULL) * 2654435761u;
    long rounds = count > 2 ? strtol(arguments[2], NULL, 10) : 2000;
    printf("seed %llu\n", (unsigned long long)seed);
    seed |= (uint64_t)1 << 63;
    expressions();
    parses();
    trees(rounds);
    empties();
    texts();
    no_tables(rounds);
    printf("%ld passed, %d failed\n", tried - wrong, wrong);
    return wrong != 0;
}
