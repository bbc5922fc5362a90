// Each call of conthiral.h beside plain loops over arrays of bool, on random bits: test [SEED [ROUNDS]]. The seed is
// printed, and each call that answers otherwise. Wrong words, wrong counts and wrong indices must give their status,
// and leave every array and every result.

#include "conthiral.h"

#include <stdio.h>
#include <stdlib.h>
#include <string.h>
#include <time.h>

enum { MOST = 450, WORDS = MOST / 64 + 1, GUARD = 3, BYTES = MOST / 8 + 1 };

static const uint64_t MARK = 0x5bd1e995a5a5c3c3;

// An array of words between guards, and the bits that it holds.
struct array {
    uint64_t room[GUARD + WORDS + 1 + GUARD];
    size_t count;
    size_t bits;
    bool list[MOST];
};

// What a call takes, and what it writes.
struct state {
    struct array own, first, second;
    size_t a, b, c;
    bool value;
    bool flag;
    size_t number;
    // An array of indices with room for some, and one of bytes.
    size_t numbers[WORDS + 1];
    size_t room;
    uint8_t bytes[BYTES + 1];
    size_t byte_count;
};

static uint64_t seed;

static uint64_t random_word(void) {
    seed ^= seed << 13;
    seed ^= seed >> 7;
    seed ^= seed << 17;
    return seed;
}

static size_t below(size_t n) { return n ? random_word() % n : 0; }

// The words of an array: no pointer at all if there are none.
static uint64_t *words(struct array *array) { return array->count ? array->room + GUARD : NULL; }

static size_t need(size_t bits) { return bits / 64 + (bits % 64 != 0); }

// Stores the list of an array.
static void pack(struct array *array) {
    array->count = need(array->bits);
    for (size_t k = 0; k < sizeof array->room / sizeof *array->room; k++) {
        array->room[k] = MARK + k;
    }
    for (size_t k = 0; k < array->count; k++) {
        array->room[GUARD + k] = 0;
    }
    for (size_t i = 0; i < array->bits; i++) {
        array->room[GUARD + i / 64] |= (uint64_t)array->list[i] << i % 64;
    }
}

// Makes an array of random bits: few are true, or most, or runs of them.
static void draw(struct array *array, size_t bits) {
    size_t often = below(5), run = 1 + below(70);
    bool value = false;
    array->bits = bits;
    for (size_t i = 0; i < MOST; i++) {
        if (often == 4) {
            value = below(run) ? value : !value;
        } else {
            value = often == 0 ? !below(40) : often == 1 ? below(40) : below(2);
        }
        array->list[i] = i < bits && value;
    }
    pack(array);
}

static bool fits(size_t at, size_t count, size_t bits) { return count <= bits && at <= bits - count; }

// Takes bits out of a list, so that they can be written over others that they overlap.
static void copied(bool *own, size_t at, const bool *other, size_t start, size_t count) {
    bool taken[MOST];
    memcpy(taken, other + start, count);
    memcpy(own + at, taken, count);
}

// ---- each call, and what it does to lists: a status, new lists, a flag and a number

#define CALL(name) static conthiral_status run_##name(struct state *s)
#define LISTS(name) static conthiral_status list_##name(struct state *s)
#define OWN words(&s->own), s->own.count
#define FIRST words(&s->first), s->first.count
#define SECOND words(&s->second), s->second.count
#define BITS s->own.bits
#define EACH(i) for (size_t i = 0; i < BITS; i++)

CALL(check) { return conthiral_check(OWN, BITS); }
LISTS(check) { return s ? CONTHIRAL_OK : CONTHIRAL_RANGE; }

CALL(fill) { return conthiral_fill(OWN, BITS, s->value); }
LISTS(fill) {
    EACH(i) s->own.list[i] = s->value;
    return CONTHIRAL_OK;
}

CALL(negate) { return conthiral_negate(OWN, BITS); }
LISTS(negate) {
    EACH(i) s->own.list[i] = !s->own.list[i];
    return CONTHIRAL_OK;
}

CALL(get) { return conthiral_get(OWN, BITS, s->a, &s->flag); }
LISTS(get) {
    if (s->a >= BITS) {
        return CONTHIRAL_RANGE;
    }
    s->flag = s->own.list[s->a];
    return CONTHIRAL_OK;
}

CALL(set) { return conthiral_set(OWN, BITS, s->a, s->value, &s->flag); }
LISTS(set) {
    if (s->a >= BITS) {
        return CONTHIRAL_RANGE;
    }
    s->flag = s->own.list[s->a] != s->value;
    s->own.list[s->a] = s->value;
    return CONTHIRAL_OK;
}

CALL(flip) { return conthiral_flip(OWN, BITS, s->a, &s->flag); }
LISTS(flip) {
    if (s->a >= BITS) {
        return CONTHIRAL_RANGE;
    }
    s->flag = s->own.list[s->a] = !s->own.list[s->a];
    return CONTHIRAL_OK;
}

CALL(set_range) { return conthiral_set_range(OWN, BITS, s->a, s->b, s->value, &s->flag); }
LISTS(set_range) {
    if (s->a > s->b || s->b > BITS) {
        return CONTHIRAL_RANGE;
    }
    s->flag = false;
    for (size_t i = s->a; i < s->b; i++) {
        s->flag |= s->own.list[i] != s->value;
        s->own.list[i] = s->value;
    }
    return CONTHIRAL_OK;
}

CALL(negate_range) { return conthiral_negate_range(OWN, BITS, s->a, s->b); }
LISTS(negate_range) {
    if (s->a > s->b || s->b > BITS) {
        return CONTHIRAL_RANGE;
    }
    for (size_t i = s->a; i < s->b; i++) {
        s->own.list[i] = !s->own.list[i];
    }
    return CONTHIRAL_OK;
}

CALL(move) { return conthiral_move(OWN, BITS, s->a, s->b, s->c); }
LISTS(move) {
    if (!fits(s->a, s->c, BITS) || !fits(s->b, s->c, BITS)) {
        return CONTHIRAL_RANGE;
    }
    copied(s->own.list, s->a, s->own.list, s->b, s->c);
    return CONTHIRAL_OK;
}

CALL(copy) { return conthiral_copy(OWN, BITS, s->a, FIRST, s->first.bits, s->b, s->c); }
LISTS(copy) {
    if (!fits(s->a, s->c, BITS) || !fits(s->b, s->c, s->first.bits)) {
        return CONTHIRAL_RANGE;
    }
    copied(s->own.list, s->a, s->first.list, s->b, s->c);
    return CONTHIRAL_OK;
}

CALL(shift_up) { return conthiral_shift_up(OWN, BITS, s->a); }
LISTS(shift_up) {
    for (size_t i = BITS; i-- > 0;) {
        s->own.list[i] = i >= s->a && s->own.list[i - s->a];
    }
    return CONTHIRAL_OK;
}

CALL(shift_down) { return conthiral_shift_down(OWN, BITS, s->a); }
LISTS(shift_down) {
    EACH(i) s->own.list[i] = s->a < BITS - i && s->own.list[i + s->a];
    return CONTHIRAL_OK;
}

CALL(reverse) { return conthiral_reverse(OWN, BITS); }
LISTS(reverse) {
    bool old[MOST];
    memcpy(old, s->own.list, sizeof old);
    EACH(i) s->own.list[i] = old[BITS - 1 - i];
    return CONTHIRAL_OK;
}

CALL(rotate_down) { return conthiral_rotate_down(OWN, BITS, s->a); }
LISTS(rotate_down) {
    bool old[MOST];
    memcpy(old, s->own.list, sizeof old);
    EACH(i) s->own.list[i] = old[(i + s->a % BITS) % BITS];
    return CONTHIRAL_OK;
}

CALL(rotate_up) { return conthiral_rotate_up(OWN, BITS, s->a); }
LISTS(rotate_up) {
    bool old[MOST];
    memcpy(old, s->own.list, sizeof old);
    EACH(i) s->own.list[(i + s->a % BITS) % BITS] = old[i];
    return CONTHIRAL_OK;
}

// Makes each bit a value, and notes whether one changed.
static void changed(struct state *s, bool (*made)(const struct state *, size_t)) {
    s->flag = false;
    EACH(i) {
        bool value = made(s, i);
        s->flag |= s->own.list[i] != value;
        s->own.list[i] = value;
    }
}

#define COMBINES(name, call, expression)                                                     \
    static bool bit_##name(const struct state *s, size_t i) {                                \
        bool own = s->own.list[i], first = s->first.list[i], second = s->second.list[i];     \
        (void)second;                                                                        \
        return expression;                                                                   \
    }                                                                                        \
    CALL(name) { return call; }                                                              \
    LISTS(name) {                                                                            \
        changed(s, bit_##name);                                                              \
        return CONTHIRAL_OK;                                                                 \
    }

COMBINES(and, conthiral_and(OWN, FIRST, BITS, &s->flag), own && first)
COMBINES(or, conthiral_or(OWN, FIRST, BITS, &s->flag), own || first)
COMBINES(xor, conthiral_xor(OWN, FIRST, BITS, &s->flag), own != first)
COMBINES(and_not, conthiral_and_not(OWN, FIRST, BITS, &s->flag), own && !first)
COMBINES(or_and, conthiral_or_and(OWN, FIRST, SECOND, BITS, &s->flag), own || (first && second))
COMBINES(or_and_not, conthiral_or_and_not(OWN, FIRST, SECOND, BITS, &s->flag), own || (first && !second))

#define ASKS(name, expression)                                                               \
    CALL(name) { return conthiral_##name(OWN, FIRST, BITS, &s->flag); }                      \
    LISTS(name) {                                                                            \
        s->flag = true;                                                                      \
        EACH(i) {                                                                            \
            bool own = s->own.list[i], first = s->first.list[i];                             \
            s->flag &= expression;                                                           \
        }                                                                                    \
        return CONTHIRAL_OK;                                                                 \
    }

ASKS(is_subset, !own || first)
ASKS(is_disjoint, !own || !first)
ASKS(equal, own == first)

CALL(first_difference) { return conthiral_first_difference(OWN, BITS, FIRST, s->first.bits, &s->number); }
LISTS(first_difference) {
    size_t end = BITS < s->first.bits ? BITS : s->first.bits;
    s->number = 0;
    while (s->number < end && s->own.list[s->number] == s->first.list[s->number]) {
        s->number++;
    }
    return CONTHIRAL_OK;
}

CALL(count_ones) { return conthiral_count_ones(OWN, BITS, &s->number); }
LISTS(count_ones) {
    s->number = 0;
    EACH(i) s->number += s->own.list[i];
    return CONTHIRAL_OK;
}

#define COUNTS(name, expression)                                                             \
    CALL(name) { return conthiral_##name(OWN, FIRST, BITS, &s->number); }                    \
    LISTS(name) {                                                                            \
        s->number = 0;                                                                       \
        EACH(i) {                                                                            \
            bool own = s->own.list[i], first = s->first.list[i];                             \
            s->number += expression;                                                         \
        }                                                                                    \
        return CONTHIRAL_OK;                                                                 \
    }

COUNTS(count_and, own && first)
COUNTS(count_or, own || first)
COUNTS(count_xor, own != first)
COUNTS(count_and_not, own && !first)

CALL(rank) { return conthiral_rank(OWN, BITS, s->a, &s->number); }
LISTS(rank) {
    s->number = 0;
    EACH(i) s->number += i < s->a && s->own.list[i];
    return CONTHIRAL_OK;
}

CALL(select) { return conthiral_select(OWN, BITS, s->a, &s->number); }
LISTS(select) {
    size_t left = s->a;
    for (s->number = 0; s->number < BITS; s->number++) {
        if (s->own.list[s->number] && left-- == 0) {
            break;
        }
    }
    return CONTHIRAL_OK;
}

CALL(next) { return conthiral_next(OWN, BITS, s->value, s->a, &s->number); }
LISTS(next) {
    s->number = s->a < BITS ? s->a : BITS;
    while (s->number < BITS && s->own.list[s->number] != s->value) {
        s->number++;
    }
    return CONTHIRAL_OK;
}

CALL(previous) { return conthiral_previous(OWN, BITS, s->value, s->a, &s->number); }
LISTS(previous) {
    s->number = BITS;
    EACH(i) {
        if (i <= s->a && s->own.list[i] == s->value) {
            s->number = i;
        }
    }
    return CONTHIRAL_OK;
}

CALL(first_unset_run) { return conthiral_first_unset_run(OWN, BITS, s->c, &s->number); }
LISTS(first_unset_run) {
    size_t run = 0;
    s->number = BITS;
    EACH(i) {
        run = s->own.list[i] ? 0 : run + 1;
        if (run == s->c) {
            s->number = i + 1 - run;
            break;
        }
    }
    return s->c ? CONTHIRAL_OK : CONTHIRAL_RANGE;
}

CALL(indices) {
    return conthiral_indices(OWN, BITS, s->value, s->a, s->room ? s->numbers : NULL, s->room, &s->number);
}
LISTS(indices) {
    s->number = 0;
    for (size_t i = s->a; i < BITS && s->number < s->room; i++) {
        if (s->own.list[i] == s->value) {
            s->numbers[s->number++] = i;
        }
    }
    return CONTHIRAL_OK;
}

// Where bit i stands in bytes.
static int place(const struct state *s, size_t i) { return s->value ? 7 - i % 8 : i % 8; }

CALL(from_bytes) {
    return conthiral_from_bytes(OWN, BITS, s->byte_count ? s->bytes : NULL, s->byte_count, s->value);
}
LISTS(from_bytes) {
    EACH(i) s->own.list[i] = s->bytes[i / 8] >> place(s, i) & 1;
    return CONTHIRAL_OK;
}

CALL(to_bytes) {
    return conthiral_to_bytes(OWN, BITS, s->byte_count ? s->bytes : NULL, s->byte_count, s->value);
}
LISTS(to_bytes) {
    memset(s->bytes, 0, s->byte_count);
    EACH(i) s->bytes[i / 8] |= s->own.list[i] << place(s, i);
    return CONTHIRAL_OK;
}

// ---- the table of calls, each with how many arrays it takes

struct call {
    const char *name;
    conthiral_status (*run)(struct state *);
    conthiral_status (*lists)(struct state *);
    int arrays;
};

#define ROW(name, arrays) {#name, run_##name, list_##name, arrays}

static const struct call CALLS[] = {
    ROW(check, 1),       ROW(fill, 1),        ROW(negate, 1),       ROW(get, 1),
    ROW(set, 1),         ROW(flip, 1),        ROW(set_range, 1),    ROW(negate_range, 1),
    ROW(move, 1),        ROW(copy, 2),        ROW(shift_up, 1),     ROW(shift_down, 1),
    ROW(reverse, 1),     ROW(rotate_down, 1), ROW(rotate_up, 1),    ROW(and, 2),
    ROW(or, 2),          ROW(xor, 2),         ROW(and_not, 2),      ROW(or_and, 3),
    ROW(or_and_not, 3),  ROW(is_subset, 2),   ROW(is_disjoint, 2),  ROW(equal, 2),
    ROW(first_difference, 2), ROW(count_ones, 1), ROW(rank, 1),     ROW(select, 1),
    ROW(next, 1),        ROW(previous, 1),    ROW(first_unset_run, 1), ROW(indices, 1),
    ROW(from_bytes, 1),  ROW(to_bytes, 1),    ROW(count_and, 2),    ROW(count_or, 2),
    ROW(count_xor, 2),   ROW(count_and_not, 2),
};

static int wrong;
static long tried;

static void is(bool right, const struct call *call, const char *what, const struct state *s) {
    tried++;
    if (!right && wrong++ < 20) {
        printf("%s: %s, at %zu bits, arguments %zu %zu %zu %d\n", call->name, what, s->own.bits, s->a, s->b, s->c, s->value);
    }
}

static bool same_arrays(const struct state *s, const struct state *t) {
    return !memcmp(s->own.room, t->own.room, sizeof s->own.room)
        && !memcmp(s->first.room, t->first.room, sizeof s->first.room)
        && !memcmp(s->second.room, t->second.room, sizeof s->second.room)
        && !memcmp(s->numbers, t->numbers, sizeof s->numbers) && !memcmp(s->bytes, t->bytes, sizeof s->bytes);
}

// Runs a call that must be refused.
static void refused(const struct call *call, struct state *s, conthiral_status status, const char *what) {
    struct state t = *s;
    is(call->run(&t) == status, call, what, s);
    is(same_arrays(s, &t) && s->flag == t.flag && s->number == t.number, call, "a refused call writes", s);
}

// Spoils each array of a call in turn: a word too few or too many, and a true bit past the last one.
static void spoiled(const struct call *call, const struct state *s) {
    for (int at = 0; at < call->arrays; at++) {
        struct state t = *s;
        struct array *array = at == 0 ? &t.own : at == 1 ? &t.first : &t.second;
        array->count++;
        refused(call, &t, CONTHIRAL_LENGTH, "a word too many is taken");
        if (array->count > 1) {
            array->count -= 2;
            refused(call, &t, CONTHIRAL_LENGTH, "a word too few is taken");
            array->count++;
        } else {
            array->count--;
        }
        // words that are only written may hold anything
        if (array->bits % 64 && call->run != run_from_bytes) {
            array->room[GUARD + array->bits / 64] |= (uint64_t)1 << (array->bits % 64 + below(64 - array->bits % 64));
            refused(call, &t, CONTHIRAL_NOT_CANONICAL, "a bit past the last one is taken");
        }
    }
}

static void tries(const struct call *call, const struct state *s) {
    struct state t = *s, wanted = *s;
    conthiral_status status = call->lists(&wanted);
    if (status != CONTHIRAL_OK) {
        refused(call, &t, status, "another status");
        return;
    }
    pack(&wanted.own);
    is(call->run(&t) == CONTHIRAL_OK, call, "another status", s);
    is(same_arrays(&wanted, &t), call, "other words", s);
    is(t.flag == wanted.flag, call, "another flag", s);
    is(t.number == wanted.number, call, "another number", s);
    spoiled(call, s);
    if (call->run == run_from_bytes || call->run == run_to_bytes) {
        t = *s;
        t.byte_count++;
        refused(call, &t, CONTHIRAL_LENGTH, "a byte too many is taken");
    }
}

// An argument: mostly within the bits, or at their end, or far past it.
static size_t argument(size_t bits) {
    switch (below(8)) {
    case 0: return bits;
    case 1: return bits + 1 + below(3);
    case 2: return SIZE_MAX - below(3);
    case 3: return 0;
    default: return below(bits + 1);
    }
}

static void one_round(void) {
    static const size_t edges[] = {0, 1, 63, 64, 65, 127, 128, 129, 192, 320, MOST};
    struct state s;
    memset(&s, 0, sizeof s);
    size_t bits = below(2) ? edges[below(sizeof edges / sizeof *edges)] : below(MOST + 1);
    draw(&s.own, bits);
    draw(&s.first, bits);
    draw(&s.second, bits);
    switch (below(4)) {
    case 0: s.first = s.own; break;
    case 1: // one bit alone differs
        s.first = s.own;
        if (bits) {
            s.first.list[below(bits)] ^= 1;
            pack(&s.first);
        }
        break;
    }
    s.a = argument(bits);
    s.b = below(3) ? argument(bits) : s.a + below(bits + 1);
    s.c = below(4) ? below(bits + 2) / (1 + below(4)) : argument(bits);
    s.value = below(2);
    s.flag = below(2);
    s.number = below(1000);
    s.room = below(WORDS + 2);
    for (size_t k = 0; k < sizeof s.numbers / sizeof *s.numbers; k++) {
        s.numbers[k] = random_word();
    }
    for (size_t k = 0; k < sizeof s.bytes; k++) {
        s.bytes[k] = random_word();
    }
    s.byte_count = bits / 8 + (bits % 8 != 0);
    for (size_t k = 0; k < sizeof CALLS / sizeof *CALLS; k++) {
        struct state t = s;
        if (CALLS[k].run == run_copy) {
            draw(&t.first, below(MOST + 1));
        } else if (CALLS[k].run == run_first_difference && below(2)) {
            // one list may begin the other
            t.first.bits = below(bits + 1);
            memset(t.first.list + t.first.bits, 0, MOST - t.first.bits);
            pack(&t.first);
        }
        tries(&CALLS[k], &t);
    }
}

// conthiral_mask takes any words of the right count, and conthiral_word_count says which that is.
static void masks(void) {
    struct state s;
    static const struct call call = {"mask", NULL, NULL, 1};
    memset(&s, 0, sizeof s);
    draw(&s.own, below(MOST + 1));
    struct state wanted = s;
    is(conthiral_word_count(s.own.bits) == s.own.count, &call, "another count of words", &s);
    if (s.own.bits % 64) {
        s.own.room[GUARD + s.own.bits / 64] |= random_word() << s.own.bits % 64;
    }
    struct state t = s;
    is(conthiral_mask(words(&t.own), t.own.count, t.own.bits) == CONTHIRAL_OK, &call, "another status", &s);
    is(same_arrays(&wanted, &t), &call, "other words", &s);
    t = s;
    is(conthiral_mask(t.own.room + GUARD, t.own.count + 1, t.own.bits) == CONTHIRAL_LENGTH, &call, "another status", &s);
    is(same_arrays(&s, &t), &call, "a refused call writes", &s);
}

int main(int count, char **arguments) {
    seed = count > 1 ? strtoull(arguments[1], NULL, 10) : (uint64_t)time(NULL) * 2654435761u;
    long rounds = count > 2 ? strtol(arguments[2], NULL, 10) : 3000;
    printf("seed %llu\n", (unsigned long long)seed);
    seed |= (uint64_t)1 << 63;
    for (long round = 0; round < rounds; round++) {
        one_round();
        masks();
    }
    printf("%ld passed, %d failed\n", tried - wrong, wrong);
    return wrong != 0;
}
