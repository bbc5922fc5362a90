// The calls of conthiral.h on matrices beside plain loops over arrays of bool, on random graphs: test_matrices [SEED
// [ROUNDS]]. Wrong words, wrong counts and bits past the last column must give their status, and leave all as it was.

#include "conthiral.h"

#include <stdio.h>
#include <stdlib.h>
#include <string.h>
#include <time.h>

enum { MOST = 150, WORDS = MOST * (MOST / 64 + 1), GUARD = 3 };

static const uint64_t MARK = 0x5bd1e995a5a5c3c3;

// A matrix in words between guards, and its entries.
struct matrix {
    uint64_t room[GUARD + WORDS + 1 + GUARD];
    size_t rows, columns, count;
    bool entry[MOST][MOST];
};

static uint64_t seed;
static long tried;
static int wrong;

static uint64_t random_word(void) {
    seed ^= seed << 13;
    seed ^= seed >> 7;
    seed ^= seed << 17;
    return seed;
}

static size_t below(size_t n) { return n ? random_word() % n : 0; }

// The words of a matrix: no pointer at all if there are none.
static uint64_t *words(struct matrix *m) { return m->count ? m->room + GUARD : NULL; }

static size_t width(size_t columns) { return columns / 64 + (columns % 64 != 0); }

// Stores the entries of a matrix.
static void pack(struct matrix *m) {
    m->count = m->rows * width(m->columns);
    for (size_t k = 0; k < sizeof m->room / sizeof *m->room; k++) {
        m->room[k] = MARK + k;
    }
    memset(m->room + GUARD, 0, m->count * sizeof *m->room);
    for (size_t i = 0; i < m->rows; i++) {
        for (size_t j = 0; j < m->columns; j++) {
            m->room[GUARD + i * width(m->columns) + j / 64] |= (uint64_t)m->entry[i][j] << j % 64;
        }
    }
}

// Makes a matrix of random entries: none, about one a row, or some of each row.
static void draw(struct matrix *m, size_t rows, size_t columns) {
    size_t often = below(4);
    m->rows = rows;
    m->columns = columns;
    memset(m->entry, 0, sizeof m->entry);
    for (size_t i = 0; i < rows; i++) {
        for (size_t j = 0; j < columns; j++) {
            m->entry[i][j] = often == 0 ? false : often == 1 ? !below(columns) : often == 2 ? !below(20) : below(2);
        }
    }
    pack(m);
}

static void is(bool right, const char *call, const char *what, const struct matrix *m) {
    tried++;
    if (!right && wrong++ < 20) {
        printf("%s: %s, at %zu rows and %zu columns\n", call, what, m->rows, m->columns);
    }
}

static bool same_words(const struct matrix *m, const struct matrix *n) {
    return !memcmp(m->room, n->room, sizeof m->room);
}

// Spoils a matrix in one of three ways, and returns the status that it gets: a word too many, a word too few, or a
// true bit past the last column. Returns CONTHIRAL_OK if it can't be spoiled so.
static conthiral_status spoil(struct matrix *m, int way) {
    if (way == 2) {
        if (m->rows == 0 || m->columns % 64 == 0) {
            return CONTHIRAL_OK;
        }
        size_t last = (1 + below(m->rows)) * width(m->columns) - 1;
        m->room[GUARD + last] |= (uint64_t)1 << (m->columns % 64 + below(64 - m->columns % 64));
        return CONTHIRAL_NOT_CANONICAL;
    }
    if (way == 1 && m->count == 0) {
        return CONTHIRAL_OK;
    }
    m->count += way == 0 ? 1 : -1;
    return CONTHIRAL_LENGTH;
}

// ---- the closure

static bool closed_lists(struct matrix *m) {
    bool changed = false;
    for (size_t k = 0; k < m->rows; k++) {
        for (size_t i = 0; i < m->rows; i++) {
            for (size_t j = 0; j < m->rows; j++) {
                bool led = m->entry[i][j] || (m->entry[i][k] && m->entry[k][j]);
                changed |= led != m->entry[i][j];
                m->entry[i][j] = led;
            }
        }
    }
    return changed;
}

static void closes(size_t size) {
    static struct matrix own, wanted, spoiled, kept;
    draw(&own, size, size);
    wanted = own;
    bool changes = closed_lists(&wanted), changed = below(2);
    pack(&wanted);
    for (int way = 0; way < 3; way++) {
        spoiled = own;
        conthiral_status status = spoil(&spoiled, way);
        kept = spoiled;
        bool flag = below(2), was = flag;
        if (status != CONTHIRAL_OK) {
            is(conthiral_close(words(&spoiled), spoiled.count, size, &flag) == status, "close", "another status", &own);
            is(same_words(&spoiled, &kept) && flag == was, "close", "a refused call writes", &own);
        }
    }
    is(conthiral_close(words(&own), own.count, size, &changed) == CONTHIRAL_OK, "close", "another status", &own);
    is(same_words(&own, &wanted), "close", "other words", &own);
    is(changed == changes, "close", "another flag", &own);
    is(conthiral_close(words(&own), own.count, size, &changed) == CONTHIRAL_OK, "close", "another status", &own);
    is(same_words(&own, &wanted) && !changed, "close", "a second time changes", &own);
}

// ---- the transpose, and the product of two

static void transposes(size_t rows, size_t columns) {
    static struct matrix own, made, wanted, spoiled, kept;
    draw(&own, rows, columns);
    draw(&made, columns, rows);
    wanted = made;
    for (size_t i = 0; i < rows; i++) {
        for (size_t j = 0; j < columns; j++) {
            wanted.entry[j][i] = own.entry[i][j];
        }
    }
    pack(&wanted);
    // what stood in the words isn't read
    for (size_t k = 0; k < made.count; k++) {
        made.room[GUARD + k] = random_word();
    }
    for (int way = 0; way < 5; way++) {
        bool first = way < 3;
        spoiled = first ? own : made;
        conthiral_status status = spoil(&spoiled, way % 3);
        kept = made;
        if (status != CONTHIRAL_OK) {
            struct matrix *from = first ? &spoiled : &own, *into = first ? &made : &spoiled;
            is(conthiral_transpose(words(from), from->count, rows, columns, words(into), into->count) == status,
               "transpose", "another status", &own);
            is(same_words(first ? &made : &spoiled, &kept), "transpose", "a refused call writes", &own);
        }
    }
    is(conthiral_transpose(words(&own), own.count, rows, columns, words(&made), made.count) == CONTHIRAL_OK,
       "transpose", "another status", &own);
    is(same_words(&made, &wanted), "transpose", "other words", &own);
}

static conthiral_status product(struct matrix *first, struct matrix *second, struct matrix *made) {
    return conthiral_product(words(first), first->count, first->rows, first->columns, words(second), second->count,
                             second->columns, words(made), made->count);
}

static void multiplies(size_t rows, size_t inner, size_t columns) {
    static struct matrix first, second, made, wanted, spoiled, kept;
    draw(&first, rows, inner);
    draw(&second, inner, columns);
    draw(&made, rows, columns);
    wanted = made;
    memset(wanted.entry, 0, sizeof wanted.entry);
    for (size_t i = 0; i < rows; i++) {
        for (size_t k = 0; k < inner; k++) {
            for (size_t j = 0; j < columns; j++) {
                wanted.entry[i][j] |= first.entry[i][k] && second.entry[k][j];
            }
        }
    }
    pack(&wanted);
    for (size_t k = 0; k < made.count; k++) {
        made.room[GUARD + k] = random_word();
    }
    for (int way = 0; way < 8; way++) {
        struct matrix *each[] = {&first, &second, &made};
        spoiled = *each[way / 3];
        each[way / 3] = &spoiled;
        conthiral_status status = spoil(&spoiled, way % 3);
        kept = *each[2];
        if (status != CONTHIRAL_OK) {
            is(product(each[0], each[1], each[2]) == status, "product", "another status", &made);
            is(same_words(each[2], &kept), "product", "a refused call writes", &made);
        }
    }
    is(product(&first, &second, &made) == CONTHIRAL_OK, "product", "another status", &made);
    is(same_words(&made, &wanted), "product", "other words", &made);
}

// ---- the nodes that are reached

static conthiral_status reach(struct matrix *own, struct matrix *reached, struct matrix *turned) {
    return conthiral_reach(words(own), own->count, own->rows, words(reached), reached->count, words(turned), turned->count);
}

static void reaches(size_t size) {
    // a set is a matrix of one row
    static struct matrix own, reached, turned, wanted, closed, spoiled, kept, also;
    draw(&own, size, size);
    draw(&reached, 1, size);
    draw(&turned, 1, size);
    wanted = reached;
    closed = own;
    closed_lists(&closed);
    for (size_t i = 0; i < size; i++) {
        for (size_t j = 0; j < size; j++) {
            wanted.entry[0][j] |= reached.entry[0][i] && closed.entry[i][j];
        }
    }
    pack(&wanted);
    for (size_t k = 0; k < turned.count; k++) {
        turned.room[GUARD + k] = random_word();
    }
    for (int way = 0; way < 8; way++) {
        struct matrix *each[] = {&own, &reached, &turned};
        spoiled = *each[way / 3];
        each[way / 3] = &spoiled;
        conthiral_status status = spoil(&spoiled, way % 3);
        kept = *each[1];
        also = *each[2];
        if (status != CONTHIRAL_OK) {
            is(reach(each[0], each[1], each[2]) == status, "reach", "another status", &own);
            is(same_words(each[1], &kept) && same_words(each[2], &also), "reach", "a refused call writes", &own);
        }
    }
    kept = turned;
    is(reach(&own, &reached, &turned) == CONTHIRAL_OK, "reach", "another status", &own);
    is(same_words(&reached, &wanted), "reach", "other words", &own);
    memcpy(turned.room + GUARD, kept.room + GUARD, turned.count * sizeof *turned.room);
    is(same_words(&turned, &kept), "reach", "words that aren't its own are written", &own);
}

// A number of rows whose words can't be counted.
static void too_many(void) {
    static const struct matrix none;
    uint64_t word = 0;
    bool changed = false;
    is(conthiral_close(&word, 1, (size_t)1 << 62, &changed) == CONTHIRAL_LENGTH, "close", "another status", &none);
    is(conthiral_close(NULL, 0, SIZE_MAX, &changed) == CONTHIRAL_LENGTH, "close", "another status", &none);
    is(conthiral_reach(&word, 1, (size_t)1 << 62, NULL, 0, NULL, 0) == CONTHIRAL_LENGTH, "reach", "another status", &none);
    is(conthiral_transpose(NULL, 0, 0, SIZE_MAX, NULL, 0) == CONTHIRAL_OK, "transpose", "another status", &none);
    is(conthiral_product(NULL, 0, SIZE_MAX, 0, NULL, 0, 0, NULL, 0) == CONTHIRAL_OK, "product", "another status", &none);
    is(conthiral_product(NULL, 0, SIZE_MAX, 0, NULL, 0, SIZE_MAX, NULL, 0) == CONTHIRAL_LENGTH, "product",
       "another status", &none);
}

static size_t some_size(void) {
    static const size_t edges[] = {0, 1, 2, 63, 64, 65, 127, 128, 129, MOST};
    return below(2) ? edges[below(sizeof edges / sizeof *edges)] : below(MOST + 1);
}

int main(int count, char **arguments) {
    seed = count > 1 ? strtoull(arguments[1], NULL, 10) : (uint64_t)time(NULL) * 2654435761u;
    long rounds = count > 2 ? strtol(arguments[2], NULL, 10) : 100;
    printf("seed %llu\n", (unsigned long long)seed);
    seed |= (uint64_t)1 << 63;
    too_many();
    for (long round = 0; round < rounds; round++) {
        closes(some_size());
        reaches(some_size());
        transposes(some_size(), some_size());
        multiplies(some_size(), some_size(), some_size());
    }
    printf("%ld passed, %d failed\n", tried - wrong, wrong);
    return wrong != 0;
}
