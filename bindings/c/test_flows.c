// The calls of conthiral.h on rows of bits for the nodes of a graph beside plain loops, on random graphs: test_flows
// [SEED [ROUNDS]]. What the equations ask for is found by turns until nothing is new. Each wrong array must give its
// status, and leave all results as they were.

#include "test_graphs.h"

// Rows of bits, in words and as a table.
struct rows {
    struct result words;
    bool bit[MOST][COLUMNS];
};

// ---- live variables

static size_t width(size_t columns) { return columns / 64 + (columns % 64 != 0); }

static void pack(struct rows *r, size_t nodes, size_t variables) {
    mark(&r->words, nodes * width(variables));
    memset(r->words.room + GUARD, 0, r->words.count * sizeof *r->words.room);
    for (size_t n = 0; n < nodes; n++) {
        for (size_t v = 0; v < variables; v++) {
            r->words.room[GUARD + n * width(variables) + v / 64] |= (uint64_t)r->bit[n][v] << v % 64;
        }
    }
}

static size_t some_columns(void) { return below(4) ? below(COLUMNS + 1) : 64 * below(3); }

static void draw_rows(struct rows *r, size_t nodes, size_t variables) {
    memset(r->bit, 0, sizeof r->bit);
    for (size_t n = 0; n < nodes; n++) {
        for (size_t v = 0; v < variables; v++) {
            r->bit[n][v] = !below(6);
        }
    }
    pack(r, nodes, variables);
}

// What each equation asks for is added until nothing is new.
static void live_by_turns(const struct graph *g, size_t variables, struct rows *each) {
    for (bool changes = true; changes;) {
        changes = false;
        for (size_t n = 0; n < g->nodes; n++) {
            for (size_t v = 0; v < variables; v++) {
                bool after = false;
                for (size_t k = g->offsets[n]; k < g->offsets[n + 1]; k++) {
                    after |= each[2].bit[g->ends[k]][v];
                }
                bool before = each[0].bit[n][v] || (after && !each[1].bit[n][v]);
                changes |= before != each[2].bit[n][v] || after != each[3].bit[n][v];
                each[2].bit[n][v] = before;
                each[3].bit[n][v] = after;
            }
        }
    }
}

static conthiral_status liveness(const struct graph *g, size_t variables, struct rows *each) {
    return conthiral_liveness(offsets(g), g->offset_count, ends(g), g->end_count, variables, items(&each[0].words),
                              each[0].words.count, items(&each[1].words), each[1].words.count, items(&each[2].words),
                              each[2].words.count, items(&each[3].words), each[3].words.count);
}

static bool leaves(const struct rows *each, const struct rows *kept) {
    return same(&each[2].words, &kept[2].words) && same(&each[3].words, &kept[3].words);
}

// Sets a bit past the last variable, if there is one.
static bool stain(struct rows *r, size_t nodes, size_t variables) {
    if (nodes == 0 || variables % 64 == 0) {
        return false;
    }
    size_t last = (1 + below(nodes)) * width(variables) - 1;
    r->words.room[GUARD + last] |= (uint64_t)1 << (variables % 64 + below(64 - variables % 64));
    return true;
}

static void lives(size_t nodes, size_t variables) {
    static struct graph g, spoiled;
    // what is read, what is written, and what is live before and after
    static struct rows each[4], kept[4], stained[4];
    draw(&g, nodes);
    draw_rows(&each[0], nodes, variables);
    draw_rows(&each[1], nodes, variables);
    mark(&each[2].words, nodes * width(variables));
    mark(&each[3].words, nodes * width(variables));
    memcpy(kept, each, sizeof kept);
    for (int way = 0; way < 8; way++) {
        spoiled = g;
        conthiral_status status = spoil(&spoiled, way);
        // without variables, no count of words tells how many nodes there are
        bool hides = variables == 0 && (way == 1 || way == 2);
        if (status != CONTHIRAL_OK && !hides) {
            memcpy(stained, each, sizeof stained);
            // bits past the last one are found after wrong counts, and before wrong ends
            bool stains = below(2) && stain(&stained[below(2)], nodes, variables);
            status = stains && status == CONTHIRAL_RANGE ? CONTHIRAL_NOT_CANONICAL : status;
            is(liveness(&spoiled, variables, stained) == status, "liveness", "another status", &g);
            is(leaves(stained, kept), "liveness", "a refused call writes", &g);
        }
    }
    for (int way = 0; way < 10; way++) {
        memcpy(stained, each, sizeof stained);
        size_t *count = &stained[way % 4].words.count;
        bool spoils = way < 4 ? ++*count : way < 8 ? (*count)-- > 0 : stain(&stained[way - 8], nodes, variables);
        if (spoils) {
            is(liveness(&g, variables, stained) == (way < 8 ? CONTHIRAL_LENGTH : CONTHIRAL_NOT_CANONICAL), "liveness",
               "another status", &g);
            is(leaves(stained, kept), "liveness", "a refused call writes", &g);
        }
    }
    is(liveness(&g, SIZE_MAX, each) == (nodes ? CONTHIRAL_LENGTH : CONTHIRAL_OK), "liveness", "another status", &g);
    REFUSE_EACH(liveness(&g, variables, each), leaves(each, kept), "liveness", &g)
    is(liveness(&g, variables, each) == CONTHIRAL_OK, "liveness", "another status", &g);
    memset(each[2].bit, 0, sizeof each[2].bit);
    memset(each[3].bit, 0, sizeof each[3].bit);
    live_by_turns(&g, variables, each);
    for (int side = 2; side < 4; side++) {
        struct result found = each[side].words;
        pack(&each[side], nodes, variables);
        is(holds(&found, &kept[side].words, each[side].words.room + GUARD), "liveness", "other words", &g);
    }
}

// ---- sets that draw from one another

// What a call takes: masks and sets, and for the greatest sets an entry, which may be no node.
struct drawn {
    struct rows masks, sets;
    bool keep, most;
    size_t entry;
};

static conthiral_status solve(const struct graph *g, size_t columns, struct drawn *d) {
    uint64_t *masks = items(&d->masks.words), *sets = items(&d->sets.words);
    size_t mask_count = d->masks.words.count, count = d->sets.words.count;
    return d->most ? conthiral_greatest(offsets(g), g->offset_count, ends(g), g->end_count, d->entry, columns, masks,
                                        mask_count, d->keep, sets, count)
                   : conthiral_least(offsets(g), g->offset_count, ends(g), g->end_count, columns, masks, mask_count,
                                     d->keep, sets, count);
}

// The equations are met in turn, from nothing or from everything on, until nothing changes.
static void solve_by_turns(const struct graph *g, size_t columns, struct drawn *d) {
    static bool start[MOST][COLUMNS];
    memcpy(start, d->sets.bit, sizeof start);
    memset(d->sets.bit, d->most, sizeof d->sets.bit);
    for (bool changes = true; changes;) {
        changes = false;
        for (size_t n = 0; n < g->nodes; n++) {
            for (size_t v = 0; v < columns; v++) {
                bool drawn = d->most;
                for (size_t k = g->offsets[n]; k < g->offsets[n + 1]; k++) {
                    bool other = d->sets.bit[g->ends[k]][v];
                    drawn = d->most ? drawn && other : drawn || other;
                }
                bool lets = d->masks.bit[n][v] == d->keep && !(d->most && n == d->entry);
                bool set = start[n][v] || (lets && drawn);
                changes |= set != d->sets.bit[n][v];
                d->sets.bit[n][v] = set;
            }
        }
    }
}

static void draws(size_t nodes, size_t columns, bool most) {
    static struct graph g, spoiled;
    static struct drawn own, stained;
    const char *call = most ? "greatest" : "least";
    draw(&g, nodes);
    draw_rows(&own.masks, nodes, columns);
    draw_rows(&own.sets, nodes, columns);
    own.keep = below(2);
    own.most = most;
    own.entry = below(4) ? below(nodes + 1) : SIZE_MAX;
    struct result kept = own.sets.words;
    for (int way = 0; way < 8; way++) {
        spoiled = g;
        stained = own;
        conthiral_status status = spoil(&spoiled, way);
        bool hides = columns == 0 && (way == 1 || way == 2);
        if (status != CONTHIRAL_OK && !hides) {
            is(solve(&spoiled, columns, &stained) == status, call, "another status", &g);
            is(same(&stained.sets.words, &kept), call, "a refused call writes", &g);
        }
    }
    for (int way = 0; way < 6; way++) {
        stained = own;
        struct rows *each = way % 2 ? &stained.masks : &stained.sets;
        bool spoils = way < 2 ? ++each->words.count : way < 4 ? each->words.count-- > 0 : stain(each, nodes, columns);
        struct result was = stained.sets.words;
        if (spoils) {
            is(solve(&g, columns, &stained) == (way < 4 ? CONTHIRAL_LENGTH : CONTHIRAL_NOT_CANONICAL), call,
               "another status", &g);
            is(same(&stained.sets.words, &was), call, "a refused call writes", &g);
        }
    }
    REFUSE_EACH(solve(&g, columns, &own), same(&own.sets.words, &kept), call, &g)
    is(solve(&g, columns, &own) == CONTHIRAL_OK, call, "another status", &g);
    struct result found = own.sets.words;
    solve_by_turns(&g, columns, &own);
    pack(&own.sets, nodes, columns);
    is(holds(&found, &kept, own.sets.words.room + GUARD), call, "other words", &g);
}

int main(int count, char **arguments) {
    seed = count > 1 ? strtoull(arguments[1], NULL, 10) : (uint64_t)time(NULL) * 2654435761u;
    long rounds = count > 2 ? strtol(arguments[2], NULL, 10) : 200;
    printf("seed %llu\n", (unsigned long long)seed);
    seed |= (uint64_t)1 << 63;
    for (long round = 0; round < rounds; round++) {
        lives(below(MOST + 1), some_columns());
        draws(below(MOST + 1), some_columns(), false);
        draws(below(MOST + 1), some_columns(), true);
    }
    printf("%ld passed, %d failed\n", tried - wrong, wrong);
    return wrong != 0;
}
