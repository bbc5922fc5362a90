// Random graphs of offsets and ends for the tests of conthiral.h, and the numbers and words that its calls write.
// Compiled with REFUSES and linked with --wrap=malloc,--wrap=realloc, a test refuses requests for memory.

#include "conthiral.h"

#include <stdio.h>
#include <stdlib.h>
#include <string.h>
#include <time.h>

enum { MOST = 40, EDGES = 4 * MOST, COLUMNS = 150, WORDS = MOST * (COLUMNS / 64 + 1), GUARD = 3 };

static const uint64_t MARK = 0x5bd1e995a5a5c3c3;

// A graph in two arrays, with the counts that a call is told.
struct graph {
    size_t nodes, offsets[MOST + 2], ends[EDGES + 1], offset_count, end_count;
};

// Numbers or words that a call writes, between guards.
struct result {
    uint64_t room[GUARD + WORDS + 1 + GUARD];
    size_t count;
};

static uint64_t seed;
static long tried;
static int wrong;

static uint64_t random_word(void) {
    seed ^= seed << 13;
    seed ^= seed >> 7;
    seed ^= seed << 17;
    return seed;
}

static size_t below(size_t n) { return n ? random_word() % n : 0; }

static void is(bool right, const char *call, const char *what, const struct graph *g) {
    tried++;
    if (!right && wrong++ < 20) {
        printf("%s: %s, at %zu nodes and %zu edges\n", call, what, g->nodes, g->end_count);
    }
}

// Each request for memory is refused in turn: REFUSE_EACH makes a call again and again, until it asks for no more.
#ifdef REFUSES
static long left = -1;

void *__real_malloc(size_t size);
void *__real_realloc(void *old, size_t size);

static bool refuses(void) { return left >= 0 && left-- == 0; }

void *__wrap_malloc(size_t size) { return refuses() ? NULL : __real_malloc(size); }

void *__wrap_realloc(void *old, size_t size) { return refuses() ? NULL : __real_realloc(old, size); }

// Whether a request of a call was refused, which it must tell.
static bool was_refused(conthiral_status status, const char *call, const struct graph *g) {
    bool refused = left < 0;
    left = -1;
    is(!refused || status == CONTHIRAL_MEMORY, call, "a refused request isn't told", g);
    return refused;
}

#define REFUSE_EACH(made, leaves, call, g)                                                                             \
    for (long n = 0; left = n, was_refused(made, call, g); n++) {                                                      \
        is(leaves, call, "a refused call writes", g);                                                                  \
    }
#else
#define REFUSE_EACH(made, leaves, call, g)
#endif

// ---- graphs and results

// Makes a graph of random edges: few, or more than nodes, one more than once, some from a node to itself.
static void draw(struct graph *g, size_t nodes) {
    size_t most = 1 + below(5);
    g->nodes = nodes;
    g->end_count = 0;
    for (size_t n = 0; n < nodes; n++) {
        g->offsets[n] = g->end_count;
        for (size_t k = below(most); k > 0 && g->end_count < EDGES; k--) {
            // most edges of some graphs lead to near nodes, so that paths are long
            size_t near = n + 1 + below(3);
            g->ends[g->end_count++] = most < 4 && near <= nodes ? near - 1 : below(nodes);
        }
    }
    g->offsets[nodes] = g->end_count;
    g->offset_count = nodes + 1;
}

static const size_t *offsets(const struct graph *g) { return g->offset_count ? g->offsets : NULL; }

static const size_t *ends(const struct graph *g) { return g->end_count ? g->ends : NULL; }

static void mark(struct result *r, size_t count) {
    r->count = count;
    for (size_t k = 0; k < sizeof r->room / sizeof *r->room; k++) {
        r->room[k] = MARK + k * below(2);
    }
}

static uint64_t *items(struct result *r) { return r->count ? r->room + GUARD : NULL; }

static bool same(const struct result *r, const struct result *other) {
    return !memcmp(r->room, other->room, sizeof r->room);
}

// Whether a result is some numbers, and what stands around them is as it was.
static bool holds(const struct result *r, const struct result *before, const uint64_t *wanted) {
    struct result all = *before;
    memcpy(all.room + GUARD, wanted, r->count * sizeof *wanted);
    return same(r, &all);
}

// Spoils a graph in one of eight ways, and returns the status that it gets, or CONTHIRAL_OK if it can't be spoiled so.
static conthiral_status spoil(struct graph *g, int way) {
    size_t n = below(g->nodes), k = below(g->end_count);
    switch (way) {
    case 0: g->offset_count = 0; return CONTHIRAL_LENGTH;
    case 1: g->offset_count--; return g->nodes ? CONTHIRAL_LENGTH : CONTHIRAL_OK;
    case 2: g->offsets[g->offset_count] = g->end_count, g->offset_count++; return CONTHIRAL_LENGTH;
    case 3: g->offsets[0]++; return CONTHIRAL_LENGTH;
    case 4: g->offsets[g->nodes] += below(2) ? 1 : SIZE_MAX; return CONTHIRAL_LENGTH;
    case 5: g->end_count++, g->ends[g->end_count - 1] = 0; return CONTHIRAL_LENGTH;
    case 6:
        if (g->nodes < 2 || n == 0) {
            return CONTHIRAL_OK;
        }
        g->offsets[n] = below(2) ? g->offsets[n + 1] + 1 : SIZE_MAX;
        return CONTHIRAL_LENGTH;
    default:
        if (g->end_count == 0) {
            return CONTHIRAL_OK;
        }
        g->ends[k] = below(2) ? g->nodes : random_word() | (uint64_t)1 << 63;
        return CONTHIRAL_RANGE;
    }
}
