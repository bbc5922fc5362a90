// The memory of this process. A static library of Rattle asks for its own by three functions, here over malloc,
// realloc and free, which the Rust and C++ libraries call too. Those are glibc's, but for where memory begins:
//
// - What is as long as a line of the cache begins at one: else a vector of 32 bytes lies across two lines in one
//   library's bits and not in another's.
// - What is as long as a page begins 24 lines further on in its page than the last such memory did. A load waits
//   for a store before it whose address has the same low 12 bits, as if both were of one place, so two lists of
//   bits that are read and written side by side take half as long again where one begins up to five lines before
//   the other in its page. Any two of these places are a multiple of eight lines apart.

#include <stdbool.h>
#include <stddef.h>
#include <stdint.h>
#include <string.h>

enum { LINE = 64, PAGE = 4096, STEP = 24 * LINE };

// Memory within a page has the page's address in the word before it, with this bit. glibc's own word there, which
// is a length, never has it.
static const uintptr_t WITHIN = (uintptr_t)1 << 63;

// glibc's own.
void *__libc_malloc(size_t size);
void *__libc_memalign(size_t alignment, size_t size);
void *__libc_calloc(size_t count, size_t size);
void *__libc_realloc(void *p, size_t size);
void __libc_free(void *p);
size_t malloc_usable_size(void *p);

static uintptr_t word_before(void *p) { return ((uintptr_t *)p)[-1]; }

// What glibc gave for this memory.
static char *given(void *p) {
    uintptr_t word = word_before(p);
    return word & WITHIN ? (char *)(word & ~WITHIN) : p;
}

// Whether glibc asked the system for this memory alone, which is 0 then, as its calloc has it.
static bool is_mapped(void *p) { return word_before(given(p)) & 2; }

// Memory of a page and more, so far on in one.
static void *within_page(size_t size, size_t place) {
    char *page = size > SIZE_MAX - PAGE ? NULL : __libc_memalign(PAGE, size + place);
    if (!page || !place) {
        return page;
    }
    uintptr_t *p = (uintptr_t *)(page + place);
    p[-1] = (uintptr_t)page | WITHIN;
    return p;
}

static void *placed(size_t size) {
    static size_t last;
    if (size < PAGE) {
        return __libc_memalign(LINE, size);
    }
    last = (last + STEP) % PAGE;
    return within_page(size, last);
}

void *malloc(size_t size) { return size < LINE ? __libc_malloc(size) : placed(size); }

void *calloc(size_t count, size_t size) {
    size_t all;
    if (__builtin_mul_overflow(count, size, &all) || all < LINE) {
        return __libc_calloc(count, size);
    }
    void *p = placed(all);
    return p && !is_mapped(p) ? memset(p, 0, all) : p;
}

// What was asked for is within what glibc calls usable, so that much is kept.
static void *moved_to(void *placed, void *p, size_t size) {
    if (placed) {
        size_t there = malloc_usable_size(given(p)) - ((char *)p - given(p));
        memcpy(placed, p, there < size ? there : size);
        __libc_free(given(p));
    }
    return placed;
}

void *realloc(void *p, size_t size) {
    if (!p) {
        return malloc(size);
    }
    if (size >= PAGE || given(p) != p) {
        return moved_to(malloc(size), p, size);
    }
    void *moved = __libc_realloc(p, size);
    if (!moved || size < LINE || (uintptr_t)moved % LINE == 0) {
        return moved;
    }
    void *at_line = placed(size);
    return at_line ? moved_to(at_line, moved, size) : moved;
}

void free(void *p) {
    if (p) {
        __libc_free(given(p));
    }
}

struct tried {
    bool ok;
    void *p;
};

// Where there is no memory, p is an address at which nothing is owned.
static char nothing;

static struct tried answer(void *p) {
    return p ? (struct tried){true, p} : (struct tried){false, &nothing};
}

// No alignment beyond malloc's is asked for.
struct tried rattle_alloc(size_t size, size_t alignment) {
    (void)alignment;
    return answer(malloc(size ? size : 1));
}

// The block keeps its first bytes, and stays as it was where this is refused.
struct tried rattle_realloc(void *p, size_t kept, size_t size, size_t alignment) {
    (void)kept;
    (void)alignment;
    return answer(realloc(p, size ? size : 1));
}

void rattle_dealloc(void *p) { free(p); }
