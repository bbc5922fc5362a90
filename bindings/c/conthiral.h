/* Proved calls on bits in words that the caller owns, on graphs and on tables of parsers. tools/make/header writes
   this file from crates/vob_c.

   Bit i stands in word i / 64, at the place of weight 2 ^ (i % 64). `bits` bits need (bits + 63) / 64 words, and the
   places of the last word past the last bit are 0: such words are canonical. conthiral_mask makes words canonical.

   Each call tests this and its own conditions first, and returns a status. If that isn't CONTHIRAL_OK, nothing is
   written but what the call says of that status. No call keeps a pointer or has a state: calls on different arrays
   may run at once. The calls on a graph of offsets and ends, on texts and on tables ask malloc for memory, and free
   it before they return. No other call asks for any.

   What a caller must see to, for no call can test it:
   - a pointer and the count after it are one array, which stays while the call runs; it may be null if the count is 0;
   - a pointer to one result (as `changed`) isn't null; what stood there isn't read;
   - the arrays and results of a call don't overlap, unless both arrays are const;
   - malloc, realloc and free are those of one allocator, and no signal handler calls what asks for memory. */
#ifndef CONTHIRAL_H
#define CONTHIRAL_H

#include <stdbool.h>
#include <stddef.h>
#include <stdint.h>

#ifdef __cplusplus
extern "C" {
#endif

/* A size_t must have 64 bits. */
typedef char conthiral_has_64_bits[sizeof(size_t) == 8 ? 1 : -1];

typedef uint8_t conthiral_status;
enum {
    /* Every condition of the call is met. */
    CONTHIRAL_OK = 0,
    /* The words are more or fewer than the bits need, or the offsets of a graph don't fit its ends. An array is longer or
       shorter than a table needs, or there is room for fewer reductions than a parser makes. */
    CONTHIRAL_LENGTH = 1,
    /* An index or a range is past the bits, or what should be a node of a graph is none. A parser by the arrays of a
       table would reduce by a rule that isn't there. */
    CONTHIRAL_RANGE = 2,
    /* Memory ran out. No call on bits asks for any. */
    CONTHIRAL_MEMORY = 3,
    /* A bit past the last one is set. */
    CONTHIRAL_NOT_CANONICAL = 4,
    /* The text of a grammar is faulty. */
    CONTHIRAL_TEXT = 5,
    /* No action of a parser takes a token, or the end. */
    CONTHIRAL_TOKEN = 6,
};

/* All bits: made one value, negated; tested, and made canonical. */

/* Returns how many words `bits` bits need. */
size_t conthiral_word_count(size_t bits);

/* Tests whether the words hold `bits` bits as each call wants them. Reads the last word alone. */
conthiral_status conthiral_check(const uint64_t *words, size_t word_count, size_t bits);

/* Makes each bit past the last one false, whatever it was. Then the words are canonical. */
conthiral_status conthiral_mask(uint64_t *words, size_t word_count, size_t bits);

/* Makes each bit `value`. */
conthiral_status conthiral_fill(uint64_t *words, size_t word_count, size_t bits, bool value);

/* Negates each bit. */
conthiral_status conthiral_negate(uint64_t *words, size_t word_count, size_t bits);

/* One bit: read, written or negated. */

/* Reads bit `index` into `value`. */
conthiral_status conthiral_get(const uint64_t *words, size_t word_count, size_t bits, size_t index, bool *value);

/* Writes bit `index`, and says whether it changed. */
conthiral_status conthiral_set(uint64_t *words, size_t word_count, size_t bits, size_t index, bool value,
    bool *changed);

/* Negates bit `index`, and writes its new value into `value`. */
conthiral_status conthiral_flip(uint64_t *words, size_t word_count, size_t bits, size_t index, bool *value);

/* The bits of a range: made one value, negated, moved, or written over others. */

/* Makes the bits from index `start` to below `stop` `value`, and says whether one changed. The range must lie within
   the bits; it is empty if `start` is `stop`. */
conthiral_status conthiral_set_range(uint64_t *words, size_t word_count, size_t bits, size_t start, size_t stop,
    bool value, bool *changed);

/* Negates the bits from index `start` to below `stop`. The range must lie within the bits. */
conthiral_status conthiral_negate_range(uint64_t *words, size_t word_count, size_t bits, size_t start, size_t stop);

/* Writes `count` bits from index `start` on over those from `at` on, as if all were read first: the two ranges may
   overlap. Both must lie within the bits. */
conthiral_status conthiral_move(uint64_t *words, size_t word_count, size_t bits, size_t at, size_t start,
    size_t count);

/* Writes `count` bits of `other` from index `start` on over those of `own` from `at` on. Both ranges must lie within
   the bits of their arrays. */
conthiral_status conthiral_copy(uint64_t *own, size_t own_count, size_t bits, size_t at, const uint64_t *other,
    size_t other_count, size_t other_bits, size_t start, size_t count);

/* All bits moved: shifted, reversed or rotated. */

/* Moves each bit up by `n` indices. The bits below `n` become false, and those that pass the last one are dropped. */
conthiral_status conthiral_shift_up(uint64_t *words, size_t word_count, size_t bits, size_t n);

/* Moves each bit down by `n` indices. The first `n` bits are dropped, and the last `n` become false. */
conthiral_status conthiral_shift_down(uint64_t *words, size_t word_count, size_t bits, size_t n);

/* Reverses the order of the bits: the last one becomes the first. */
conthiral_status conthiral_reverse(uint64_t *words, size_t word_count, size_t bits);

/* Rotates the bits down by `n` indices: the first `n` bits are put after the others. `n` is taken modulo the number
   of bits. */
conthiral_status conthiral_rotate_down(uint64_t *words, size_t word_count, size_t bits, size_t n);

/* Rotates the bits up by `n` indices: the last `n` bits are put before the others. `n` is taken modulo the number of
   bits. */
conthiral_status conthiral_rotate_up(uint64_t *words, size_t word_count, size_t bits, size_t n);

/* Two arrays of words combined, bit by bit. */

/* Keeps the bits that both have. */
conthiral_status conthiral_and(uint64_t *own, size_t own_count, const uint64_t *other, size_t other_count,
    size_t bits, bool *changed);

/* Adds the bits that the other has. */
conthiral_status conthiral_or(uint64_t *own, size_t own_count, const uint64_t *other, size_t other_count, size_t bits,
    bool *changed);

/* Keeps the bits that exactly one has. */
conthiral_status conthiral_xor(uint64_t *own, size_t own_count, const uint64_t *other, size_t other_count,
    size_t bits, bool *changed);

/* Removes the bits that the other has. */
conthiral_status conthiral_and_not(uint64_t *own, size_t own_count, const uint64_t *other, size_t other_count,
    size_t bits, bool *changed);

/* Adds the bits that `first` and `second` both have. */
conthiral_status conthiral_or_and(uint64_t *own, size_t own_count, const uint64_t *first, size_t first_count,
    const uint64_t *second, size_t second_count, size_t bits, bool *changed);

/* Adds the bits that `first` has and `second` hasn't. */
conthiral_status conthiral_or_and_not(uint64_t *own, size_t own_count, const uint64_t *first, size_t first_count,
    const uint64_t *second, size_t second_count, size_t bits, bool *changed);

/* Two arrays of words compared, as sets and as lists. */

/* Writes into `answer` whether each bit that is set in `own` is set in `other` too. */
conthiral_status conthiral_is_subset(const uint64_t *own, size_t own_count, const uint64_t *other, size_t other_count,
    size_t bits, bool *answer);

/* Writes into `answer` whether no bit is set in both. */
conthiral_status conthiral_is_disjoint(const uint64_t *own, size_t own_count, const uint64_t *other,
    size_t other_count, size_t bits, bool *answer);

/* Writes into `answer` whether both have the same bits. */
conthiral_status conthiral_equal(const uint64_t *own, size_t own_count, const uint64_t *other, size_t other_count,
    size_t bits, bool *answer);

/* Writes into `index` the first index below both numbers of bits at which the bits differ, or the lesser number if
   there is none: then one list begins the other. The order of lists is that of these bits, or else of their
   numbers. */
conthiral_status conthiral_first_difference(const uint64_t *own, size_t own_count, size_t bits, const uint64_t *other,
    size_t other_count, size_t other_bits, size_t *index);

/* How many bits are set, of one array or of two combined, and which index has a rank. */

/* Writes into `count` how many bits are set. */
conthiral_status conthiral_count_ones(const uint64_t *words, size_t word_count, size_t bits, size_t *count);

/* Writes into `count` how many bits are set below `index`: all of them if it is past the last one. */
conthiral_status conthiral_rank(const uint64_t *words, size_t word_count, size_t bits, size_t index, size_t *count);

/* Writes into `index` the index of the set bit below which `rank` bits are set, or `bits` if at most `rank` bits are
   set. */
conthiral_status conthiral_select(const uint64_t *words, size_t word_count, size_t bits, size_t rank, size_t *index);

/* Writes into `count` how many bits are set in both. */
conthiral_status conthiral_count_and(const uint64_t *own, size_t own_count, const uint64_t *other, size_t other_count,
    size_t bits, size_t *count);

/* Writes into `count` how many bits are set in either. */
conthiral_status conthiral_count_or(const uint64_t *own, size_t own_count, const uint64_t *other, size_t other_count,
    size_t bits, size_t *count);

/* Writes into `count` how many bits are set in exactly one. */
conthiral_status conthiral_count_xor(const uint64_t *own, size_t own_count, const uint64_t *other, size_t other_count,
    size_t bits, size_t *count);

/* Writes into `count` how many bits are set in `own` and not in `other`. */
conthiral_status conthiral_count_and_not(const uint64_t *own, size_t own_count, const uint64_t *other,
    size_t other_count, size_t bits, size_t *count);

/* The next or the previous index of a bit of one value, and the first stretch of unset bits. */

/* Writes into `index` the first index at or above `from` whose bit is `value`, or `bits` if there is none. */
conthiral_status conthiral_next(const uint64_t *words, size_t word_count, size_t bits, bool value, size_t from,
    size_t *index);

/* Writes into `index` the last index at or below `upto` whose bit is `value`, or `bits` if there is none. */
conthiral_status conthiral_previous(const uint64_t *words, size_t word_count, size_t bits, bool value, size_t upto,
    size_t *index);

/* Writes into `index` the least index from which on `count` bits in a row are false, or `bits` if there is none.
   `count` is at least 1. */
conthiral_status conthiral_first_unset_run(const uint64_t *words, size_t word_count, size_t bits, size_t count,
    size_t *index);

/* The indices of the bits of one value, a block of them at a time. */

/* Writes the indices from `from` on of the bits that are `value` into `indices`, the least ones first and as many as
   there is room for, and writes into `count` how many. The rest of the array stays. If the array is full, the next
   call goes on behind the last index. */
conthiral_status conthiral_indices(const uint64_t *words, size_t word_count, size_t bits, bool value, size_t from,
    size_t *indices, size_t index_count, size_t *count);

/* Bits read from bytes and written into bytes, the least or the most significant bit of a byte first. */

/* Writes the first `bits` bits of the bytes into the words, whatever these hold. Bit 0 is the least significant bit
   of byte 0, or its most significant bit with `most_first`. `bits` bits need (bits + 7) / 8 bytes; what the last byte
   has past them isn't read. */
conthiral_status conthiral_from_bytes(uint64_t *words, size_t word_count, size_t bits, const uint8_t *bytes,
    size_t byte_count, bool most_first);

/* Writes the bits into the bytes. Bit 0 becomes the least significant bit of byte 0, or its most significant bit with
   `most_first`. `bits` bits need (bits + 7) / 8 bytes; the last one is filled with false bits. */
conthiral_status conthiral_to_bytes(const uint64_t *words, size_t word_count, size_t bits, uint8_t *bytes,
    size_t byte_count, bool most_first);

/* Matrices of bits, one row after another, each in as many words as its bits need. Bit j of row i says whether an
   edge leads from node i to node j. */

/* Makes bit j of row i true wherever a path of one edge or more leads from node i to node j, of a matrix of `size`
   rows of `size` bits. Says whether a bit changed: if none did, the relation was transitive. */
conthiral_status conthiral_close(uint64_t *words, size_t word_count, size_t size, bool *changed);

/* The nodes of a graph to which paths lead from some of them. */

/* Adds to the set `reached` each node to which a path of edges leads from a node of it, in a matrix of `size` rows of
   `size` bits. `turned` has as many words as `reached`: room to work in, whatever it holds. */
conthiral_status conthiral_reach(const uint64_t *words, size_t word_count, size_t size, uint64_t *reached,
    size_t reached_count, uint64_t *turned, size_t turned_count);

/* Products of matrices of bits: where an edge of the first leads, and then one of the second. */

/* Writes into `made` the Boolean product: bit j of row i is true if `first` has bit k of row i and `second` has bit j
   of row k, for some k. `first` has `rows` rows of `inner` bits, and `second` has `inner` rows of `columns` bits.
   What stood in `made` isn't read. */
conthiral_status conthiral_product(const uint64_t *first, size_t first_count, size_t rows, size_t inner,
    const uint64_t *second, size_t second_count, size_t columns, uint64_t *made, size_t made_count);

/* Transposes of matrices of bits. */

/* Writes into `made` the matrix with rows and columns exchanged: `columns` rows of `rows` bits. What stood there
   isn't read. */
conthiral_status conthiral_transpose(const uint64_t *words, size_t word_count, size_t rows, size_t columns,
    uint64_t *made, size_t made_count);

/* The nodes that every path from the entry of a flow graph to a node passes. A graph is two arrays: the edges of node
   i lead to the nodes from `ends[offsets[i]]` to below `ends[offsets[i + 1]]`. So there is one offset more than
   nodes; the first is 0, they rise, and the last is the number of ends. */

/* Writes into `immediate` the immediate dominator of each node: the nearest of the nodes, but itself, that every path
   from the entry to it passes. Writes the number of nodes for the entry, and for a node to which no path leads. */
conthiral_status conthiral_dominators(const size_t *offsets, size_t offset_count, const size_t *ends,
    size_t end_count, size_t entry, size_t *immediate, size_t immediate_count);

/* The strong components of a graph: two nodes are in one exactly if paths lead from each to the other. */

/* Writes into `component` the number of each node's component, and into `count` how many there are. They are numbered
   from 0 on, so that an edge from one component to another leads to a lower number. */
conthiral_status conthiral_components(const size_t *offsets, size_t offset_count, const size_t *ends,
    size_t end_count, size_t *component, size_t component_count, size_t *count);

/* The variables that a program still needs at each node of its flow graph. Row n of bits is of node n, and has a bit
   for each variable. */

/* Writes into `before` and `after` the variables that are live before each node and after it. After a node is live
   what is live before a node that comes next. Before it is live what it reads, and what is live after it and not
   written there. Each of the four arrays has a row of `variables` bits for each node. What stood in `before` and
   `after` isn't read. */
conthiral_status conthiral_liveness(const size_t *offsets, size_t offset_count, const size_t *ends, size_t end_count,
    size_t variables, const uint64_t *reads, size_t reads_count, const uint64_t *writes, size_t writes_count,
    uint64_t *before, size_t before_count, uint64_t *after, size_t after_count);

/* Sets that draw from one another along the edges of a graph: row n of bits is the set of node n, and draws from
   those of the nodes to which its edges lead. */

/* Adds to each set what its mask lets through of the sets that it draws from, until none grows. Row n of `masks` is
   the mask of set n: it lets through the places that it has with `keep`, and else those that it hasn't. `masks` and
   `sets` have a row of `columns` bits for each node. */
conthiral_status conthiral_least(const size_t *offsets, size_t offset_count, const size_t *ends, size_t end_count,
    size_t columns, const uint64_t *masks, size_t masks_count, bool keep, uint64_t *sets, size_t sets_count);

/* Makes each set the greatest that has what it starts with, and of its mask the places that all sets have that it
   draws from. A set that draws from none has all of its mask, but nothing is let through to `entry`, if that is a
   node. `masks`, `keep` and `sets` are as for `conthiral_least`. */
conthiral_status conthiral_greatest(const size_t *offsets, size_t offset_count, const size_t *ends, size_t end_count,
    size_t entry, size_t columns, const uint64_t *masks, size_t masks_count, bool keep, uint64_t *sets,
    size_t sets_count);

/* The table of a parser, from the text of a grammar as yacc and bison read it. The table is six arrays of numbers.
   Terminals have the numbers from 0 on as symbols: 0 is the end, and the others follow in the order of their
   declarations, `error` first. Nonterminals come after them. The entries of state i stand from `offsets[i]` to below
   `offsets[i + 1]`: at symbol `symbols[k]` a parser does `actions[k]`. That is 4 times a number, and 0, 1 or 2. By 0
   it enters the state with the number. By 1 it reduces by the rule with the number. By 2 it enters the state as by 0,
   unless all tokens are read: then it accepts. Rule i has `left[i]` on its left side, and `lengths[i]` symbols on its
   right side. `right` has the symbols of all right sides, rule by rule. */

/* Reads the text of a grammar, and writes nine sizes of its table. Six are how many terminals, nonterminals, states,
   entries, rules and symbols of all right sides there are. The seventh is how many bytes the names of its symbols
   have. The last two, `base` and `each`, say how many reductions suffice: base + each * n for each sentence of n
   tokens. This is proved for none and for one token, and tested for more. If base + each is `SIZE_MAX`, no number is
   known to suffice. If the status is `CONTHIRAL_TEXT`, writes where the text is faulty, counted from 1: the line, and
   the byte within it. */
conthiral_status conthiral_table_sizes(const char *text, size_t text_count, size_t *sizes, size_t size_count,
    size_t *line, size_t *column);

/* Writes the arrays of a table from the text of its grammar, and into `terminals` how many terminals it has. Each
   array must be as long as `conthiral_table_sizes` says: `offsets` has one number more than there are states. Where a
   table leaves a choice, a parser shifts, or else reduces by the lowest rule, as that of yacc does. */
conthiral_status conthiral_table(const char *text, size_t text_count, size_t *offsets, size_t offset_count,
    size_t *symbols, size_t symbol_count, size_t *actions, size_t action_count, size_t *left, size_t left_count,
    size_t *lengths, size_t length_count, size_t *right, size_t right_count, size_t *terminals);

/* Writes the names of all symbols of a table into `names`, and where they begin into `offsets`: the name of symbol i
   stands from `offsets[i]` to below `offsets[i + 1]`. That of a terminal is its text in quotes if it has one. `names`
   is as long as `conthiral_table_sizes` says, and `offsets` has one number more than there are symbols. */
conthiral_status conthiral_table_names(const char *text, size_t text_count, size_t *offsets, size_t offset_count,
    char *names, size_t name_count);

/* A parser by the arrays of a table. */

/* Parses tokens by the arrays of a table of so many terminals. A token is the number of a terminal; the end isn't
   among them. Writes into `reductions` the rules by which the parser reduces, in their order, and into `count` how
   many they are: read backwards, they are a rightmost derivation of the tokens. If the status is `CONTHIRAL_TOKEN`,
   writes into `at` the index of the first token that no action takes, or how many tokens there are if that is the
   end. The status is `CONTHIRAL_LENGTH` if there are more reductions than there is room for. Each array is tested as
   it is read: of arrays that are no table nothing is said, but that the call returns. */
conthiral_status conthiral_parse(size_t terminals, const size_t *offsets, size_t offset_count, const size_t *symbols,
    size_t symbol_count, const size_t *actions, size_t action_count, const size_t *left, size_t left_count,
    const size_t *lengths, size_t length_count, const size_t *tokens, size_t token_count, size_t *reductions,
    size_t reduction_count, size_t *count, size_t *at);

#ifdef __cplusplus
}
#endif

#endif
