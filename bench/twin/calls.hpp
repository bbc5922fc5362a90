// What the harness asks of a library: the call, by its number, and the input.

#pragma once

#include <cstddef>
#include <cstdint>

// As the harness numbers its calls (src/rows.rs).
enum class Call : uint32_t {
    push,
    from_slice,
    extend_from_slice,
    get,
    set,
    from_bytes,
    iterate,
    resize,
    set_all,
    negate,
    clone,
    hash,
    split_off,
    and_,
    or_,
    xor_,
    equal,
    extend_aligned,
    extend_shifted,
    closure,
    set_bits,
    set_bits_back,
    unset_bits,
    count,
    first_free,
    live,
    matrix,
    drain_aligned,
    drain_shifted,
    filter,
    and_not,
    subset,
    count_and,
    next_set,
    set_range,
    negate_range,
    copy_range,
    superset,
    disjoint,
    count_or,
    any,
    all,
    count_and_not,
    count_xor,
    first_set,
    to_bytes,
    from_indices,
    runs,
    select,
    set_bits_between,
    unset_bits_back,
    deal,
    previous_set,
    next_unset,
    previous_unset,
    last_set,
    last_unset,
    rank,
    or_dropped,
    and_not_dropped,
    lists,
    intersection,
    order,
    minus,
    slice,
    shift_up,
    reverse,
    rotate,
    insert_remove,
    flip,
};

struct Input {
    const bool *bits;
    size_t bit_count;
    const uint8_t *bytes;
    size_t byte_count;
    const uint8_t *others;
    size_t other_count;
    const size_t *indices;
    size_t index_count;
    size_t row_bytes;
};
