//! The calls of `conthiral.h` that are used here.

macro_rules! calls {
    ($(fn $name:ident($($argument:ident: $type:ty),* $(,)?);)*) => {
        extern "C" {
            $(pub fn $name($($argument: $type),*) -> u8;)*
        }
    };
}

calls! {
    fn conthiral_mask(words: *mut u64, word_count: usize, bits: usize);
    fn conthiral_fill(words: *mut u64, word_count: usize, bits: usize, value: bool);
    fn conthiral_negate(words: *mut u64, word_count: usize, bits: usize);
    fn conthiral_set_range(
        words: *mut u64, word_count: usize, bits: usize,
        start: usize, stop: usize, value: bool, changed: *mut bool,
    );
    fn conthiral_negate_range(words: *mut u64, word_count: usize, bits: usize, start: usize, stop: usize);
    fn conthiral_move(words: *mut u64, word_count: usize, bits: usize, at: usize, start: usize, count: usize);
    fn conthiral_copy(
        own: *mut u64, own_count: usize, bits: usize, at: usize,
        other: *const u64, other_count: usize, other_bits: usize, start: usize, count: usize,
    );
    fn conthiral_shift_up(words: *mut u64, word_count: usize, bits: usize, n: usize);
    fn conthiral_shift_down(words: *mut u64, word_count: usize, bits: usize, n: usize);
    fn conthiral_reverse(words: *mut u64, word_count: usize, bits: usize);
    fn conthiral_rotate_down(words: *mut u64, word_count: usize, bits: usize, n: usize);
    fn conthiral_rotate_up(words: *mut u64, word_count: usize, bits: usize, n: usize);
    fn conthiral_and(
        own: *mut u64, own_count: usize, other: *const u64, other_count: usize, bits: usize, changed: *mut bool,
    );
    fn conthiral_or(
        own: *mut u64, own_count: usize, other: *const u64, other_count: usize, bits: usize, changed: *mut bool,
    );
    fn conthiral_xor(
        own: *mut u64, own_count: usize, other: *const u64, other_count: usize, bits: usize, changed: *mut bool,
    );
    fn conthiral_and_not(
        own: *mut u64, own_count: usize, other: *const u64, other_count: usize, bits: usize, changed: *mut bool,
    );
    fn conthiral_or_and(
        own: *mut u64, own_count: usize, first: *const u64, first_count: usize,
        second: *const u64, second_count: usize, bits: usize, changed: *mut bool,
    );
    fn conthiral_or_and_not(
        own: *mut u64, own_count: usize, first: *const u64, first_count: usize,
        second: *const u64, second_count: usize, bits: usize, changed: *mut bool,
    );
    fn conthiral_is_subset(
        own: *const u64, own_count: usize, other: *const u64, other_count: usize, bits: usize, answer: *mut bool,
    );
    fn conthiral_is_disjoint(
        own: *const u64, own_count: usize, other: *const u64, other_count: usize, bits: usize, answer: *mut bool,
    );
    fn conthiral_first_difference(
        own: *const u64, own_count: usize, bits: usize,
        other: *const u64, other_count: usize, other_bits: usize, index: *mut usize,
    );
    fn conthiral_count_ones(words: *const u64, word_count: usize, bits: usize, count: *mut usize);
    fn conthiral_count_and(
        own: *const u64, own_count: usize, other: *const u64, other_count: usize, bits: usize, count: *mut usize,
    );
    fn conthiral_count_or(
        own: *const u64, own_count: usize, other: *const u64, other_count: usize, bits: usize, count: *mut usize,
    );
    fn conthiral_count_xor(
        own: *const u64, own_count: usize, other: *const u64, other_count: usize, bits: usize, count: *mut usize,
    );
    fn conthiral_count_and_not(
        own: *const u64, own_count: usize, other: *const u64, other_count: usize, bits: usize, count: *mut usize,
    );
    fn conthiral_rank(words: *const u64, word_count: usize, bits: usize, index: usize, count: *mut usize);
    fn conthiral_select(words: *const u64, word_count: usize, bits: usize, rank: usize, index: *mut usize);
    fn conthiral_next(
        words: *const u64, word_count: usize, bits: usize, value: bool, from: usize, index: *mut usize,
    );
    fn conthiral_previous(
        words: *const u64, word_count: usize, bits: usize, value: bool, upto: usize, index: *mut usize,
    );
    fn conthiral_first_unset_run(
        words: *const u64, word_count: usize, bits: usize, count: usize, index: *mut usize,
    );
    fn conthiral_from_bytes(
        words: *mut u64, word_count: usize, bits: usize, bytes: *const u8, byte_count: usize, most_first: bool,
    );
    fn conthiral_to_bytes(
        words: *const u64, word_count: usize, bits: usize, bytes: *mut u8, byte_count: usize, most_first: bool,
    );
    fn conthiral_reach(
        words: *const u64, word_count: usize, size: usize,
        reached: *mut u64, reached_count: usize, turned: *mut u64, turned_count: usize,
    );
    fn conthiral_transpose(
        words: *const u64, word_count: usize, rows: usize, columns: usize, made: *mut u64, made_count: usize,
    );
    fn conthiral_product(
        first: *const u64, first_count: usize, rows: usize, inner: usize,
        second: *const u64, second_count: usize, columns: usize, made: *mut u64, made_count: usize,
    );
    fn conthiral_close(words: *mut u64, word_count: usize, size: usize, changed: *mut bool);
    fn conthiral_dominators(
        offsets: *const usize, offset_count: usize, ends: *const usize, end_count: usize,
        entry: usize, immediate: *mut usize, immediate_count: usize,
    );
    fn conthiral_components(
        offsets: *const usize, offset_count: usize, ends: *const usize, end_count: usize,
        component: *mut usize, component_count: usize, count: *mut usize,
    );
    fn conthiral_liveness(
        offsets: *const usize, offset_count: usize, ends: *const usize, end_count: usize, variables: usize,
        reads: *const u64, reads_count: usize, writes: *const u64, writes_count: usize,
        before: *mut u64, before_count: usize, after: *mut u64, after_count: usize,
    );
    fn conthiral_least(
        offsets: *const usize, offset_count: usize, ends: *const usize, end_count: usize, columns: usize,
        masks: *const u64, masks_count: usize, keep: bool, sets: *mut u64, sets_count: usize,
    );
    fn conthiral_greatest(
        offsets: *const usize, offset_count: usize, ends: *const usize, end_count: usize, entry: usize,
        columns: usize, masks: *const u64, masks_count: usize, keep: bool, sets: *mut u64, sets_count: usize,
    );
    fn conthiral_table_sizes(
        text: *const u8, text_count: usize, sizes: *mut usize, size_count: usize,
        line: *mut usize, column: *mut usize,
    );
    fn conthiral_table(
        text: *const u8, text_count: usize, offsets: *mut usize, offset_count: usize,
        symbols: *mut usize, symbol_count: usize, actions: *mut usize, action_count: usize,
        left: *mut usize, left_count: usize, lengths: *mut usize, length_count: usize,
        right: *mut usize, right_count: usize, terminals: *mut usize,
    );
    fn conthiral_table_names(
        text: *const u8, text_count: usize, offsets: *mut usize, offset_count: usize,
        names: *mut u8, name_count: usize,
    );
    fn conthiral_parse(
        terminals: usize, offsets: *const usize, offset_count: usize, symbols: *const usize, symbol_count: usize,
        actions: *const usize, action_count: usize, left: *const usize, left_count: usize,
        lengths: *const usize, length_count: usize, tokens: *const usize, token_count: usize,
        reductions: *mut usize, reduction_count: usize, count: *mut usize, at: *mut usize,
    );
}

/// The status of a parse by more reductions than there is room for.
pub const LENGTH: u8 = 1;

/// The status of a call that found no memory.
pub const MEMORY: u8 = 3;

/// The status of a text that is no grammar.
pub const TEXT: u8 = 5;

/// The status of a token that a parser doesn't take.
pub const TOKEN: u8 = 6;

/// Panics unless a call met its conditions. The callers here meet them all.
#[inline]
pub fn done(status: u8) {
    assert_eq!(status, 0, "conthiral: a call was refused");
}
