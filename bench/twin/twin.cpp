// The libraries of C++ under the workloads of the harness: boost::dynamic_bitset and
// std::vector<bool>. Same input, same rounds, same checksums as in the crate vob_bench.

#include "calls.hpp"

#include <algorithm>
#include <boost/dynamic_bitset.hpp>
#include <cstddef>
#include <cstdint>
#include <functional>
#include <vector>

namespace {

// What a library doesn't have answers this, and the harness never asks for it.
constexpr uint64_t missing = 0;

using Dynamic = boost::dynamic_bitset<uint64_t>;
using Vector = std::vector<bool>;

uint64_t word_of(const uint8_t *bytes, size_t count) {
    uint64_t word = 0;
    for (size_t k = 0; k < count; k++)
        for (size_t j = 0; j < 8; j++)
            word |= uint64_t(bytes[k] >> (7 - j) & 1) << (8 * k + j);
    return word;
}

void build(Dynamic &made, const uint8_t *bytes, size_t count) {
    std::vector<uint64_t> words;
    for (size_t at = 0; at < count; at += 8)
        words.push_back(word_of(bytes + at, std::min<size_t>(8, count - at)));
    made = Dynamic(words.begin(), words.end());
    made.resize(8 * count);
}

void build(Vector &made, const uint8_t *bytes, size_t count) {
    made.clear();
    made.reserve(8 * count);
    for (size_t at = 0; at < count; at++)
        for (size_t j = 0; j < 8; j++)
            made.push_back(bytes[at] >> (7 - j) & 1);
}

template <class B> B made_of(const uint8_t *bytes, size_t count) {
    B made;
    build(made, bytes, count);
    return made;
}

// Where a library says whether the bit changed, so does this.
bool set(Dynamic &bits, size_t index, bool value) { return bits.test_set(index, value) != value; }

bool set(Vector &bits, size_t index, bool value) {
    bits[index] = value;
    return false;
}

uint64_t walked(const Dynamic &bits) {
    uint64_t times = 0;
    for (size_t index = 0; index < bits.size(); index++)
        times += bits[index];
    return times;
}

uint64_t walked(const Vector &bits) {
    uint64_t times = 0;
    for (bool bit : bits)
        times += bit;
    return times;
}

void set_all(Dynamic &bits, bool value) {
    if (value)
        bits.set();
    else
        bits.reset();
}

void set_all(Vector &bits, bool value) { std::fill(bits.begin(), bits.end(), value); }

void join(Dynamic &bits, const Dynamic &other) {
    // Appending blocks adds whole ones alone; these sizes are whole.
    std::vector<uint64_t> blocks(other.num_blocks());
    boost::to_block_range(other, blocks.begin());
    bits.append(blocks.begin(), blocks.end());
}

void join(Vector &bits, const Vector &other) {
    bits.insert(bits.end(), other.begin(), other.end());
}

// Every bit of this many is looked at, and every second, third .. one of more.
constexpr size_t most = 0x100000;

template <class B> uint64_t digest(const B &bits) {
    uint64_t sum = bits.size();
    size_t stride = bits.size() / (most + 1) + 1;
    for (size_t sample = 0; sample < bits.size() / stride; sample++)
        sum = sum * 31 + bits[sample * stride];
    return sum & 0xffffffff;
}

template <class B> uint64_t checksum(const B &bits, uint64_t times) {
    return (times << 32) + digest(bits);
}

template <class B> uint64_t sample(const B &bits, size_t round) {
    return bits[round % bits.size()];
}

template <class B> void touch(B &bits, size_t round) { bits[round % bits.size()] = true; }

template <class B> void clear(B &bits, size_t round) { bits[round % bits.size()] = false; }

template <class B> uint64_t push(const Input &in, size_t rounds) {
    uint64_t times = 0;
    B last;
    for (size_t round = 0; round < rounds; round++) {
        B bits;
        for (size_t k = 0; k < in.bit_count; k++)
            bits.push_back(in.bits[k]);
        times += sample(bits, round);
        last = std::move(bits);
    }
    return checksum(last, times);
}

template <class B, class Change> uint64_t changed(const Input &in, size_t rounds, Change change) {
    uint64_t times = 0;
    B bits = made_of<B>(in.bytes, in.byte_count);
    for (size_t round = 0; round < rounds; round++) {
        change(bits, round);
        times += sample(bits, round);
    }
    return checksum(bits, times);
}

template <class B, class Look> uint64_t seen(const Input &in, size_t rounds, Look look) {
    uint64_t times = 0;
    B bits = made_of<B>(in.bytes, in.byte_count);
    for (size_t round = 0; round < rounds; round++) {
        touch(bits, round);
        times += look(bits, round);
    }
    return checksum(bits, times);
}

template <class B> uint64_t get(const Input &in, size_t rounds) {
    return seen<B>(in, rounds, [&](const B &bits, size_t) {
        uint64_t times = 0;
        for (size_t k = 0; k < in.index_count; k++)
            times += bits[in.indices[k]];
        return times;
    });
}

template <class B> uint64_t write(const Input &in, size_t rounds) {
    uint64_t times = 0;
    B bits = made_of<B>(in.bytes, in.byte_count);
    for (size_t round = 0; round < rounds; round++)
        for (size_t k = 0; k < in.index_count; k++)
            times += set(bits, in.indices[k], in.indices[k] % 2 == round % 2);
    return checksum(bits, times);
}

template <class B> uint64_t equal(const Input &in, size_t rounds) {
    uint64_t times = 0;
    B bits = made_of<B>(in.bytes, in.byte_count);
    B other = bits;
    for (size_t round = 0; round < rounds; round++) {
        touch(bits, round);
        touch(other, round);
        times += bits == other;
    }
    return checksum(bits, times);
}

// Of two that are equal, so that no bit decides.
template <class B> uint64_t before(const Input &in, size_t rounds) {
    uint64_t times = 0;
    B bits = made_of<B>(in.bytes, in.byte_count);
    B other = bits;
    for (size_t round = 0; round < rounds; round++) {
        touch(bits, round);
        touch(other, round);
        times += bits < other;
    }
    return checksum(bits, times);
}

void flip(Dynamic &bits, size_t index) { bits.flip(index); }

void flip(Vector &bits, size_t index) { bits[index].flip(); }

template <class B> uint64_t extend(const Input &in, size_t at, size_t rounds) {
    B other = made_of<B>(in.others, in.other_count);
    return changed<B>(in, rounds, [&](B &bits, size_t) {
        bits.resize(at);
        join(bits, other);
    });
}

template <class B> uint64_t resize(const Input &in, size_t rounds) {
    return changed<B>(in, rounds, [&](B &bits, size_t) {
        bits.resize(13);
        bits.resize(8 * in.byte_count, true);
    });
}

// The calls that both have.
template <class B> uint64_t run(Call call, const Input &in, size_t rounds) {
    switch (call) {
    case Call::push:
        return push<B>(in, rounds);
    case Call::get:
        return get<B>(in, rounds);
    case Call::set:
        return write<B>(in, rounds);
    case Call::iterate:
        return seen<B>(in, rounds, [](const B &bits, size_t) { return walked(bits); });
    case Call::resize:
        return resize<B>(in, rounds);
    case Call::set_all:
        return changed<B>(in, rounds, [](B &bits, size_t round) { set_all(bits, round % 2 == 1); });
    case Call::negate:
        return changed<B>(in, rounds, [](B &bits, size_t) { bits.flip(); });
    case Call::clone:
        return seen<B>(in, rounds, [](const B &bits, size_t round) {
            B copy = bits;
            return sample(copy, round);
        });
    case Call::equal:
        return equal<B>(in, rounds);
    case Call::order:
        return before<B>(in, rounds);
    case Call::flip:
        return changed<B>(in, rounds, [&](B &bits, size_t) {
            for (size_t k = 0; k < in.index_count; k++)
                flip(bits, in.indices[k]);
        });
    case Call::extend_aligned:
        return extend<B>(in, 64, rounds);
    case Call::extend_shifted:
        return extend<B>(in, 64 + 13, rounds);
    default:
        return missing;
    }
}

template <class Take> uint64_t taken(const Input &in, size_t rounds, Take take) {
    Dynamic bits = made_of<Dynamic>(in.bytes, in.byte_count);
    Dynamic other = made_of<Dynamic>(in.others, in.other_count);
    for (size_t round = 0; round < rounds; round++)
        take(bits, other);
    return checksum(bits, 0);
}

// How many bits a copy has that takes another in.
template <class Take> uint64_t counted(const Input &in, size_t rounds, Take take) {
    Dynamic other = made_of<Dynamic>(in.others, in.other_count);
    return seen<Dynamic>(in, rounds, [&](const Dynamic &bits, size_t) {
        Dynamic both = bits;
        take(both, other);
        return both.count();
    });
}

uint64_t subset(const Input &in, size_t rounds) {
    uint64_t times = 0;
    Dynamic bits = made_of<Dynamic>(in.bytes, in.byte_count);
    Dynamic other = made_of<Dynamic>(in.others, in.other_count);
    other |= bits;
    for (size_t round = 0; round < rounds; round++) {
        touch(bits, round);
        touch(other, round);
        times += bits.is_subset_of(other);
    }
    return checksum(bits, times);
}

uint64_t superset(const Input &in, size_t rounds) {
    uint64_t times = 0;
    Dynamic bits = made_of<Dynamic>(in.bytes, in.byte_count);
    Dynamic other = made_of<Dynamic>(in.others, in.other_count);
    bits |= other;
    for (size_t round = 0; round < rounds; round++) {
        touch(bits, round);
        touch(other, round);
        times += other.is_subset_of(bits);
    }
    return checksum(bits, times);
}

uint64_t disjoint(const Input &in, size_t rounds) {
    uint64_t times = 0;
    Dynamic bits = made_of<Dynamic>(in.bytes, in.byte_count);
    Dynamic other = made_of<Dynamic>(in.others, in.other_count);
    other -= bits;
    for (size_t round = 0; round < rounds; round++) {
        touch(bits, round);
        clear(other, round);
        times += !bits.intersects(other);
    }
    return checksum(bits, times);
}

// What is counted are the rounds in which no bit is set.
template <class None> uint64_t missed(const Input &in, size_t rounds, None none) {
    uint64_t times = 0;
    Dynamic bits = made_of<Dynamic>(in.bytes, in.byte_count);
    for (size_t round = 0; round < rounds; round++) {
        clear(bits, round);
        times += none(bits);
    }
    return checksum(bits, times);
}

uint64_t set_bits(const Dynamic &bits) {
    uint64_t sum = 0;
    for (size_t index = bits.find_first(); index != Dynamic::npos; index = bits.find_next(index))
        sum += index;
    return sum;
}

// Rounds that look at a vector of which a bit changes in one, and back in the next.
template <class Look> uint64_t walk(const Input &in, size_t rounds, Look look) {
    uint64_t times = 0;
    Dynamic bits = made_of<Dynamic>(in.bytes, in.byte_count);
    for (size_t round = 0; round < rounds; round++) {
        bits[round / 2 % bits.size()] = round % 2 == 0;
        times += look(bits);
    }
    return checksum(bits, times);
}

void close(std::vector<Dynamic> &rows) {
    for (size_t k = 0; k < rows.size(); k++) {
        Dynamic through = rows[k];
        for (Dynamic &row : rows)
            if (row[k])
                row |= through;
    }
}

uint64_t closure(const Input &in, size_t rounds) {
    std::vector<Dynamic> rows;
    for (size_t at = 0; at < in.byte_count; at += in.row_bytes)
        rows.push_back(made_of<Dynamic>(in.bytes + at, in.row_bytes));
    std::vector<Dynamic> last;
    for (size_t round = 0; round < rounds; round++) {
        std::vector<Dynamic> closed = rows;
        close(closed);
        last = std::move(closed);
    }
    uint64_t sum = 0;
    for (const Dynamic &row : last)
        sum = sum * 31 + digest(row);
    return sum & 0xffffffff;
}

uint64_t run_dynamic(Call call, const Input &in, size_t rounds) {
    switch (call) {
    case Call::and_:
        return taken(in, rounds, [](Dynamic &bits, const Dynamic &other) { bits &= other; });
    case Call::or_:
        return taken(in, rounds, [](Dynamic &bits, const Dynamic &other) { bits |= other; });
    case Call::xor_:
        return taken(in, rounds, [](Dynamic &bits, const Dynamic &other) { bits ^= other; });
    case Call::and_not:
        return taken(in, rounds, [](Dynamic &bits, const Dynamic &other) { bits -= other; });
    case Call::subset:
        return subset(in, rounds);
    case Call::set_range:
        return changed<Dynamic>(in, rounds, [&](Dynamic &bits, size_t round) {
            bits.set(13, 8 * in.byte_count - 42, round % 2 == 1);
        });
    case Call::negate_range:
        return changed<Dynamic>(
            in, rounds, [&](Dynamic &bits, size_t) { bits.flip(13, 8 * in.byte_count - 42); });
    case Call::minus: {
        Dynamic other = made_of<Dynamic>(in.others, in.other_count);
        return seen<Dynamic>(in, rounds, [&](const Dynamic &bits, size_t round) {
            return sample(Dynamic(bits - other), round);
        });
    }
    case Call::shift_up:
        return changed<Dynamic>(in, rounds, [](Dynamic &bits, size_t) { bits <<= 13; });
    case Call::count_and:
        return counted(in, rounds, [](Dynamic &bits, const Dynamic &other) { bits &= other; });
    case Call::superset:
        return superset(in, rounds);
    case Call::disjoint:
        return disjoint(in, rounds);
    case Call::count_or:
        return counted(in, rounds, [](Dynamic &bits, const Dynamic &other) { bits |= other; });
    case Call::count_and_not:
        return counted(in, rounds, [](Dynamic &bits, const Dynamic &other) { bits -= other; });
    case Call::count_xor:
        return counted(in, rounds, [](Dynamic &bits, const Dynamic &other) { bits ^= other; });
    case Call::any:
        return missed(in, rounds, [](const Dynamic &bits) { return !bits.any(); });
    case Call::first_set:
        return missed(in, rounds,
                      [](const Dynamic &bits) { return bits.find_first() == Dynamic::npos; });
    case Call::all:
        return seen<Dynamic>(in, rounds, [](const Dynamic &bits, size_t) { return bits.all(); });
    case Call::closure:
        return closure(in, rounds);
    case Call::set_bits:
    case Call::next_set:
        return walk(in, rounds, set_bits);
    case Call::count:
        return walk(in, rounds, [](const Dynamic &bits) { return bits.count(); });
    default:
        return run<Dynamic>(call, in, rounds);
    }
}

uint64_t from_slice(const Input &in, size_t rounds) {
    uint64_t times = 0;
    Vector last;
    for (size_t round = 0; round < rounds; round++) {
        last = Vector(in.bits, in.bits + in.bit_count);
        times += sample(last, round);
    }
    return checksum(last, times);
}

uint64_t hash(const Input &in, size_t rounds) {
    uint64_t last = 0;
    return seen<Vector>(in, rounds, [&](const Vector &bits, size_t) {
        uint64_t now = std::hash<Vector>()(bits);
        bool same = now == last;
        last = now;
        return uint64_t(same);
    });
}

// So many bits from place `from` of a block in the middle drained, and joined again behind.
uint64_t drained(const Input &in, size_t from, size_t count, size_t rounds) {
    const size_t start = 8 * in.byte_count / 128 * 64 + from;
    return changed<Vector>(in, rounds, [=](Vector &bits, size_t) {
        const auto first = bits.begin() + start;
        Vector part(first, first + count);
        bits.erase(first, first + count);
        bits.insert(bits.end(), part.begin(), part.end());
    });
}

uint64_t run_vector(Call call, const Input &in, size_t rounds) {
    switch (call) {
    case Call::from_slice:
        return from_slice(in, rounds);
    case Call::extend_from_slice:
        return changed<Vector>(in, rounds, [&](Vector &bits, size_t) {
            bits.resize(13);
            bits.insert(bits.end(), in.bits, in.bits + in.bit_count);
        });
    case Call::hash:
        return hash(in, rounds);
    case Call::split_off:
        return changed<Vector>(in, rounds, [](Vector &bits, size_t) {
            bits = Vector(bits.begin() + 13, bits.end());
        });
    case Call::set_range:
        return changed<Vector>(in, rounds, [&](Vector &bits, size_t round) {
            std::fill(bits.begin() + 13, bits.end() - 29, round % 2 == 1);
        });
    case Call::copy_range: {
        Vector other = made_of<Vector>(in.others, in.other_count);
        return changed<Vector>(in, rounds, [&](Vector &bits, size_t) {
            std::copy(other.begin() + 13, other.end() - 64, bits.begin() + 29);
        });
    }
    case Call::slice:
        return seen<Vector>(in, rounds, [](const Vector &bits, size_t round) {
            return sample(Vector(bits.begin() + 13, bits.end() - 29), round);
        });
    case Call::reverse:
        return changed<Vector>(
            in, rounds, [](Vector &bits, size_t) { std::reverse(bits.begin(), bits.end()); });
    case Call::rotate:
        return changed<Vector>(in, rounds, [](Vector &bits, size_t) {
            std::rotate(bits.begin(), bits.begin() + 13, bits.end());
        });
    case Call::insert_remove:
        return changed<Vector>(in, rounds, [](Vector &bits, size_t round) {
            bits.insert(bits.begin() + bits.size() / 2, round % 2 == 1);
            bits.erase(bits.begin() + 13);
        });
    case Call::drain_aligned:
        return drained(in, 0, 64, rounds);
    case Call::drain_shifted:
        return drained(in, 13, 29, rounds);
    default:
        return run<Vector>(call, in, rounds);
    }
}

} // namespace

extern "C" uint64_t twin_run(uint32_t library, uint32_t call, const Input *in, size_t rounds) {
    return library == 0 ? run_dynamic(Call(call), *in, rounds)
                        : run_vector(Call(call), *in, rounds);
}

extern "C" const char *twin_compiler() { return __VERSION__; }
