//! The libraries that aren't in Rust: Conthiral, from its proved static library, and the C++ twin.

use crate::bits::Offer;
use crate::input::Input;
use crate::rows::Call;
use std::ffi::c_char;

#[link(name = "vob_bench", kind = "static")]
extern "C" {
    fn vob_bench_bits(
        name: *const u8,
        name_len: usize,
        bits: *const bool,
        bit_count: usize,
        bytes: *const u8,
        len: usize,
        indices: *const usize,
        count: usize,
        rounds: usize,
    ) -> u64;
    fn vob_bench_whole(name: *const u8, name_len: usize, bytes: *const u8, len: usize, rounds: usize) -> u64;
    fn vob_bench_walk(name: *const u8, name_len: usize, bytes: *const u8, len: usize, rounds: usize) -> u64;
    fn vob_bench_pair(
        name: *const u8,
        name_len: usize,
        bytes: *const u8,
        len: usize,
        others: *const u8,
        other_len: usize,
        rounds: usize,
    ) -> u64;
    fn vob_bench_plain(
        name: *const u8,
        name_len: usize,
        bytes: *const u8,
        len: usize,
        others: *const u8,
        other_len: usize,
        rounds: usize,
    ) -> u64;
    fn vob_bench_closure(bytes: *const u8, len: usize, row_bytes: usize, rounds: usize) -> u64;
    fn vob_bench_matrix(steps: *const usize, count: usize, nodes: usize, rounds: usize) -> u64;
    fn vob_bench_lists(steps: *const usize, count: usize, nodes: usize, rounds: usize) -> u64;
    fn vob_bench_live(numbers: *const usize, count: usize, vars: usize, rounds: usize) -> u64;
    fn vob_bench_available(numbers: *const usize, count: usize, vars: usize, rounds: usize) -> u64;
    fn vob_bench_transpose(bytes: *const u8, len: usize, row_bytes: usize, rounds: usize) -> u64;
    fn vob_bench_slots(steps: *const usize, count: usize, slots: usize, rounds: usize) -> u64;
    fn vob_bench_arena(slots: usize, rounds: usize) -> u64;
    fn vob_bench_columns(
        bytes: *const u8,
        len: usize,
        others: *const u8,
        other_len: usize,
        rounds: usize,
    ) -> u64;
}

/// Runs the workload of `vob_bench` that has the call's name. Its exports require nothing but what slices
/// promise, which the slices of `input` keep.
pub fn conthiral(call: Call, input: &Input, rounds: usize) -> u64 {
    let name = format!("{call:?}");
    let (name, name_len) = (name.as_ptr(), name.len());
    let (bits, bit_count) = (input.bits.as_ptr(), input.bits.len());
    let (bytes, len) = (input.bytes.as_ptr(), input.bytes.len());
    let (others, other_len) = (input.others.as_ptr(), input.others.len());
    let (indices, count) = (input.indices.as_ptr(), input.indices.len());
    match call {
        Call::Push
        | Call::FromSlice
        | Call::ExtendFromSlice
        | Call::Get
        | Call::Set
        | Call::Flip
        | Call::GrowAndSet
        | Call::FromIndices => unsafe {
            vob_bench_bits(name, name_len, bits, bit_count, bytes, len, indices, count, rounds)
        },
        Call::FromBytes
        | Call::Iterate
        | Call::Resize
        | Call::SetAll
        | Call::Negate
        | Call::Clone
        | Call::Hash
        | Call::SplitOff
        | Call::DrainAligned
        | Call::DrainShifted
        | Call::SetRange
        | Call::NegateRange
        | Call::Slice
        | Call::ShiftUp
        | Call::Reverse
        | Call::Rotate
        | Call::InsertRemove
        | Call::ToBytes => unsafe { vob_bench_whole(name, name_len, bytes, len, rounds) },
        Call::And
        | Call::Or
        | Call::Xor
        | Call::AndNot
        | Call::OrDropped
        | Call::AndNotDropped
        | Call::Equal
        | Call::Order
        | Call::Minus
        | Call::Intersection
        | Call::ExtendAligned
        | Call::ExtendShifted
        | Call::Filter
        | Call::Subset
        | Call::Superset
        | Call::Disjoint
        | Call::CountAnd
        | Call::CountOr
        | Call::CountAndNot
        | Call::CountXor
        | Call::CopyRange => unsafe {
            vob_bench_pair(name, name_len, bytes, len, others, other_len, rounds)
        },
        Call::Closure => unsafe { vob_bench_closure(bytes, len, input.row_bytes, rounds) },
        Call::Matrix => unsafe { vob_bench_matrix(indices, count, bit_count, rounds) },
        Call::Lists => unsafe { vob_bench_lists(indices, count, bit_count, rounds) },
        Call::Live => unsafe { vob_bench_live(indices, count, bit_count, rounds) },
        Call::Available => unsafe { vob_bench_available(indices, count, bit_count, rounds) },
        Call::Transpose => unsafe { vob_bench_transpose(bytes, len, input.row_bytes, rounds) },
        Call::Slots => unsafe { vob_bench_slots(indices, count, bit_count, rounds) },
        Call::Arena => unsafe { vob_bench_arena(bit_count, rounds) },
        Call::Columns => unsafe { vob_bench_columns(bytes, len, others, other_len, rounds) },
        _ => unsafe { vob_bench_walk(name, name_len, bytes, len, rounds) },
    }
}

/// Runs `and`, `or` or `xor` on Vobs of `u64`, whose kernels have no lanes.
pub fn plain(call: Call, input: &Input, rounds: usize) -> u64 {
    let name = format!("{call:?}");
    let (bytes, others) = (&input.bytes, &input.others);
    let (first, second) = (bytes.as_ptr(), others.as_ptr());
    unsafe {
        vob_bench_plain(name.as_ptr(), name.len(), first, bytes.len(), second, others.len(), rounds)
    }
}

pub fn plain_offer(call: Call) -> Offer {
    match call {
        Call::And | Call::Or | Call::Xor => Offer::Ours,
        _ => Offer::None,
    }
}

/// The libraries of the C++ twin, by its numbers.
#[derive(Clone, Copy)]
#[repr(u32)]
pub enum Twin {
    Boost,
    VectorBool,
}

#[repr(C)]
struct TwinInput {
    bits: *const bool,
    bit_count: usize,
    bytes: *const u8,
    byte_count: usize,
    others: *const u8,
    other_count: usize,
    indices: *const usize,
    index_count: usize,
    row_bytes: usize,
}

#[link(name = "twin", kind = "static")]
extern "C" {
    fn twin_run(library: u32, call: u32, input: *const TwinInput, rounds: usize) -> u64;
    fn twin_compiler() -> *const c_char;
}

#[link(name = "stdc++")]
extern "C" {}

pub fn twin(library: Twin, call: Call, input: &Input, rounds: usize) -> u64 {
    let given = TwinInput {
        bits: input.bits.as_ptr(),
        bit_count: input.bits.len(),
        bytes: input.bytes.as_ptr(),
        byte_count: input.bytes.len(),
        others: input.others.as_ptr(),
        other_count: input.others.len(),
        indices: input.indices.as_ptr(),
        index_count: input.indices.len(),
        row_bytes: input.row_bytes,
    };
    // The twin's calls answer nothing.
    let call = match call {
        Call::OrDropped => Call::Or,
        Call::AndNotDropped => Call::AndNot,
        call => call,
    };
    unsafe { twin_run(library as u32, call as u32, &given, rounds) }
}

/// The C++ compiler, as it names itself.
pub fn twin_compiler_name() -> String {
    let name = unsafe { std::ffi::CStr::from_ptr(twin_compiler()) };
    name.to_string_lossy().into_owned()
}

const NO_FLAG: Offer = Offer::Less("no flag");
const NO_TEST: Offer = Offer::Less("no test of the index");

pub fn twin_offer(library: Twin, call: Call) -> Offer {
    match (library, call) {
        (_, Call::Get | Call::Flip) => NO_TEST,
        (Twin::Boost, Call::Set) => Offer::Less("no test of the index"),
        (Twin::VectorBool, Call::Set) => Offer::Less("no flag, no test of the index"),
        (Twin::Boost, Call::Iterate) => Offer::Less("by index, no test of it"),
        (Twin::Boost, Call::And | Call::Or | Call::Xor | Call::AndNot | Call::Closure) => NO_FLAG,
        (Twin::Boost, Call::CountAnd | Call::CountOr | Call::CountAndNot | Call::CountXor) => {
            Offer::Other("count of a new one")
        }
        (Twin::Boost, Call::Superset) => Offer::Other("is_subset_of, turned round"),
        (Twin::Boost, Call::SetRange) => NO_FLAG,
        (Twin::Boost, Call::Order) => Offer::Other("the order of numbers"),
        (Twin::Boost, Call::NegateRange) => Offer::Other("flip of a range"),
        (Twin::Boost, Call::NextSet) => Offer::Other("find_first, then find_next"),
        (Twin::Boost, Call::FirstSet) => Offer::Other("find_first"),
        (Twin::Boost, Call::ExtendAligned | Call::ExtendShifted) => {
            Offer::Other("append of blocks")
        }
        (
            Twin::Boost,
            Call::Push
            | Call::Resize
            | Call::SetAll
            | Call::Negate
            | Call::Clone
            | Call::Equal
            | Call::OrDropped
            | Call::AndNotDropped
            | Call::Subset
            | Call::Disjoint
            | Call::Any
            | Call::All
            | Call::SetBits
            | Call::Minus
            | Call::ShiftUp
            | Call::Count,
        ) => Offer::Same,
        (Twin::VectorBool, Call::ExtendFromSlice | Call::ExtendAligned | Call::ExtendShifted) => {
            Offer::Other("insert")
        }
        (Twin::VectorBool, Call::SetAll) => Offer::Other("std::fill"),
        (Twin::VectorBool, Call::SetRange) => NO_FLAG,
        (Twin::VectorBool, Call::CopyRange) => Offer::Other("std::copy"),
        (Twin::VectorBool, Call::SplitOff | Call::Slice) => Offer::Other("a copy of the range"),
        (Twin::VectorBool, Call::Reverse) => Offer::Other("std::reverse"),
        (Twin::VectorBool, Call::Rotate) => Offer::Other("std::rotate"),
        (Twin::VectorBool, Call::DrainAligned | Call::DrainShifted) => {
            Offer::Other("a copy of the range, and erase")
        }
        (
            Twin::VectorBool,
            Call::Push
            | Call::FromSlice
            | Call::Iterate
            | Call::Resize
            | Call::Negate
            | Call::Clone
            | Call::Equal
            | Call::Order
            | Call::InsertRemove,
        ) => Offer::Same,
        (Twin::VectorBool, Call::Hash) => Offer::Less("another hash function"),
        _ => Offer::None,
    }
}
