//! The workloads over a peer: the same as those of the crate `vob_bench`.

use crate::bits::{Bits, End};
use crate::input::Input;
use crate::programs::{arena, available, closure, condition, filter, free_list, live, matrix, transpose};
use crate::rows::{Call, INDICES};

/// A digest looks at every bit of so many, and at every second, third .. one of more.
const MOST: usize = 0x10_0000;

fn digest<B: Bits>(bits: &B) -> u64 {
    let len = bits.len();
    let mut sum = len as u64;
    let stride = len / (MOST + 1) + 1;
    for sample in 0..len / stride {
        let bit = bits.get(sample * stride);
        sum = sum.wrapping_mul(31).wrapping_add(bit as u64);
    }
    sum % 0x1_0000_0000
}

pub fn checksum<B: Bits>(bits: &B, times: u64) -> u64 {
    times.wrapping_mul(0x1_0000_0000).wrapping_add(digest(bits))
}

pub fn checksum_all<B: Bits>(all: &[B], times: u64) -> u64 {
    let mut sum = 0u64;
    for bits in all {
        sum = sum.wrapping_mul(31).wrapping_add(digest(bits));
    }
    times
        .wrapping_mul(0x1_0000_0000)
        .wrapping_add(sum % 0x1_0000_0000)
}

pub fn sample<B: Bits>(bits: &B, round: usize) -> u64 {
    bits.get(round % bits.len()) as u64
}

pub fn touch<B: Bits>(bits: &mut B, round: usize) {
    let index = round % bits.len();
    bits.set(index, true);
}

fn clear<B: Bits>(bits: &mut B, round: usize) {
    let index = round % bits.len();
    bits.set(index, false);
}

fn flip<B: Bits>(bits: &mut B, round: usize) {
    let index = round / 2 % bits.len();
    bits.set(index, round % 2 == 0);
}

/// Rounds that make a new vector each.
fn made<B: Bits>(rounds: usize, make: impl Fn() -> B) -> u64 {
    let mut times = 0;
    let mut last = B::from_bytes(&[]);
    for round in 0..rounds {
        last = make();
        times += sample(&last, round);
    }
    checksum(&last, times)
}

/// Rounds that change one vector, of which each is asked for a bit behind the change.
fn changed<B: Bits>(input: &Input, rounds: usize, change: impl Fn(&mut B, usize)) -> u64 {
    let mut times = 0;
    let mut bits = B::from_bytes(&input.bytes);
    for round in 0..rounds {
        change(&mut bits, round);
        times += sample(&bits, round);
    }
    checksum(&bits, times)
}

/// Rounds that look at one vector, which changes a little before each.
fn seen<B: Bits>(input: &Input, rounds: usize, mut look: impl FnMut(&B, usize) -> u64) -> u64 {
    let mut times = 0u64;
    let mut bits = B::from_bytes(&input.bytes);
    for round in 0..rounds {
        touch(&mut bits, round);
        times = times.wrapping_add(look(&bits, round));
    }
    checksum(&bits, times)
}

/// The same, where the bit that changes changes back.
fn walked<B: Bits>(input: &Input, rounds: usize, mut look: impl FnMut(&B) -> u64) -> u64 {
    let mut times = 0u64;
    let mut bits = B::from_bytes(&input.bytes);
    for round in 0..rounds {
        flip(&mut bits, round);
        times = times.wrapping_add(look(&bits));
    }
    checksum(&bits, times)
}

/// Rounds that take a second vector into a first one, and count the answers.
fn taken<B: Bits>(input: &Input, rounds: usize, take: impl Fn(&mut B, &B) -> bool) -> u64 {
    let mut times = 0;
    let mut bits = B::from_bytes(&input.bytes);
    let other = B::from_bytes(&input.others);
    for _ in 0..rounds {
        times += take(&mut bits, &other) as u64;
    }
    checksum(&bits, times)
}

/// The same, with no look at the answer.
fn dropped<B: Bits>(input: &Input, rounds: usize, take: impl Fn(&mut B, &B) -> bool) -> u64 {
    let mut bits = B::from_bytes(&input.bytes);
    let other = B::from_bytes(&input.others);
    for _ in 0..rounds {
        take(&mut bits, &other);
    }
    checksum(&bits, 0)
}

fn joined<B: Bits>(input: &Input, at: usize, rounds: usize) -> u64 {
    let other = B::from_bytes(&input.others);
    changed(input, rounds, |bits: &mut B, _| {
        bits.truncate(at);
        bits.join(&other);
    })
}

/// So many bits from place `from` of a block in the middle drained, and joined again behind.
fn drained<B: Bits>(input: &Input, from: usize, count: usize, rounds: usize) -> u64 {
    let start = 8 * input.bytes.len() / 128 * 64 + from;
    changed(input, rounds, |bits: &mut B, _| {
        let part = bits.drain(start, start + count);
        bits.join(&part);
    })
}

fn equal<B: Bits>(input: &Input, rounds: usize) -> u64 {
    let mut times = 0;
    let mut bits = B::from_bytes(&input.bytes);
    let mut other = B::from_bytes(&input.bytes);
    for round in 0..rounds {
        touch(&mut bits, round);
        touch(&mut other, round);
        times += bits.same(&other) as u64;
    }
    checksum(&bits, times)
}

fn before<B: Bits>(input: &Input, rounds: usize) -> u64 {
    let mut times = 0;
    let mut bits = B::from_bytes(&input.bytes);
    let mut other = B::from_bytes(&input.bytes);
    for round in 0..rounds {
        touch(&mut bits, round);
        touch(&mut other, round);
        times += bits.before(&other) as u64;
    }
    checksum(&bits, times)
}

fn subset<B: Bits>(input: &Input, rounds: usize) -> u64 {
    let mut times = 0;
    let mut bits = B::from_bytes(&input.bytes);
    let mut other = B::from_bytes(&input.others);
    other.or(&bits);
    for round in 0..rounds {
        touch(&mut bits, round);
        touch(&mut other, round);
        times += bits.subset(&other) as u64;
    }
    checksum(&bits, times)
}

fn superset<B: Bits>(input: &Input, rounds: usize) -> u64 {
    let mut times = 0;
    let mut bits = B::from_bytes(&input.bytes);
    let mut other = B::from_bytes(&input.others);
    bits.or(&other);
    for round in 0..rounds {
        touch(&mut bits, round);
        touch(&mut other, round);
        times += bits.superset(&other) as u64;
    }
    checksum(&bits, times)
}

fn disjoint<B: Bits>(input: &Input, rounds: usize) -> u64 {
    let mut times = 0;
    let mut bits = B::from_bytes(&input.bytes);
    let mut other = B::from_bytes(&input.others);
    other.and_not(&bits);
    for round in 0..rounds {
        touch(&mut bits, round);
        clear(&mut other, round);
        times += bits.disjoint(&other) as u64;
    }
    checksum(&bits, times)
}

/// Rounds that look for a set bit where there is none.
fn missed<B: Bits>(input: &Input, rounds: usize, none: impl Fn(&B) -> bool) -> u64 {
    let mut times = 0;
    let mut bits = B::from_bytes(&input.bytes);
    for round in 0..rounds {
        clear(&mut bits, round);
        times += none(&bits) as u64;
    }
    checksum(&bits, times)
}

fn count_both<B: Bits>(input: &Input, rounds: usize, count: impl Fn(&B, &B) -> u64) -> u64 {
    let other = B::from_bytes(&input.others);
    seen(input, rounds, |bits: &B, _| count(bits, &other))
}

/// The last round's bytes, of which each round looks at one.
fn bytes_of<B: Bits>(input: &Input, rounds: usize) -> u64 {
    seen(input, rounds, |bits: &B, round| {
        bits.to_bytes()[round % bits.len() / 8] as u64
    })
}

fn run_sum<B: Bits>(bits: &B) -> u64 {
    let mut sum = 0u64;
    let mut from = 0;
    while let Some(start) = bits.first_set_at(from) {
        from = bits.first_unset_at(start).unwrap_or(bits.len());
        sum = sum.wrapping_add(start as u64).wrapping_add(from as u64);
    }
    sum
}

fn selected<B: Bits>(input: &Input, rounds: usize) -> u64 {
    let k = B::from_bytes(&input.bytes).counted() as usize / 2;
    seen(input, rounds, |bits: &B, _| {
        bits.select(k).unwrap_or(0) as u64
    })
}

fn dealt<B: Bits>(input: &Input, rounds: usize) -> u64 {
    let pulls: Vec<End> = (0..INDICES)
        .map(|pull| if pull % 2 == 0 { End::Front } else { End::Back })
        .collect();
    let mut answers = Vec::new();
    walked(input, rounds, |bits: &B| {
        answers.clear();
        bits.deal(&pulls, &mut answers);
        answers.iter().flatten().map(|index| *index as u64).sum()
    })
}

fn next_bits<B: Bits>(bits: &B) -> u64 {
    let mut sum = 0u64;
    let mut from = 0;
    while let Some(index) = bits.next_set(from) {
        sum = sum.wrapping_add(index as u64);
        from = index + 1;
    }
    sum
}

fn previous_bits<B: Bits>(bits: &B) -> u64 {
    let mut sum = 0u64;
    let mut below = bits.len();
    while let Some(index) = bits.previous_set(below) {
        sum = sum.wrapping_add(index as u64);
        below = index;
    }
    sum
}

fn next_unset_bits<B: Bits>(bits: &B) -> u64 {
    let mut sum = 0u64;
    let mut from = 0;
    while let Some(index) = bits.next_unset(from) {
        sum = sum.wrapping_add(index as u64);
        from = index + 1;
    }
    sum
}

fn previous_unset_bits<B: Bits>(bits: &B) -> u64 {
    let mut sum = 0u64;
    let mut below = bits.len();
    while let Some(index) = bits.previous_unset(below) {
        sum = sum.wrapping_add(index as u64);
        below = index;
    }
    sum
}

fn true_at<B: Bits>(bits: &B, indices: &[usize]) -> u64 {
    indices.iter().map(|index| bits.get(*index) as u64).sum()
}

fn write_at<B: Bits>(input: &Input, rounds: usize) -> u64 {
    let mut times = 0u64;
    let mut bits = B::from_bytes(&input.bytes);
    for round in 0..rounds {
        let turn = round % 2;
        for index in &input.indices {
            times += bits.set(*index, *index % 2 == turn) as u64;
        }
    }
    checksum(&bits, times)
}

fn hashed<B: Bits>(input: &Input, rounds: usize) -> u64 {
    let mut last = 0;
    seen(input, rounds, |bits: &B, _| {
        let now = bits.hashed();
        let same = now == last;
        last = now;
        same as u64
    })
}

pub fn run<B: Bits>(call: Call, input: &Input, rounds: usize) -> u64 {
    match call {
        Call::Push => made(rounds, || B::pushed(&input.bits)),
        Call::FromSlice => made(rounds, || B::from_slice(&input.bits)),
        Call::FromBytes => made(rounds, || B::from_bytes(&input.bytes)),
        Call::ExtendFromSlice => changed(input, rounds, |bits: &mut B, _| {
            bits.truncate(13);
            bits.extend_from_slice(&input.bits);
        }),
        Call::Get => seen(input, rounds, |bits: &B, _| true_at(bits, &input.indices)),
        Call::Set => write_at::<B>(input, rounds),
        Call::Iterate => seen(input, rounds, |bits: &B, _| bits.walked()),
        Call::Resize => changed(input, rounds, |bits: &mut B, _| {
            bits.truncate(13);
            bits.resize(8 * input.bytes.len(), true);
        }),
        Call::SetAll => changed(input, rounds, |bits: &mut B, round| {
            bits.set_all(round % 2 == 1)
        }),
        Call::Negate => changed(input, rounds, |bits: &mut B, _| bits.negate()),
        Call::SetRange => changed(input, rounds, |bits: &mut B, round| {
            bits.set_range(13, 8 * input.bytes.len() - 29, round % 2 == 1)
        }),
        Call::NegateRange => changed(input, rounds, |bits: &mut B, _| {
            bits.negate_range(13, 8 * input.bytes.len() - 29)
        }),
        Call::CopyRange => {
            let other = B::from_bytes(&input.others);
            changed(input, rounds, |bits: &mut B, _| {
                bits.copy_range(29, &other, 13, 8 * input.bytes.len() - 64)
            })
        }
        Call::ToBytes => bytes_of::<B>(input, rounds),
        Call::FromIndices => made(rounds, || {
            B::from_indices(8 * input.bytes.len(), &input.indices)
        }),
        Call::Clone => seen(input, rounds, |bits: &B, round| {
            sample(&bits.copied(), round)
        }),
        Call::Hash => hashed::<B>(input, rounds),
        Call::SplitOff => changed(input, rounds, |bits: &mut B, _| *bits = bits.split_off(13)),
        Call::DrainAligned => drained::<B>(input, 0, 64, rounds),
        Call::DrainShifted => drained::<B>(input, 13, 29, rounds),
        Call::And => taken(input, rounds, B::and),
        Call::Or => taken(input, rounds, B::or),
        Call::Xor => taken(input, rounds, B::xor),
        Call::AndNot => taken(input, rounds, B::and_not),
        Call::OrDropped => dropped(input, rounds, B::or),
        Call::AndNotDropped => dropped(input, rounds, B::and_not),
        Call::Subset => subset::<B>(input, rounds),
        Call::Superset => superset::<B>(input, rounds),
        Call::Disjoint => disjoint::<B>(input, rounds),
        Call::CountAnd => count_both(input, rounds, B::count_and),
        Call::CountOr => count_both(input, rounds, B::count_or),
        Call::CountAndNot => count_both(input, rounds, B::count_and_not),
        Call::CountXor => count_both(input, rounds, B::count_xor),
        Call::Any => missed(input, rounds, |bits: &B| !bits.any()),
        Call::FirstSet => missed(input, rounds, |bits: &B| bits.first_set().is_none()),
        Call::LastSet => missed(input, rounds, |bits: &B| bits.last_set().is_none()),
        Call::LastUnset => seen(input, rounds, |bits: &B, _| {
            bits.last_unset().is_none() as u64
        }),
        Call::All => seen(input, rounds, |bits: &B, _| bits.all() as u64),
        Call::Equal => equal::<B>(input, rounds),
        Call::Order => before::<B>(input, rounds),
        Call::Intersection => {
            let other = B::from_bytes(&input.others);
            walked(input, rounds, |bits: &B| bits.both(&other))
        }
        Call::Minus => {
            let other = B::from_bytes(&input.others);
            seen(input, rounds, |bits: &B, round| {
                sample(&bits.minus(&other), round)
            })
        }
        Call::Slice => seen(input, rounds, |bits: &B, round| {
            sample(&bits.slice(13, 8 * input.bytes.len() - 29), round)
        }),
        Call::Flip => changed(input, rounds, |bits: &mut B, _| {
            for index in &input.indices {
                bits.flip(*index);
            }
        }),
        Call::GrowAndSet => made(rounds, || B::grown(&input.indices)),
        Call::ShiftUp => changed(input, rounds, |bits: &mut B, _| bits.shift_up(13)),
        Call::Reverse => changed(input, rounds, |bits: &mut B, _| bits.reverse()),
        Call::Rotate => changed(input, rounds, |bits: &mut B, _| bits.rotate_left(13)),
        Call::InsertRemove => changed(input, rounds, |bits: &mut B, round| {
            bits.insert_and_remove(13, round % 2 == 1)
        }),
        Call::ExtendAligned => joined::<B>(input, 64, rounds),
        Call::ExtendShifted => joined::<B>(input, 64 + 13, rounds),
        Call::Closure => closure::<B>(input, rounds),
        Call::Matrix | Call::Lists => matrix::<B>(input, rounds),
        Call::Filter => filter::<B>(input, rounds),
        Call::Live => live::<B>(input, rounds),
        Call::Available => available::<B>(input, rounds),
        Call::Transpose => transpose::<B>(input, rounds),
        Call::Slots => free_list(input, rounds),
        Call::Arena => arena(input, rounds),
        Call::Columns => condition(input, rounds),
        Call::SetBits => walked(input, rounds, B::set_bits),
        Call::SetBitsBack => walked(input, rounds, B::set_bits_back),
        Call::UnsetBits => walked(input, rounds, B::unset_bits),
        Call::SetBitsBetween => walked(input, rounds, |bits: &B| {
            bits.set_bits_between(13, 8 * input.bytes.len() - 29)
        }),
        Call::UnsetBitsBack => walked(input, rounds, B::unset_bits_back),
        Call::Deal => dealt::<B>(input, rounds),
        Call::NextSet => walked(input, rounds, next_bits::<B>),
        Call::PreviousSet => walked(input, rounds, previous_bits::<B>),
        Call::NextUnset => walked(input, rounds, next_unset_bits::<B>),
        Call::PreviousUnset => walked(input, rounds, previous_unset_bits::<B>),
        Call::Rank => seen(input, rounds, |bits: &B, _| {
            bits.rank(8 * input.bytes.len() / 2 + 13)
        }),
        Call::Runs => walked(input, rounds, run_sum::<B>),
        Call::Select => selected::<B>(input, rounds),
        Call::Count => walked(input, rounds, B::counted),
        Call::FirstFree => seen(input, rounds, |bits: &B, _| bits.first_unset()),
    }
}

/// Whether a checksum counts answers that not every library gives.
pub fn counts_changes(call: Call) -> bool {
    matches!(
        call,
        Call::Set | Call::And | Call::Or | Call::Xor | Call::AndNot | Call::Closure
    )
}
