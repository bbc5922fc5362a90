//! The workloads that are programs: a closure by rows, a filter, a bit matrix, liveness; a list of free
//! slots, and a condition on three columns, which work on no vectors of bits.

use crate::bits::Bits;
use crate::input::Input;
use crate::work::{checksum, checksum_all, sample, touch};

fn close<B: Bits>(rows: &mut [B]) -> u64 {
    let mut times = 0;
    for k in 0..rows.len() {
        let through = rows[k].copied();
        for row in rows.iter_mut() {
            if row.get(k) && row.or(&through) {
                times += 1;
            }
        }
    }
    times
}

pub fn closure<B: Bits>(input: &Input, rounds: usize) -> u64 {
    let mut times = 0;
    let mut last = Vec::new();
    let rows: Vec<B> = input
        .bytes
        .chunks(input.row_bytes)
        .map(B::from_bytes)
        .collect();
    for _ in 0..rounds {
        let mut closed: Vec<B> = rows.iter().map(B::copied).collect();
        times += close(&mut closed);
        last = closed;
    }
    checksum_all(&last, times)
}

/// The rows that two columns keep and a third doesn't, as `vob_filter::rows` selects and counts them.
pub fn filter<B: Bits>(input: &Input, rounds: usize) -> u64 {
    let mut times = 0;
    let mut first = B::from_bytes(&input.bytes);
    let second = B::from_bytes(&input.others);
    let mut without = second.copied();
    without.xor(&first);
    for round in 0..rounds {
        touch(&mut first, round);
        times += B::kept(&first, &second, &without).counted();
    }
    checksum(&first, times)
}

/// Adds row `from` to row `into`, as `vob_matrix::matrix` does.
fn or_row<B: Bits>(rows: &mut [B], into: usize, from: usize) {
    if into < from {
        let (low, high) = rows.split_at_mut(from);
        low[into].or(&high[0]);
    } else if from < into {
        let (low, high) = rows.split_at_mut(into);
        high[0].or(&low[from]);
    }
}

pub fn matrix<B: Bits>(input: &Input, rounds: usize) -> u64 {
    let nodes = input.bits.len();
    let mut times = 0;
    let mut last = Vec::new();
    for round in 0..rounds {
        let none = B::from_bytes(&vec![0; nodes / 8]);
        let mut rows: Vec<B> = (0..nodes).map(|_| none.copied()).collect();
        for step in input.indices.chunks(2) {
            rows[step[0]].set(step[1], true);
        }
        for through in 0..nodes {
            for row in 0..nodes {
                if rows[row].get(through) {
                    or_row(&mut rows, row, through);
                }
            }
        }
        times += sample(&rows[round % nodes], round);
        last = rows;
    }
    checksum_all(&last, times)
}

/// A node of a flow graph, in lists of its own as `vob_flow::live` takes it.
struct Flow {
    reads: Vec<usize>,
    writes: Vec<usize>,
    next: Vec<usize>,
}

/// One pass over the nodes of a flow graph: what is available at the end of a node is what it reads, and
/// what is at the ends of all nodes before it and isn't what it writes.
fn forward<B: Bits>(nodes: &[Flow], reads: &[B], ends: &mut [B], scratch: &mut B) -> bool {
    let mut changed = false;
    for node in 0..nodes.len() {
        if nodes[node].next.is_empty() {
            continue;
        }
        scratch.set_all(true);
        for before in &nodes[node].next {
            scratch.and(&ends[*before]);
        }
        for variable in &nodes[node].writes {
            scratch.set(*variable, false);
        }
        scratch.or(&reads[node]);
        changed |= ends[node].and_shrinks(scratch);
    }
    changed
}

/// One pass over the nodes of a flow graph, the last one first, as `vob_flow::live` makes it.
fn pass<B: Bits>(nodes: &[Flow], possible: &[B], before: &mut [B], after: &mut [B]) -> bool {
    let mut changed = false;
    for node in (0..nodes.len()).rev() {
        let mut grew = false;
        for next in &nodes[node].next {
            grew |= after[node].or_grows(&before[*next]);
        }
        if grew {
            changed |= before[node].or_grows(&after[node]);
            before[node].and(&possible[node]);
        }
    }
    changed
}

pub fn live<B: Bits>(input: &Input, rounds: usize) -> u64 {
    let flow_of = |numbers: &[usize]| Flow {
        reads: numbers[..1].to_vec(),
        writes: numbers[1..2].to_vec(),
        next: numbers[2..].to_vec(),
    };
    let nodes: Vec<Flow> = input.indices.chunks(4).map(flow_of).collect();
    let vars = input.bits.len();
    let mut times = 0;
    let mut last = Vec::new();
    for _ in 0..rounds {
        let none = B::from_bytes(&vec![0; vars / 8]);
        let set_of = |variables: &[usize]| {
            let mut set = none.copied();
            for variable in variables {
                set.set(*variable, true);
            }
            set
        };
        let possible_at = |node: &Flow| {
            let mut set = set_of(&node.writes);
            set.negate();
            for variable in &node.reads {
                set.set(*variable, true);
            }
            set
        };
        let possible: Vec<B> = nodes.iter().map(possible_at).collect();
        let mut before: Vec<B> = nodes.iter().map(|node| set_of(&node.reads)).collect();
        let mut after: Vec<B> = nodes.iter().map(|_| none.copied()).collect();
        while pass(&nodes, &possible, &mut before, &mut after) {}
        times += 1;
        last = before;
    }
    checksum_all(&last, times)
}

/// Which expressions are available at the ends of the nodes of a flow graph, by passes over all nodes. The
/// lists of nodes that may come next are turned into those of nodes that come before.
pub fn available<B: Bits>(input: &Input, rounds: usize) -> u64 {
    let mut nodes: Vec<Flow> = input
        .indices
        .chunks(4)
        .map(|numbers| Flow {
            reads: numbers[..1].to_vec(),
            writes: numbers[1..2].to_vec(),
            next: Vec::new(),
        })
        .collect();
    for (node, numbers) in input.indices.chunks(4).enumerate() {
        for next in &numbers[2..] {
            nodes[*next].next.push(node);
        }
    }
    let mut times = 0;
    let mut last = Vec::new();
    for _ in 0..rounds {
        let none = B::from_bytes(&vec![0; input.bits.len() / 8]);
        let set_of = |variables: &[usize]| {
            let mut set = none.copied();
            for variable in variables {
                set.set(*variable, true);
            }
            set
        };
        let reads: Vec<B> = nodes.iter().map(|node| set_of(&node.reads)).collect();
        let end_of = |(node, reads): (&Flow, &B)| {
            let mut set = reads.copied();
            if !node.next.is_empty() {
                set.set_all(true);
            }
            set
        };
        let mut ends: Vec<B> = nodes.iter().zip(&reads).map(end_of).collect();
        let mut scratch = none.copied();
        while forward(&nodes, &reads, &mut ends, &mut scratch) {}
        times += 1;
        last = ends;
    }
    checksum_all(&last, times)
}

/// The transposes of a matrix, by a walk over the set bits of each row.
pub fn transpose<B: Bits>(input: &Input, rounds: usize) -> u64 {
    let rows: Vec<B> = input
        .bytes
        .chunks(input.row_bytes)
        .map(B::from_bytes)
        .collect();
    let blank = B::from_bytes(&vec![0; rows.len() / 8]);
    let mut times = 0;
    let mut last = Vec::new();
    for round in 0..rounds {
        let mut turned: Vec<B> = (0..8 * input.row_bytes).map(|_| blank.copied()).collect();
        for (row, bits) in rows.iter().enumerate() {
            bits.each_set_bit(|column| {
                turned[column].set(row, true);
            });
        }
        times += turned[0].get(round) as u64;
        last = turned;
    }
    checksum_all(&last, times)
}

/// Slots that are taken from a list of free ones and given back, as `vob_bench::slots` does it.
pub fn free_list(input: &Input, rounds: usize) -> u64 {
    let mut times = 0u64;
    let mut held = Vec::new();
    for _ in 0..rounds {
        let mut free: Vec<usize> = (0..input.bits.len()).rev().collect();
        held.clear();
        for number in &input.indices {
            if number % 8 < 5 {
                if let Some(slot) = free.pop() {
                    held.push(slot);
                    times += 1;
                }
            } else if !held.is_empty() {
                let slot = held.swap_remove(number / 8 % held.len());
                free.push(slot);
            }
        }
    }
    (times << 32).wrapping_add(held.len() as u64)
}

/// An arena of slab's that is full: its first and last slot are given back, and two taken, a round.
pub fn arena(input: &Input, rounds: usize) -> u64 {
    let count = input.bits.len();
    let mut slots = slab::Slab::with_capacity(count);
    for _ in 0..count {
        slots.insert(());
    }
    let mut sum = 0u64;
    for _ in 0..rounds {
        slots.remove(0);
        slots.remove(count - 1);
        sum = sum.wrapping_add(slots.insert(()) as u64);
        sum = sum.wrapping_add(slots.insert(()) as u64);
    }
    sum
}

fn and(first: Option<bool>, second: Option<bool>) -> Option<bool> {
    match (first, second) {
        (Some(false), _) | (_, Some(false)) => Some(false),
        (Some(true), Some(true)) => Some(true),
        _ => None,
    }
}

fn or(first: Option<bool>, second: Option<bool>) -> Option<bool> {
    match (first, second) {
        (Some(true), _) | (_, Some(true)) => Some(true),
        (Some(false), Some(false)) => Some(false),
        _ => None,
    }
}

/// How many rows meet a condition on three columns, as `vob_bench::columns` counts them.
pub fn condition(input: &Input, rounds: usize) -> u64 {
    let others = input
        .others
        .iter()
        .flat_map(|byte| (0..8).map(move |j| byte & (0x80 >> j) != 0));
    let [mut first, mut second, mut third] = [(); 3].map(|_| Vec::new());
    for (one, two) in input.bits.iter().zip(others) {
        let three = *one != two;
        first.push(one.then_some(two));
        second.push(two.then_some(three));
        third.push(three.then_some(*one));
    }
    let mut times = 0u64;
    for _ in 0..rounds {
        let columns = std::hint::black_box((&first, &second, &third));
        for row in 0..first.len() {
            let not = columns.2[row].map(|value| !value);
            let truth = or(and(columns.0[row], columns.1[row]), not);
            times += (truth == Some(true)) as u64;
        }
    }
    (times << 32).wrapping_add(first.len() as u64)
}
