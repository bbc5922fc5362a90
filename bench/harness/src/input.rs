//! What a row works on: the same for every library, from a fixed seed.

#[derive(Clone, Copy, PartialEq, Eq)]
pub enum Shape {
    Plain,
    /// So many indices below the number of bits.
    Indices(usize),
    /// A square matrix of 1000 nodes, of which each leads to two others.
    Matrix,
    /// Of the bits about so many in 65536 true.
    Density(u32),
    /// All bits true but the last.
    FreeAtTheEnd,
    /// A flow graph over as many variables as bits.
    Flow,
    /// So many steps from each of as many nodes as bits: from which node, and to which.
    Steps(usize),
}

pub struct Input {
    pub bits: Vec<bool>,
    /// The bits in bytes, the most significant bit of each first.
    pub bytes: Vec<u8>,
    pub others: Vec<u8>,
    pub indices: Vec<usize>,
    /// Bytes a row, for a matrix.
    pub row_bytes: usize,
}

/// Numbers that look random: splitmix64.
struct Numbers(u64);

impl Numbers {
    fn next(&mut self) -> u64 {
        self.0 = self.0.wrapping_add(0x9e37_79b9_7f4a_7c15);
        let mut z = self.0;
        z = (z ^ (z >> 30)).wrapping_mul(0xbf58_476d_1ce4_e5b9);
        z = (z ^ (z >> 27)).wrapping_mul(0x94d0_49bb_1331_11eb);
        z ^ (z >> 31)
    }

    fn below(&mut self, bound: usize) -> usize {
        (self.next() % bound as u64) as usize
    }

    fn bytes(&mut self, count: usize) -> Vec<u8> {
        (0..count).map(|_| (self.next() >> 24) as u8).collect()
    }

    /// A byte of which each bit is true so many times in 65536.
    fn sparse(&mut self, set: u32) -> u8 {
        let bit = |numbers: &mut Numbers| (numbers.next() as u16 as u32) < set;
        (0..8).fold(0, |byte, _| byte << 1 | bit(self) as u8)
    }
}

const NODES: usize = 1000;

const FLOW_NODES: usize = 10_000;

/// Straight code of which one node in eight branches, at most 64 nodes on or back: of each node what it
/// reads, what it writes, and two nodes that may come next.
fn flow(numbers: &mut Numbers, vars: usize) -> Vec<usize> {
    let mut graph = Vec::new();
    for node in 0..FLOW_NODES {
        let next = (node + 1).min(FLOW_NODES - 1);
        let branch = match numbers.below(8) {
            0 => (node + numbers.below(129))
                .saturating_sub(64)
                .min(FLOW_NODES - 1),
            _ => next,
        };
        graph.extend([numbers.below(vars), numbers.below(vars), next, branch]);
    }
    graph
}

impl Input {
    pub fn new(bits: usize, shape: Shape) -> Input {
        let mut numbers = Numbers(bits as u64);
        let mut bytes = numbers.bytes(bits / 8);
        if shape == Shape::Matrix {
            bytes.fill(0);
            for edge in 0..2 * NODES {
                let to = numbers.below(NODES);
                bytes[edge / 2 * (NODES / 8) + to / 8] |= 0x80 >> (to % 8);
            }
        }
        match shape {
            Shape::Density(set) => bytes.fill_with(|| numbers.sparse(set)),
            Shape::FreeAtTheEnd => {
                bytes.fill(0xff);
                bytes[bits / 8 - 1] = 0xfe;
            }
            _ => {}
        }
        let others = numbers.bytes(bits / 8);
        let indices = match shape {
            Shape::Indices(count) => (0..count).map(|_| numbers.below(bits)).collect(),
            Shape::Flow => flow(&mut numbers, bits),
            Shape::Steps(each) => (0..each * bits)
                .flat_map(|step| [step / each, numbers.below(bits)])
                .collect(),
            _ => Vec::new(),
        };
        let bits = bytes
            .iter()
            .flat_map(|byte| (0..8).map(move |j| byte & (0x80 >> j) != 0))
            .collect();
        Input {
            bits,
            bytes,
            others,
            indices,
            row_bytes: NODES / 8,
        }
    }
}
