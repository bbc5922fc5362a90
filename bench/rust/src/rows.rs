//! The rows: a call of ours, and what does as much with a peer.

use bit_vec::BitVec;
use conthiral::Vob;
use fixedbitset::FixedBitSet;

/// A work returns a number that every library must agree on.
pub type Work = Box<dyn FnMut() -> usize>;

/// Makes what a work needs.
pub type Make = Box<dyn Fn() -> Work>;

pub struct Row {
    pub name: String,
    /// What our time over a peer's should be at most.
    pub goal: f64,
    /// Ours is the first.
    pub makes: Vec<(&'static str, Make)>,
}

impl Row {
    /// Returns the work of each library. Panics unless all come to the same.
    pub fn works(&self) -> Vec<(&'static str, Work)> {
        let mut works: Vec<_> = self.makes.iter().map(|(library, make)| (*library, make())).collect();
        let numbers: Vec<_> = works.iter_mut().map(|(_, work)| work()).collect();
        assert!(numbers.iter().all(|number| *number == numbers[0]), "{}: {numbers:?}", self.name);
        works
    }
}

/// The same bits in each library.
struct Same {
    ours: Vob,
    fixed: FixedBitSet,
    vec: BitVec,
}

/// Random numbers, by xorshift64 of Marsaglia.
struct Random(u64);

impl Random {
    fn below(&mut self, limit: usize) -> usize {
        self.0 ^= self.0 << 13;
        self.0 ^= self.0 >> 7;
        self.0 ^= self.0 << 17;
        (self.0 >> 16) as usize % limit
    }
}

/// Returns bits of which one in `often` is set.
fn some(seed: u64, len: usize, often: usize) -> Same {
    let mut random = Random(seed);
    let list: Vec<bool> = (0..len).map(|_| random.below(often) == 0).collect();
    let mut fixed = FixedBitSet::with_capacity(len);
    list.iter().enumerate().for_each(|(index, &bit)| fixed.set(index, bit));
    Same { ours: list.iter().copied().collect(), fixed, vec: list.iter().copied().collect() }
}

/// Writes a row: the state of each library, and what is done with it.
macro_rules! row {
    ($name:expr, $goal:expr; $($library:literal: $state:expr => |$it:ident| $work:expr;)*) => {
        Row {
            name: $name.to_string(),
            goal: $goal,
            makes: vec![$(($library, Box::new(move || {
                let mut state = $state;
                Box::new(move || { let $it = &mut state; $work }) as Work
            }) as Make)),*],
        }
    };
}

/// The calls on words. fixedbitset's calls that combine return no flag, so bit-vec alone does as much.
fn words(rows: &mut Vec<Row>, len: usize) {
    let name = |call: &str| format!("{call}, {len} bits");
    let two = move || (some(1, len, 2), some(2, len, 2));
    let sets = move || (some(1, len, 2), some(1, len, 2));
    rows.push(row! { name("and"), 1.0;
        "conthiral": two() => |it| it.0.ours.and(&it.1.ours) as usize;
        "bit-vec": two() => |it| it.0.vec.and(&it.1.vec) as usize;
    });
    rows.push(row! { name("or"), 1.0;
        "conthiral": two() => |it| it.0.ours.or(&it.1.ours) as usize;
        "bit-vec": two() => |it| it.0.vec.or(&it.1.vec) as usize;
    });
    rows.push(row! { name("xor"), 1.0;
        "conthiral": two() => |it| it.0.ours.xor(&it.1.ours) as usize;
        "bit-vec": two() => |it| it.0.vec.xor(&it.1.vec) as usize;
    });
    rows.push(row! { name("and_not"), 1.0;
        "conthiral": two() => |it| it.0.ours.and_not(&it.1.ours) as usize;
        "bit-vec": two() => |it| it.0.vec.difference(&it.1.vec) as usize;
    });
    rows.push(row! { name("negate"), 1.0;
        "conthiral": two() => |it| { it.0.ours.negate(); len };
        "fixedbitset": two() => |it| { it.0.fixed.toggle_range(..); len };
        "bit-vec": two() => |it| { it.0.vec.negate(); len };
    });
    rows.push(row! { name("set_range"), 1.0;
        "conthiral": two() => |it| { it.0.ours.set_range(3..len - 3, true); len };
        "fixedbitset": two() => |it| { it.0.fixed.set_range(3..len - 3, true); len };
    });
    rows.push(row! { name("count_ones"), 1.0;
        "conthiral": two() => |it| it.0.ours.count_ones();
        "fixedbitset": two() => |it| it.0.fixed.count_ones(..);
        "bit-vec": two() => |it| it.0.vec.blocks().map(|block| block.count_ones() as usize).sum();
    });
    rows.push(row! { name("is_subset"), 1.0;
        "conthiral": sets() => |it| it.0.ours.is_subset(&it.1.ours) as usize;
        "fixedbitset": sets() => |it| it.0.fixed.is_subset(&it.1.fixed) as usize;
    });
    rows.push(row! { name("=="), 1.0;
        "conthiral": sets() => |it| (it.0.ours == it.1.ours) as usize;
        "fixedbitset": sets() => |it| (it.0.fixed == it.1.fixed) as usize;
        "bit-vec": sets() => |it| (it.0.vec == it.1.vec) as usize;
    });
    rows.push(row! { name("to_bytes"), 1.0;
        "conthiral": two() => |it| it.0.ours.to_bytes().len();
        "bit-vec": two() => |it| it.0.vec.to_bytes().len();
    });
    rows.push(row! { name("from_bytes"), 1.0;
        "conthiral": two().0.vec.to_bytes() => |it| Vob::from_bytes(it).len();
        "bit-vec": two().0.vec.to_bytes() => |it| BitVec::from_bytes(it).len();
    });
}

/// The calls on single bits.
fn bits(rows: &mut Vec<Row>) {
    const LEN: usize = 1 << 16;
    let one = || {
        let mut random = Random(3);
        let indices: Vec<usize> = (0..1000).map(|_| random.below(LEN)).collect();
        (some(1, LEN, 2), indices)
    };
    rows.push(row! { "get at random", 1.1;
        "conthiral": one() => |it| it.1.iter().filter(|&&index| it.0.ours.get(index) == Some(true)).count();
        "fixedbitset": one() => |it| it.1.iter().filter(|&&index| it.0.fixed.contains(index)).count();
        "bit-vec": one() => |it| it.1.iter().filter(|&&index| it.0.vec.get(index) == Some(true)).count();
    });
    rows.push(row! { "set at random", 1.1;
        "conthiral": one() => |it| { for &index in &it.1 { it.0.ours.set(index, index % 3 == 0); } LEN };
        "fixedbitset": one() => |it| { for &index in &it.1 { it.0.fixed.set(index, index % 3 == 0); } LEN };
        "bit-vec": one() => |it| { for &index in &it.1 { it.0.vec.set(index, index % 3 == 0); } LEN };
    });
    rows.push(row! { "push", 1.1;
        "conthiral": one() => |it| {
            let mut made = Vob::with_capacity(1000);
            it.1.iter().for_each(|index| made.push(index % 3 == 0));
            made.len()
        };
        "bit-vec": one() => |it| {
            let mut made = BitVec::with_capacity(1000);
            it.1.iter().for_each(|index| made.push(index % 3 == 0));
            made.len()
        };
    });
    rows.push(row! { "a walk over all bits", 1.1;
        "conthiral": one() => |it| it.0.ours.iter().filter(|&bit| bit).count();
        "fixedbitset": one() => |it| (0..LEN).filter(|&index| it.0.fixed.contains(index)).count();
        "bit-vec": one() => |it| it.0.vec.iter().filter(|&bit| bit).count();
    });
}

/// The walks over set bits.
fn walks(rows: &mut Vec<Row>) {
    for (often, set) in [(2, "half set"), (64, "1 in 64 set"), (4096, "1 in 4096 set")] {
        let one = move || some(1, 1 << 20, often);
        rows.push(row! { format!("a walk over set bits, {set}"), 1.2;
            "conthiral": one() => |it| it.ours.iter_set_bits(..).sum();
            "fixedbitset": one() => |it| it.fixed.ones().sum();
        });
    }
}

pub fn rows() -> Vec<Row> {
    let mut rows = Vec::new();
    words(&mut rows, 1 << 10);
    words(&mut rows, 1 << 16);
    bits(&mut rows);
    walks(&mut rows);
    rows
}
