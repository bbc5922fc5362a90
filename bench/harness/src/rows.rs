//! The rows of the table: which call, on how many bits, in which unit, against which limit.

use crate::input::{Input, Shape};

/// A call that libraries are compared by. Its number is the one that the C++ twin knows it by.
#[derive(Clone, Copy, PartialEq, Eq, Debug)]
#[repr(u32)]
pub enum Call {
    Push,
    FromSlice,
    ExtendFromSlice,
    Get,
    Set,
    FromBytes,
    Iterate,
    Resize,
    SetAll,
    Negate,
    Clone,
    Hash,
    SplitOff,
    And,
    Or,
    Xor,
    Equal,
    ExtendAligned,
    ExtendShifted,
    Closure,
    SetBits,
    SetBitsBack,
    UnsetBits,
    Count,
    FirstFree,
    Live,
    Matrix,
    DrainAligned,
    DrainShifted,
    Filter,
    AndNot,
    Subset,
    CountAnd,
    NextSet,
    SetRange,
    NegateRange,
    CopyRange,
    Superset,
    Disjoint,
    CountOr,
    Any,
    All,
    CountAndNot,
    CountXor,
    FirstSet,
    ToBytes,
    FromIndices,
    Runs,
    Select,
    SetBitsBetween,
    UnsetBitsBack,
    Deal,
    PreviousSet,
    NextUnset,
    PreviousUnset,
    LastSet,
    LastUnset,
    Rank,
    OrDropped,
    AndNotDropped,
    Lists,
    Intersection,
    Order,
    Minus,
    Slice,
    ShiftUp,
    Reverse,
    Rotate,
    InsertRemove,
    Flip,
    GrowAndSet,
    Available,
    Transpose,
    Slots,
    Arena,
    Columns,
}

pub struct Row {
    pub name: String,
    pub call: Call,
    pub bits: usize,
    pub unit: &'static str,
    /// How many units a round is.
    pub units: f64,
    /// At most so many rounds.
    pub most: usize,
    shape: Shape,
}

impl Row {
    /// What a filter looks into.
    pub fn title(&self) -> String {
        format!("{} at {} bits", self.name, self.bits)
    }

    fn over(name: &str, call: Call, bits: usize, unit: Unit) -> Row {
        let (unit, units) = match unit {
            Unit::Bit => ("bit", bits as f64),
            Unit::Word => ("word", (bits as f64 / 64.0).ceil()),
            Unit::Index => ("index", INDICES as f64),
            Unit::Round => ("round", 1.0),
        };
        // Each round of split_off takes 13 bits away: few enough are left out of what is counted.
        let most = if call == Call::SplitOff {
            bits / 13 / 64
        } else {
            usize::MAX
        };
        let shape = match call {
            Call::Closure => Shape::Matrix,
            Call::Get | Call::Set | Call::FromIndices | Call::Flip | Call::GrowAndSet => {
                Shape::Indices(INDICES)
            }
            Call::FirstFree => Shape::FreeAtTheEnd,
            Call::Live | Call::Available => Shape::Flow,
            Call::Matrix | Call::Lists => Shape::Steps(2),
            Call::Slots => Shape::Indices(1_000_000),
            _ => Shape::Plain,
        };
        Row {
            name: name.to_string(),
            call,
            bits,
            unit,
            units,
            most,
            shape,
        }
    }

    /// The closure of a graph with so many edges from each node.
    fn graph(name: &str, call: Call, nodes: usize, edges: usize) -> Row {
        Row {
            shape: Shape::Steps(edges),
            ..Row::over(name, call, nodes, Unit::Round)
        }
    }

    /// A walk over the indices of bits, of which so many in 65536 are set.
    fn walk(name: &str, call: Call, density: &str, set: u32) -> Row {
        let name = format!("{name}, {density}");
        Row {
            shape: Shape::Density(set),
            ..Row::over(&name, call, MILLION, Unit::Word)
        }
    }

    pub fn input(&self) -> Input {
        Input::new(self.bits, self.shape)
    }
}

enum Unit {
    Bit,
    Word,
    Index,
    Round,
}

pub const INDICES: usize = 1 << 16;
const MILLION: usize = 1 << 20;
/// The sizes of the rows on two Vobs of one length.
const SIZES: [usize; 5] = [64, 1024, 65536, MILLION, 64 * MILLION];

/// How many bits in 65536 are set for a walk over indices.
const DENSITIES: [(&str, u32); 11] = [
    ("none set", 0),
    ("1 in 4096 set", 16),
    ("1 in 256 set", 256),
    ("1 in 64 set", 1024),
    ("1 in 8 set", 8192),
    ("half set", 32768),
    ("7 in 8 set", 57344),
    ("63 in 64 set", 64512),
    ("255 in 256 set", 65280),
    ("4095 in 4096 set", 65520),
    ("all set", 65536),
];

/// All rows, in the order of the table. Later calls are put where they belong.
pub fn all() -> Vec<Row> {
    use Unit::{Bit, Index, Round, Word};
    let mut rows = vec![
        Row::over("push", Call::Push, 1_000_000, Bit),
        Row::over("get at random", Call::Get, MILLION, Index),
        Row::over("set at random", Call::Set, MILLION, Index),
        Row::over("flip at random", Call::Flip, MILLION, Index),
        Row::over("grow_and_set", Call::GrowAndSet, MILLION, Index),
        Row::over("iterate", Call::Iterate, MILLION, Bit),
        Row::over("from_bytes", Call::FromBytes, MILLION, Word),
        Row::over("from_slice", Call::FromSlice, MILLION, Bit),
        Row::over("extend_from_slice", Call::ExtendFromSlice, MILLION, Bit),
        Row::over("resize true", Call::Resize, MILLION, Word),
        Row::over("set_all", Call::SetAll, MILLION, Word),
        Row::over("negate", Call::Negate, MILLION, Word),
        Row::over("set_range", Call::SetRange, MILLION, Word),
        Row::over("negate_range", Call::NegateRange, MILLION, Word),
        Row::over("from_indices", Call::FromIndices, MILLION, Index),
        Row::over("to_bytes", Call::ToBytes, MILLION, Word),
        Row::over("clone", Call::Clone, MILLION, Word),
    ];
    for (name, call) in [
        ("and", Call::And),
        ("or", Call::Or),
        ("xor", Call::Xor),
        ("and_not", Call::AndNot),
        ("is_subset", Call::Subset),
        ("count_and", Call::CountAnd),
    ] {
        for bits in SIZES {
            rows.push(Row::over(name, call, bits, Word));
        }
    }
    for (name, call) in [
        ("or, its answer dropped", Call::OrDropped),
        ("and_not, its answer dropped", Call::AndNotDropped),
    ] {
        for bits in [1024, 1 << 16, MILLION] {
            rows.push(Row::over(name, call, bits, Word));
        }
    }
    for (name, call) in [
        ("is_superset", Call::Superset),
        ("is_disjoint", Call::Disjoint),
        ("count_or", Call::CountOr),
        ("count_and_not", Call::CountAndNot),
        ("count_xor", Call::CountXor),
    ] {
        for bits in [64, MILLION] {
            rows.push(Row::over(name, call, bits, Word));
        }
    }
    rows.extend([
        Row::over(
            "extend_from_vob aligned",
            Call::ExtendAligned,
            MILLION,
            Word,
        ),
        Row::over("extend_from_vob at +13", Call::ExtendShifted, MILLION, Word),
        Row::over("split_off misaligned", Call::SplitOff, MILLION, Word),
        Row::over("drain aligned", Call::DrainAligned, MILLION, Word),
        Row::over("drain misaligned", Call::DrainShifted, MILLION, Word),
        Row::over("copy_range", Call::CopyRange, MILLION, Word),
        Row::over("slice", Call::Slice, MILLION, Word),
        Row::over("difference in a new one", Call::Minus, MILLION, Word),
        Row::over("shl", Call::ShiftUp, MILLION, Word),
        Row::over("reverse", Call::Reverse, MILLION, Word),
        Row::over("rotate_left", Call::Rotate, MILLION, Word),
        Row::over("insert_bit and remove", Call::InsertRemove, MILLION, Word),
        Row::over("equality", Call::Equal, MILLION, Word),
        Row::over("order of equal ones", Call::Order, MILLION, Word),
        Row::over("hash", Call::Hash, MILLION, Word),
    ]);
    for (name, call) in [
        ("iter_set_bits", Call::SetBits),
        ("iter_set_bits from the back", Call::SetBitsBack),
        ("iter_unset_bits", Call::UnsetBits),
        ("iter_unset_bits from the back", Call::UnsetBitsBack),
        ("next_set", Call::NextSet),
        ("runs", Call::Runs),
    ] {
        for (density, set) in DENSITIES {
            rows.push(Row::walk(name, call, density, set));
        }
    }
    for (density, set) in [("1 in 64 set", 1024), ("half set", 32768)] {
        let name = "iter_set_bits of a range";
        rows.push(Row::walk(name, Call::SetBitsBetween, density, set));
    }
    rows.extend([
        Row::over("intersection", Call::Intersection, MILLION, Word),
        Row::walk("previous_set", Call::PreviousSet, "half set", 32768),
        Row::walk("next_unset", Call::NextUnset, "half set", 32768),
        Row::walk("previous_unset", Call::PreviousUnset, "half set", 32768),
        Row::walk("first_set", Call::FirstSet, "none set", 0),
        Row::walk("last_set", Call::LastSet, "none set", 0),
        Row::walk("last_unset", Call::LastUnset, "all set", 65536),
        Row::walk("any", Call::Any, "none set", 0),
        Row::walk("all", Call::All, "all set", 65536),
        Row::over("deal, half set", Call::Deal, MILLION, Index),
        Row::over("count of set bits", Call::Count, MILLION, Word),
        Row::over("rank in the middle", Call::Rank, MILLION, Word),
        Row::over("select in the middle", Call::Select, MILLION, Word),
        Row::over(
            "first unset bit, the last one",
            Call::FirstFree,
            MILLION,
            Word,
        ),
        Row::over("filter over three columns", Call::Filter, MILLION, Word),
        Row::over("closure 1000 x 1000", Call::Closure, 1_000_000, Round),
        Row::over("matrix closure, 1000 nodes", Call::Matrix, 1000, Round),
        Row::graph("matrix closure, 1000 nodes, 20 edges", Call::Matrix, 1000, 20),
        Row::graph("matrix closure, 1000 nodes, 300 edges", Call::Matrix, 1000, 300),
        Row::graph("matrix closure, 4000 nodes", Call::Matrix, 4000, 2),
        Row::over("closure of lists, 1000 nodes", Call::Lists, 1000, Round),
        Row::over("closure of lists, 4000 nodes", Call::Lists, 4000, Round),
        Row::over("liveness, 10000 nodes", Call::Live, 1000, Round),
        Row::over("available, 10000 nodes", Call::Available, 1000, Round),
        Row::over("transpose 1000 x 1000", Call::Transpose, 1_000_000, Round),
        Row::over("slots, a million steps", Call::Slots, 1_000_000, Round),
        Row::over("a full arena of slots", Call::Arena, 10_000, Round),
        Row::over("a full arena of slots", Call::Arena, 100_000, Round),
        Row::over("a full arena of slots", Call::Arena, 1_000_000, Round),
        Row::over("condition on three columns", Call::Columns, 10_000_000, Round),
    ]);
    rows
}
