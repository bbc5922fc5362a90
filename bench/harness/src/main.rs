//! Times Conthiral beside vob 4.0.1 and its peers, all in one process. Checksums are compared before
//! anything is timed. A library's time is that of 2R rounds less that of R rounds, each the least of
//! many, in which all libraries take turns: so what is built once and the call across languages
//! drop out.
//!
//! `harness [--check] [--turns N] [FILTER]` writes lines of tab-separated values. `harness --names FILTER`
//! prints the rows, the libraries that have a call for each, and whether they do the same, and `harness --alone LIBRARY ROUNDS ROW`
//! has one library do one row, and prints nothing: for whatever counts instructions.

mod bits;
mod foreign;
mod input;
mod peers;
mod programs;
mod quiet;
mod rows;
mod work;

use bits::{Bits, Offer};
use foreign::Twin;
use input::Input;
use quiet::{Probe, PATIENCE};
use rows::{Call, Row};
use std::process::ExitCode;
use std::time::{Duration, Instant};
use work::counts_changes;

/// A library that works for so many rounds, and answers a checksum.
struct Library {
    name: &'static str,
    offer: fn(Call) -> Offer,
    run: fn(Call, &Input, usize) -> u64,
    /// Of how many bits at most.
    most: usize,
}

fn rust<B: Bits>(name: &'static str) -> Library {
    Library {
        name,
        offer: B::offer,
        run: work::run::<B>,
        most: usize::MAX,
    }
}

/// Conthiral first, then its kernels without lanes, vob 4.0.1, and the others.
fn libraries() -> Vec<Library> {
    vec![
        Library {
            name: "conthiral",
            offer: |_| Offer::Same,
            run: foreign::conthiral,
            most: usize::MAX,
        },
        // Built bit by bit, which would be most of the time of long ones.
        Library {
            name: "Vob<u64>",
            offer: foreign::plain_offer,
            run: foreign::plain,
            most: 1 << 20,
        },
        // What a program does without vectors of bits.
        Library {
            name: "plain Rust",
            offer: |call| match call {
                Call::Slots => Offer::Less("no test of the slot"),
                Call::Columns => Offer::Same,
                _ => Offer::None,
            },
            run: work::run::<vob::Vob>,
            most: usize::MAX,
        },
        Library {
            name: "slab",
            offer: |call| match call {
                Call::Arena => Offer::Same,
                _ => Offer::None,
            },
            run: work::run::<vob::Vob>,
            most: usize::MAX,
        },
        rust::<vob::Vob>("vob 4.0.1"),
        rust::<fixedbitset::FixedBitSet>("fixedbitset"),
        rust::<bit_vec::BitVec>("bit-vec"),
        rust::<bit_set::BitSet>("bit-set"),
        rust::<smallbitvec::SmallBitVec>("smallbitvec"),
        Library {
            name: "boost",
            offer: |call| foreign::twin_offer(Twin::Boost, call),
            run: |call, input, rounds| foreign::twin(Twin::Boost, call, input, rounds),
            most: usize::MAX,
        },
        Library {
            name: "vector<bool>",
            offer: |call| foreign::twin_offer(Twin::VectorBool, call),
            run: |call, input, rounds| foreign::twin(Twin::VectorBool, call, input, rounds),
            most: usize::MAX,
        },
    ]
}

/// The low half of a checksum is what every library has to agree on; the high half counts answers,
/// which a library without a flag doesn't give.
fn agree(row: &Row, offer: Offer, expected: u64, got: u64) -> bool {
    let flagless = matches!(offer, Offer::Less(why) if why.contains("no flag"));
    if counts_changes(row.call) && flagless {
        expected as u32 == got as u32
    } else {
        expected == got
    }
}

/// The libraries whose checksums differ from the original crate's.
fn disagreements(row: &Row, input: &Input, offered: &[&Library]) -> Vec<String> {
    let mut differing = Vec::new();
    for rounds in [1, 2, 5] {
        let rounds = rounds.min(row.most);
        let expected = work::run::<vob::Vob>(row.call, input, rounds);
        for library in offered {
            let got = (library.run)(row.call, input, rounds);
            if !agree(row, (library.offer)(row.call), expected, got) {
                let (name, of) = (&row.name, library.name);
                let at = row.bits;
                differing.push(format!(
                    "{name} at {at} bits, {rounds} rounds: {of} {got:#x}, vob 4.0.1 {expected:#x}"
                ));
            }
        }
    }
    differing
}

/// One thing that is timed, with its least times so far.
struct Timed<'a> {
    name: String,
    mark: &'static str,
    kind: &'static str,
    run: Box<dyn Fn(usize) -> u64 + 'a>,
    rounds: usize,
    once: Duration,
    twice: Duration,
}

impl Timed<'_> {
    fn time(&self, rounds: usize) -> Duration {
        let start = Instant::now();
        std::hint::black_box((self.run)(rounds));
        start.elapsed()
    }

    fn least_of(&self, turns: usize, rounds: usize) -> Duration {
        (0..turns)
            .map(|_| self.time(rounds))
            .min()
            .unwrap_or_default()
    }

    /// Finds how many rounds take long enough, also beside what is built once, and no more than
    /// there may be.
    fn settle(&mut self, most: usize, enough: Duration) {
        let built = self.least_of(3, 0);
        let enough = enough.max(2 * built);
        self.rounds = 1;
        loop {
            let spent = self.least_of(2, self.rounds).saturating_sub(built);
            if spent >= enough || 4 * self.rounds > most {
                return;
            }
            self.rounds *= if spent * 8 < enough { 4 } else { 2 };
        }
    }

    /// Takes both times on a processor that is quiet before and behind them, or where none stays so for
    /// so long, on any.
    fn take_turn(&mut self, probe: &mut Probe) {
        let start = Instant::now();
        loop {
            let found = probe.find();
            // Both times follow this library's own work: what is built behind another's takes longer.
            self.time(0);
            let once = self.time(self.rounds);
            let twice = self.time(2 * self.rounds);
            let quiet = found && probe.is_quiet();
            if quiet || start.elapsed() > PATIENCE {
                self.once = self.once.min(once);
                self.twice = self.twice.min(twice);
                probe.loud += !quiet as usize;
                return;
            }
        }
    }

    fn ns_per_round(&self) -> f64 {
        (self.twice.as_nanos() as f64 - self.once.as_nanos() as f64) / self.rounds as f64
    }
}

fn mark_of(offer: Offer) -> (&'static str, &'static str) {
    match offer {
        Offer::Same | Offer::None => ("same", ""),
        Offer::Less(why) => ("less", why),
        Offer::Other(how) => ("other", how),
        Offer::Ours => ("ours", ""),
    }
}

fn timed<'a>(row: &'a Row, input: &'a Input, offered: &[&'a Library]) -> Vec<Timed<'a>> {
    let new = |name: String, kind, mark, run| Timed {
        name,
        mark,
        kind,
        run,
        rounds: 1,
        once: Duration::MAX,
        twice: Duration::MAX,
    };
    let mut all = Vec::new();
    for library in offered {
        let (kind, mark) = mark_of((library.offer)(row.call));
        let run = library.run;
        let work = Box::new(move |rounds| run(row.call, input, rounds));
        all.push(new(
            library.name.to_string(),
            kind,
            mark,
            work as Box<dyn Fn(usize) -> u64>,
        ));
    }
    // The same work once more: how far its two times lie apart is the noise of the row.
    if let Some(ours) = offered.first() {
        let run = ours.run;
        let work = Box::new(move |rounds| run(row.call, input, rounds));
        all.push(new(format!("{} again", ours.name), "again", "", work));
    }
    all
}

/// Whether the two times of our own work are alike, so that the row needs no more turns.
fn is_settled(all: &[Timed]) -> bool {
    let again = all.iter().find(|one| one.kind == "again");
    again.is_none_or(|again| {
        let part = all[0].ns_per_round() / again.ns_per_round();
        (0.97..1.03).contains(&part)
    })
}

fn measure(row: &Row, input: &Input, offered: &[&Library], turns: usize, probe: &mut Probe) {
    let mut all = timed(row, input, offered);
    for one in &mut all {
        one.settle(row.most, Duration::from_millis(4));
    }
    for turn in 0..4 * turns {
        if turn >= turns && is_settled(&all) {
            break;
        }
        for one in &mut all {
            one.take_turn(probe);
        }
    }
    for one in &all {
        let ns = one.ns_per_round() / row.units;
        println!(
            "{}\t{}\t{}\t{}\t{}\t{}\t{:.4}",
            row.name, row.bits, row.unit, one.name, one.kind, one.mark, ns
        );
    }
}

/// One library that works alone, and for how many rounds.
struct Alone {
    library: String,
    rounds: usize,
}

struct Options {
    check: bool,
    names: bool,
    alone: Option<Alone>,
    turns: usize,
    filter: String,
}

fn options() -> Options {
    let mut found = Options {
        check: false,
        names: false,
        alone: None,
        turns: 21,
        filter: String::new(),
    };
    let mut words = std::env::args().skip(1);
    while let Some(word) = words.next() {
        match word.as_str() {
            "--check" => found.check = true,
            "--names" => found.names = true,
            "--alone" => {
                let library = words.next().unwrap_or_default();
                let rounds = words.next().and_then(|n| n.parse().ok()).unwrap_or(1);
                found.alone = Some(Alone { library, rounds });
            }
            "--turns" => found.turns = words.next().and_then(|n| n.parse().ok()).unwrap_or(21),
            _ => found.filter = word,
        }
    }
    found
}

// What is freed stays with the process, for every library alike: else a large block's time is that
// of the pages which the kernel gives and takes.
fn keep_freed_memory() {
    extern "C" {
        fn mallopt(parameter: i32, value: i32) -> i32;
    }
    const TRIM_THRESHOLD: i32 = -1;
    const MMAP_MAX: i32 = -4;
    unsafe {
        mallopt(TRIM_THRESHOLD, i32::MAX);
        mallopt(MMAP_MAX, 0);
    }
}

fn main() -> ExitCode {
    keep_freed_memory();
    let options = options();
    let libraries = libraries();
    let rows: Vec<Row> = rows::all()
        .into_iter()
        .filter(|row| row.title().contains(&options.filter))
        .collect();
    let offered = |row: &Row| -> Vec<&Library> {
        libraries
            .iter()
            .filter(|library| row.bits <= library.most && (library.offer)(row.call) != Offer::None)
            .collect()
    };
    if options.names {
        for row in &rows {
            for library in offered(row) {
                println!(
                    "{}\t{}\t{}\t{}\t{}",
                    row.title(),
                    row.unit,
                    row.units,
                    library.name,
                    mark_of((library.offer)(row.call)).0
                );
            }
        }
        return ExitCode::SUCCESS;
    }
    if let Some(alone) = &options.alone {
        for row in rows.iter().filter(|row| row.title() == options.filter) {
            let rounds = alone.rounds.min(row.most);
            for library in offered(row) {
                if library.name == alone.library {
                    std::hint::black_box((library.run)(row.call, &row.input(), rounds));
                }
            }
        }
        return ExitCode::SUCCESS;
    }
    let mut differing = Vec::new();
    for row in &rows {
        differing.extend(disagreements(row, &row.input(), &offered(row)));
    }
    for line in &differing {
        eprintln!("checksums differ: {line}");
    }
    if !differing.is_empty() {
        return ExitCode::FAILURE;
    }
    eprintln!("{} rows: all checksums agree", rows.len());
    if options.check {
        return ExitCode::SUCCESS;
    }
    println!("# g++ {}", foreign::twin_compiler_name());
    let mut probe = Probe::new();
    for row in &rows {
        eprintln!("{} {}", row.name, row.bits);
        measure(
            row,
            &row.input(),
            &offered(row),
            options.turns.max(1),
            &mut probe,
        );
    }
    println!("# turns on no quiet processor: {}", probe.loud);
    ExitCode::SUCCESS
}
