//! Whether a processor is this process's alone. On a machine with other tenants one takes up to twice as
//! long and more, for seconds on end, most likely since it is a thread of a core whose other one works for
//! them. So a turn is taken on a processor that does a fixed work as quickly as any did, before it and behind
//! it.

use std::hint::black_box;
use std::time::{Duration, Instant};

/// What part of its least time the fixed work takes at most on a quiet processor.
const QUIET: f64 = 1.05;
/// For how long the least time is learned first.
const LEARNING: Duration = Duration::from_secs(20);
/// For how long a quiet processor is looked for, and a turn taken anew where its processor didn't stay so.
pub const PATIENCE: Duration = Duration::from_millis(500);
/// By what part the least time grows where none was found: all processors have become slower.
const SLOWER: f64 = 1.02;

/// A set of processors as the kernel has them.
type Mask = [u64; 16];

extern "C" {
    fn sched_getaffinity(process: i32, size: usize, mask: *mut u64) -> i32;
    fn sched_setaffinity(process: i32, size: usize, mask: *const u64) -> i32;
}

/// The processors that this process may use.
fn processors() -> Vec<usize> {
    let mut mask: Mask = [0; 16];
    unsafe { sched_getaffinity(0, size_of::<Mask>(), mask.as_mut_ptr()) };
    (0..64 * mask.len())
        .filter(|at| mask[at / 64] >> (at % 64) & 1 == 1)
        .collect()
}

/// Moves this process to one of them.
fn move_to(processor: usize) {
    let mut mask: Mask = [0; 16];
    mask[processor / 64] = 1 << (processor % 64);
    unsafe { sched_setaffinity(0, size_of::<Mask>(), mask.as_ptr()) };
}

pub struct Probe {
    processors: Vec<usize>,
    at: usize,
    own: Vec<u64>,
    other: Vec<u64>,
    least: f64,
    /// How many turns were taken on no quiet processor.
    pub loud: usize,
}

impl Probe {
    pub fn new() -> Probe {
        let mut probe = Probe {
            processors: processors(),
            at: 0,
            own: (0..1024).collect(),
            other: (0..1024).map(|word| 3 * word).collect(),
            least: f64::MAX,
            loud: 0,
        };
        let start = Instant::now();
        while start.elapsed() < LEARNING {
            for _ in 0..100 {
                probe.is_quiet();
            }
            probe.go_on();
        }
        probe
    }

    /// Does the fixed work so many times, in the first cache.
    fn work(&mut self, times: usize) {
        for _ in 0..times {
            let mut differing = 0;
            for (own, other) in self.own.iter_mut().zip(&self.other) {
                let new = *own ^ other;
                differing |= new & *own;
                *own = new;
            }
            black_box((&mut self.own, differing));
        }
    }

    /// Does the fixed work, and answers whether it took as long as on a quiet processor.
    pub fn is_quiet(&mut self) -> bool {
        // What a turn left in the first cache has to go first, and wide vectors take a while to wake up.
        self.work(400);
        let start = Instant::now();
        self.work(400);
        let spent = start.elapsed().as_nanos() as f64;
        self.least = self.least.min(spent);
        spent <= QUIET * self.least
    }

    fn go_on(&mut self) {
        self.at = (self.at + 1) % self.processors.len();
        move_to(self.processors[self.at]);
    }

    /// Goes to a quiet processor, and answers whether one was found.
    pub fn find(&mut self) -> bool {
        let start = Instant::now();
        while start.elapsed() < PATIENCE {
            for _ in 0..self.processors.len() {
                if self.is_quiet() {
                    return true;
                }
                self.go_on();
            }
        }
        self.least *= SLOWER;
        false
    }
}
