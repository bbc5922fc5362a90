//! The package of bindings/rust beside fixedbitset and bit-vec. Without words it prints each row, its goal and our
//! time over that of the best peer, by three readings. `--names` prints rows and libraries; `--alone ROW LIBRARY
//! TIMES` does one work so many times.

mod rows;

use rows::{rows, Work};
use std::env;
use std::hint::black_box;
use std::time::{Duration, Instant};

const READINGS: usize = 3;
const BATCHES: usize = 15;
const BATCH: Duration = Duration::from_millis(1);

/// Returns how many times a work fits into a batch.
fn times(work: &mut Work) -> u32 {
    let start = Instant::now();
    let mut times = 0;
    while start.elapsed() < BATCH {
        black_box(work());
        times += 1;
    }
    times
}

/// Returns the least time in ns that a work took, in one of some batches.
fn nanoseconds(work: &mut Work) -> f64 {
    let times = times(work);
    let batch = |_| {
        let start = Instant::now();
        for _ in 0..times {
            black_box(work());
        }
        start.elapsed().as_nanos() as f64 / f64::from(times)
    };
    (0..BATCHES).map(batch).fold(f64::MAX, f64::min)
}

/// Returns our time over that of the fastest peer, and its name. Ours is the first work.
fn ratio(works: &mut [(&'static str, Work)]) -> (f64, &'static str) {
    let ours = nanoseconds(&mut works[0].1);
    let peers = works[1..].iter_mut().map(|(library, work)| (ours / nanoseconds(work), *library));
    peers.fold((0.0, ""), |worst, peer| if peer.0 > worst.0 { peer } else { worst })
}

fn main() {
    let words: Vec<String> = env::args().skip(1).collect();
    match words.iter().map(String::as_str).collect::<Vec<_>>()[..] {
        [] => {
            for row in rows() {
                let mut works = row.works();
                let mut ratios: Vec<_> = (0..READINGS).map(|_| ratio(&mut works)).collect();
                ratios.sort_by(|one, other| one.0.total_cmp(&other.0));
                let (median, peer) = ratios[READINGS / 2];
                println!("{}\t{}\t{median:.2}\t{peer}", row.name, row.goal);
            }
        }
        ["--names"] => {
            for row in rows() {
                row.makes.iter().for_each(|(library, _)| println!("{}\t{library}", row.name));
            }
        }
        ["--alone", name, library, times] => {
            let row = rows().into_iter().find(|row| row.name == name).expect("a row");
            let (_, make) = row.makes.iter().find(|make| make.0 == library).expect("a library");
            let mut work = make();
            for _ in 0..times.parse().expect("a number") {
                black_box(work());
            }
        }
        _ => panic!("the words are --names, --alone ROW LIBRARY TIMES, or none"),
    }
}
