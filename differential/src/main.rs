//! Compares the static library with the oracle on generated images, or on the benchmark's and those
//! that are built to be slow, and on batches of them. Usage: differential COUNT SEED|bench [JOBS]

use std::process::ExitCode;
use std::sync::Mutex;
use std::sync::atomic::{AtomicU64, AtomicUsize, Ordering};

use differential::batches::Batches;
use differential::compare::{Comparison, Source};
use differential::sums::Sums;
use oracle::tool::{self, number};

/// The program goes on until it has found so many images and batches that differ.
const MOST_DIFFERENCES: usize = 10;
/// A thread takes so many images at a time, and makes batches of them.
const CHUNK: u64 = 64;
/// Once for so many images there are batches with as many images as there may be, and with more.
const FULL: u64 = 64 * CHUNK;

fn main() -> ExitCode {
    tool::run("differential", |arguments| {
        let (count, seed, jobs) = match arguments {
            [count, seed] => (count, seed, 1),
            [count, seed, jobs] => (count, seed, number("JOBS", jobs)?),
            _ => return Err("usage: differential COUNT SEED|bench [JOBS]".to_owned()),
        };
        let count = number("COUNT", count)?;
        let source = match seed.as_str() {
            "bench" => Source::Bench,
            seed => Source::Seed(number("SEED", seed)?),
        };
        if count == 0 || !(1..=64).contains(&jobs) {
            return Err("COUNT must be at least 1 and JOBS from 1 to 64".to_owned());
        }
        let (sums, differences) = run(count, source, jobs);
        print!("seed {seed}, from image 0\n\n{}", sums.table());
        if differences > 0 {
            return Err(format!(
                "{differences} differ among {} images and {} batches compared",
                sums.images, sums.batches
            ));
        }
        let Sums {
            images, batches, ..
        } = sums;
        Ok(format!("\n{images} images, 0 differ\n{batches} batches, 0 differ\n").into_bytes())
    })
}

fn run(count: u64, source: Source, jobs: u64) -> (Sums, usize) {
    let next = AtomicU64::new(0);
    let differences = AtomicUsize::new(0);
    let all = Mutex::new(Sums::default());
    let job = || {
        let mut comparison = Comparison::new(source);
        let mut batches = Batches::new(source.seed());
        // tells of a difference, but of no more than there may be
        let found = |which: &str, index: u64, what: String| {
            if differences.fetch_add(1, Ordering::Relaxed) < MOST_DIFFERENCES {
                eprintln!("seed {}, {which} {index}: {what}", source.seed());
            }
        };
        loop {
            let first = next.fetch_add(CHUNK, Ordering::Relaxed);
            if first >= count || differences.load(Ordering::Relaxed) >= MOST_DIFFERENCES {
                break;
            }
            let mut singles = Vec::new();
            for index in first..count.min(first + CHUNK) {
                match comparison.image(index) {
                    Ok(single) => singles.extend(single),
                    Err(what) => found("index", index, what),
                }
            }
            if let Err(what) = batches.of(first, &singles) {
                found("batches from index", first, what);
            }
            if first.is_multiple_of(FULL)
                && let Err(what) = batches.full(first, &singles)
            {
                found("full batches from index", first, what);
            }
        }
        if let Ok(mut all) = all.lock() {
            all.add(comparison.sums);
            all.add(batches.sums);
        }
    };
    std::thread::scope(|scope| {
        for _ in 0..jobs {
            scope.spawn(job);
        }
    });
    let differences = differences.into_inner().min(MOST_DIFFERENCES);
    (all.into_inner().unwrap_or_default(), differences)
}
