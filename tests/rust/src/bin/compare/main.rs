//! Compares the proved library, in processes of its own, with the second program on seeded random input:
//! `compare SEED ASKS RECORDS`. The first difference is printed with its input, and the program ends with 1.

mod asks;
mod records;
mod tally;

use second::process::Process;
use std::process::ExitCode;
use std::sync::atomic::{AtomicBool, AtomicU64, Ordering};
use std::sync::Mutex;
use tally::Tally;

/// The work is cut into lanes, so that what is compared does not depend on the machine's processors.
const LANES: u64 = 32;

/// A difference, told with its input.
pub struct Difference(String);

/// A lane's share of a count.
fn share(count: u64, lane: u64) -> u64 {
    count / LANES + u64::from(lane < count % LANES)
}

/// What one thread does, with a library of its own: lanes, until none is left or a difference is found.
fn lanes(numbers: [u64; 3], next: &AtomicU64, stop: &AtomicBool) -> Result<Tally, Difference> {
    let [seed, asks, records] = numbers;
    let mut tally = Tally::default();
    let library = &mut Process::start();
    while !stop.load(Ordering::Relaxed) {
        let lane = next.fetch_add(1, Ordering::Relaxed);
        if lane >= LANES {
            break;
        }
        let compared = asks::compare(library, seed, lane, share(asks, lane), &mut tally)
            .and_then(|()| records::compare(library, seed, lane, share(records, lane), &mut tally));
        if let Err(difference) = compared {
            stop.store(true, Ordering::Relaxed);
            return Err(difference);
        }
    }
    Ok(tally)
}

fn compare(numbers: [u64; 3]) -> Result<Tally, Difference> {
    let (next, stop) = (AtomicU64::new(0), AtomicBool::new(false));
    let all = Mutex::new(Ok(Tally::default()));
    let threads = std::thread::available_parallelism().map_or(1, usize::from);
    std::thread::scope(|scope| {
        for _ in 0..threads {
            scope.spawn(|| {
                let part = lanes(numbers, &next, &stop);
                let mut all = all.lock().expect("no thread panics with the lock");
                match (part, all.as_mut()) {
                    (Ok(part), Ok(sum)) => sum.add(&part),
                    (Err(difference), Ok(_)) => *all = Err(difference),
                    _ => (),
                }
            });
        }
    });
    all.into_inner().expect("no thread panics with the lock")
}

fn main() -> ExitCode {
    let words: Vec<String> = std::env::args().skip(1).collect();
    let numbers: Option<Vec<u64>> = words.iter().map(|word| word.parse().ok()).collect();
    let numbers = numbers.and_then(|list| <[u64; 3]>::try_from(list).ok());
    let Some(numbers) = numbers else {
        eprintln!("usage: compare SEED ASKS RECORDS");
        return ExitCode::from(2);
    };
    match compare(numbers) {
        Ok(tally) => {
            print!("{tally}");
            ExitCode::SUCCESS
        }
        Err(Difference(told)) => {
            eprint!("{told}");
            ExitCode::FAILURE
        }
    }
}
