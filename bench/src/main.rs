//! Prints, for each policy, the nanoseconds of processor time that an ask takes, its load included: the proved
//! library through its door for C, the second program with the same lent areas, and how many times the second's
//! time the library takes. `bench NAME` runs the policies whose name has that word; `bench NAME library` prints
//! no times and asks the library for about a second, for a profiler.

mod clock;
mod policies;

use policies::Case;
use second::against::WORK_BYTES;
use second::ask::{ask_lent, Lent, STORE_LEAST};
use std::hint::black_box;
use std::time::Duration;

/// How often each program is timed; the two take turns.
const SAMPLES: usize = 101;
/// The least time of one sample.
const SAMPLE: Duration = Duration::from_millis(2);

/// The areas that are lent, again and again.
struct Areas {
    store: Vec<u8>,
    work: Vec<u8>,
    room: Vec<u8>,
}

impl Areas {
    fn new() -> Areas {
        Areas {
            store: vec![0; STORE_LEAST],
            work: vec![0; WORK_BYTES],
            room: vec![0; 49_152],
        }
    }
}

type Program = fn(&mut Areas, &Case) -> (u32, u32);

fn library(areas: &mut Areas, case: &Case) -> (u32, u32) {
    let q = &case.question;
    let (store, work, room) = (&mut areas.store, &mut areas.work, &mut areas.room);
    let text = black_box(&case.text);
    let answer = door::ask(
        text, store, work, room, q.uid, q.gid, q.start, q.target, q.kind,
    );
    (answer.number, answer.value)
}

fn second_program(areas: &mut Areas, case: &Case) -> (u32, u32) {
    let lent = Lent {
        store: &mut areas.store,
        work: &mut areas.work,
        room: &mut areas.room,
    };
    let (number, value) = ask_lent(black_box(&case.text), lent, &case.question);
    (number.into(), value)
}

/// Both programs must say the same, and what the policy was made for.
fn agree(case: &Case) {
    let (mut one, mut other) = (Areas::new(), Areas::new());
    let said = library(&mut one, case);
    assert_eq!(said, second_program(&mut other, case), "{}", case.name);
    assert_eq!(one.room, other.room, "{}", case.name);
    assert_eq!(one.store, other.store, "{}", case.name);
    let head = String::from_utf8_lossy(&one.room[..case.head.len()]);
    assert_eq!(head, case.head, "{}", case.name);
}

/// Nanoseconds of one call, over so many of them.
fn time(program: Program, areas: &mut Areas, case: &Case, rounds: u32) -> f64 {
    let begin = clock::used();
    for _ in 0..rounds {
        black_box(program(areas, case));
    }
    (clock::used() - begin).as_nanos() as f64 / rounds as f64
}

/// So many calls that they take the time of a sample.
fn rounds(program: Program, areas: &mut Areas, case: &Case) -> u32 {
    let mut rounds = 1;
    while time(program, areas, case, rounds) * (rounds as f64) < SAMPLE.as_nanos() as f64 {
        rounds *= 2;
    }
    rounds
}

/// The medians of the two programs, which take turns.
fn medians(case: &Case) -> [f64; 2] {
    let programs: [Program; 2] = [library, second_program];
    let mut areas = Areas::new();
    let rounds = programs.map(|program| rounds(program, &mut areas, case));
    let mut times = [Vec::new(), Vec::new()];
    for _ in 0..SAMPLES {
        for (n, program) in programs.into_iter().enumerate() {
            times[n].push(time(program, &mut areas, case, rounds[n]));
        }
    }
    times.map(|mut list| {
        list.sort_by(f64::total_cmp);
        list[list.len() / 2]
    })
}

/// About a second of the library alone.
fn profiled(case: &Case) {
    let mut areas = Areas::new();
    let sample = rounds(library, &mut areas, case);
    time(library, &mut areas, case, 400 * sample);
}

fn main() {
    let words: Vec<String> = std::env::args().skip(1).collect();
    let cases = policies::cases().into_iter();
    let cases = cases.filter(|c| words.first().is_none_or(|word| c.name.contains(word)));
    println!("{:>12} {:>12} {:>6}", "library ns", "second ns", "ratio");
    for case in cases {
        agree(&case);
        if words.len() > 1 {
            profiled(&case);
            continue;
        }
        let [library, second] = medians(&case);
        let ratio = library / second;
        println!("{library:12.0} {second:12.0} {ratio:6.2} {}", case.name);
    }
}
