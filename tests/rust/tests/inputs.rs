//! Random inputs: the proved program prints what the second program says.

use second::generator::{case, damage, Size};
use second::pathcheck::pathcheck;
use second::proved;
use second::random::Random;
use second::samples::question;
use std::sync::atomic::{AtomicUsize, Ordering};

/// Other inputs than the stored samples have.
const SEED: u64 = 19;
const INPUTS: usize = 300;
/// How many programs run at once.
const THREADS: usize = 2;

/// Policies of all sizes, of which one in six is damaged; one in twelve inputs has a spoilt question.
fn input(n: usize) -> Vec<u8> {
    let random = &mut Random::of(SEED, n as u64);
    let size = match n % 8 {
        0..=2 => Size::Small,
        3..=5 => Size::Usual,
        6 => Size::ManyRoles,
        _ => Size::ManyPaths,
    };
    let case = case(random, size);
    let policy = match n % 6 {
        5 => damage(random, &case.frames),
        _ => case.text(),
    };
    let mut lines = question(case.kind, case.uid, case.gid, &case.start, &case.target);
    if n % 12 == 7 {
        spoil(random, &mut lines);
    }
    [lines, policy].concat()
}

/// Changes, drops or doubles a byte.
fn spoil(random: &mut Random, lines: &mut Vec<u8>) {
    let at = random.below(lines.len());
    match random.below(4) {
        0 => drop(lines.remove(at)),
        1 => lines.insert(at, lines[at]),
        2 => lines[at] = random.number() as u8,
        _ => lines[at] = random.pick(b"0123456789abcdef\n"),
    }
}

/// What the first printed line says: 0 never, 1 reached, 2 refused.
fn verdict(printed: &[u8]) -> usize {
    match printed.first_chunk() {
        Some(b"8000") => 0,
        Some(b"8001") => 1,
        Some([b'8', b'f', ..]) => 2,
        _ => panic!("{}", printed.escape_ascii()),
    }
}

#[test]
fn random_inputs() {
    let next = AtomicUsize::new(0);
    let seen = [const { AtomicUsize::new(0) }; 3];
    let run = || loop {
        let n = next.fetch_add(1, Ordering::Relaxed);
        if n >= INPUTS {
            break;
        }
        let input = input(n);
        let printed = proved::pathcheck(&input);
        assert_eq!(printed, pathcheck(&input), "{}", input.escape_ascii());
        seen[verdict(&printed)].fetch_add(1, Ordering::Relaxed);
    };
    std::thread::scope(|scope| (0..THREADS).for_each(|_| drop(scope.spawn(run))));
    let [never, reached, refused] = seen.map(AtomicUsize::into_inner);
    println!("never {never}, reached {reached}, refused {refused}");
    assert!(never > 40 && reached > 80 && refused > 40);
}
