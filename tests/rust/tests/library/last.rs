//! The last file's path: a part of the start, or of the store, whatever its bytes are.

use crate::calls::{last_files, replay, replay_alone};
use crate::runs::{all_kinds, ASKED, RUN};
use crate::samples::{cases_of_texts, QUESTION};
use second::ask::{Question, STORE_LEAST};
use second::generator::{case, row, Size};
use second::lent::Area;
use second::library::{self, Part, HOLDS, NOT_GRANTED, NO_STEP, OF_STORE};
use second::load_cases::LISTING;
use second::policy::{load, Policy};
use second::random::Random;
use second::replay::{step, Replayed, Step, LEAVE, NONE};

/// The store's places that docs/LAYOUT.md names.
const COUNT: usize = 2;
const PLACES: usize = 676;
const POOL: usize = 2_948;

/// Any start.
const START: &[u8] = b"/x/";

/// Each number below 255, with the library's part of a store; for 255 it must be the whole start.
fn parts(store: &[u8]) -> impl Iterator<Item = (u8, Part)> {
    let numbers: Vec<u8> = (0..=NONE).collect();
    let mut parts = last_files(START, store, &numbers);
    assert_eq!(parts.pop(), Some(Part::start(START)));
    numbers.into_iter().zip(parts)
}

/// A replay by the library, and the store that it leaves.
fn replayed(text: &[u8], question: &Question, steps: &[Step]) -> (library::Replayed, Vec<u8>) {
    let mut store = Area::with(&[7; STORE_LEAST]);
    let said = replay_alone(text, &mut store, question, steps);
    (said, store.lent().to_vec())
}

/// A store with a policy that is loaded by the library.
fn loaded(text: &[u8]) -> Vec<u8> {
    let (said, store) = replayed(text, &QUESTION, &[]);
    assert_eq!(said.number, 0);
    store
}

#[test]
fn number_255_is_the_whole_start() {
    let long: Vec<u8> = (0..=255).cycle().take(70_000).collect();
    let stores = [&[][..], &[0], &[255; 3_000], &[0; STORE_LEAST], &long];
    let listing = loaded(LISTING.as_bytes());
    let starts = [&b""[..], b"/", b"/x/", b"no path", &[0; 200], &long];
    for store in stores.into_iter().chain([&listing[..]]) {
        // The start and the store may be one area.
        for start in starts.into_iter().chain([store]) {
            assert_eq!(last_files(start, store, &[NONE]), [Part::start(start)]);
        }
    }
}

/// Each number below 255: the policy's path, and none past the last one.
fn paths_of(policy: &Policy, store: &[u8]) {
    for (number, part) in parts(store) {
        let path = policy.paths.get(number as usize);
        let expected = path.map_or(&b""[..], |path| path.bytes());
        assert_eq!(part.stored, OF_STORE);
        assert_eq!(part.of(START, store), expected, "number {number}");
    }
}

#[test]
fn every_path_of_a_loaded_policy() {
    let mut longest = 0;
    for (text, number, _) in cases_of_texts() {
        if number == 0 {
            let policy = load(&text).expect("it is accepted");
            paths_of(&policy, &loaded(&text));
            longest = longest.max(policy.paths.len());
        }
    }
    assert_eq!(longest, 96);
    let mut random = Random::new(13);
    let sizes = [Size::Small, Size::Usual, Size::ManyRoles, Size::ManyPaths];
    for n in 0..200 {
        let text = case(&mut random, sizes[n % 4]).text();
        match load(&text) {
            Ok(policy) => paths_of(&policy, &loaded(&text)),
            // What a refusal leaves has no path.
            Err(_) => {
                let store = refused(&text);
                assert!(parts(&store).all(|(_, part)| part == Part::EMPTY));
            }
        }
    }
}

/// The store that a refused text leaves.
fn refused(text: &[u8]) -> Vec<u8> {
    let (said, store) = replayed(text, &QUESTION, &RUN);
    assert!(said.number != 0 && said.file == NONE);
    store
}

#[test]
fn zeroed_stores() {
    let check = |store: &[u8]| {
        for (number, part) in parts(store) {
            assert_eq!(part, Part::EMPTY, "number {number}");
        }
    };
    for len in (0..=3_000).chain([STORE_LEAST, STORE_LEAST + 1, 70_000]) {
        check(&vec![0; len]);
    }
    check(&refused(b""));
    check(&refused(&LISTING.as_bytes()[1..]));
}

/// A loaded store cut at each length: a path is there as soon as its last byte is.
#[test]
fn short_stores() {
    let listing = loaded(LISTING.as_bytes());
    let ends = [(1, "/"), (6, "/bin/"), (11, "/etc/")].map(|(at, path)| (POOL + at, path));
    for len in 0..=3_000 {
        let store = &listing[..len];
        for (number, part) in parts(store) {
            let expected = match ends.get(number as usize) {
                Some((end, path)) if *end <= len => path,
                _ => "",
            };
            let found = part.of(START, store);
            assert_eq!(found, expected.as_bytes(), "{number} of {len}");
        }
    }
}

/// Stores of one byte throughout, of each length up to 3,000.
#[test]
fn short_stores_of_one_byte() {
    for byte in [1, 2, 3, 95, 96, 128, 254, 255] {
        let bytes = [byte; 3_000];
        for len in 0..=bytes.len() {
            let store = &bytes[..len];
            assert!(parts(store).all(|(_, part)| part == Part::EMPTY || len > POOL));
        }
    }
}

/// A store with one path's place written, of a length that ends where the path does, and around it.
#[test]
fn a_path_at_the_end() {
    for number in [0, 1, 2, 95, 96, 200, 254] {
        for place in [0u16, 1, 255, 256, 4_660, 65_535] {
            for size in [0u8, 1, 2, 64, 65, 255] {
                let from = POOL + place as usize;
                let end = from + size as usize;
                let mut bytes: Vec<u8> = (0..end + 2).map(|at| at as u8).collect();
                let row = PLACES + 3 * number as usize;
                bytes[row..row + 2].copy_from_slice(&place.to_be_bytes());
                bytes[row + 2] = size;
                for (len, count, there) in [
                    (end, number + 1, true),
                    (end + 1, number + 1, true),
                    (end + 2, 255, true),
                    (end - 1, number + 1, false),
                    (end, number, false),
                    (end + 2, 0, false),
                ] {
                    bytes[COUNT] = count;
                    let expected = match there && size > 0 {
                        true => Part {
                            stored: OF_STORE,
                            from,
                            size: size.into(),
                        },
                        false => Part::EMPTY,
                    };
                    let found = last_files(START, &bytes[..len], &[number]);
                    assert_eq!(found, [expected], "{number} {place} {size}");
                }
            }
        }
    }
}

/// Random bytes of many lengths: always a part inside, and often not empty.
#[test]
fn random_stores() {
    let mut random = Random::new(14);
    let (mut empty, mut filled) = (0, 0);
    for n in 0..3_000 {
        let most = [800, 3_000, 4_000, STORE_LEAST, 70_000][n % 5];
        let len = random.below(most + 1);
        let store: Vec<u8> = (0..len).map(|_| random.number() as u8).collect();
        for (_, part) in parts(&store) {
            match part.of(START, &store).len() {
                0 => empty += 1,
                _ => filled += 1,
            }
        }
    }
    assert!(empty > 10_000 && filled > 10_000, "{empty} {filled}");
}

/// A loaded store with one byte changed, for each byte that a path is found by.
#[test]
fn damaged_stores() {
    let mut store = loaded(&all_kinds());
    for at in (0..16).chain(PLACES..PLACES + 12).chain(POOL..POOL + 12) {
        let own = store[at];
        for byte in 0..=255 {
            store[at] = byte;
            last_files(START, &store, &[0, 1, 2, 3, 4, 95, 254, NONE]);
        }
        store[at] = own;
    }
}

/// The last exec's file where a row holds; the start where nothing was executed, and under any other verdict.
#[test]
fn after_a_replay() {
    let text = all_kinds();
    let read = Question { kind: 0, ..ASKED };
    let again = step(0x84, 0, 9, 6, 1, 1);
    let twice = [&RUN[..4], &[again], &RUN[5..]].concat();
    let bad = [Step::default()];
    let table: [(&Question, &[Step], u8, &[u8]); 7] = [
        (&ASKED, &RUN, HOLDS, b"/a/b/"),
        (&ASKED, &twice, HOLDS, b"/a/"),
        (&read, &[], HOLDS, b"/x/"),
        (&read, &RUN[..4], HOLDS, b"/x/"),
        (&read, &[LEAVE], HOLDS, b"/x/"),
        (&ASKED, &RUN[..4], NOT_GRANTED, b"/x/"),
        (&ASKED, &bad, NO_STEP, b"/x/"),
    ];
    for (question, steps, verdict, path) in table {
        let (said, store) = replayed(&text, question, steps);
        assert_eq!((said.number, said.verdict), (0, verdict));
        let part = last_files(question.start, &store, &[said.file])[0];
        assert_eq!(part.of(question.start, &store), path);
        let start = part == Part::start(question.start);
        assert_eq!(start, path == question.start);
    }
    let (said, store) = replayed(b"", &ASKED, &RUN);
    assert_eq!((said.number, said.file), (14, NONE));
    let found = last_files(ASKED.start, &store, &[said.file]);
    assert_eq!(found, [Part::start(b"/x/")]);
}

/// Random rows: `replay` looks at the last file of each that holds.
#[test]
fn after_random_replays() {
    let mut random = Random::new(15);
    let (mut executed, mut none) = (0, 0);
    for n in 0..1_000 {
        let size = [Size::Small, Size::Usual][n % 2];
        let case = case(&mut random, size);
        let (text, question) = (case.text(), case.question());
        let Ok(policy) = load(&text) else { continue };
        let len = random.below(12);
        let steps = row(&mut random, &policy, &question, len, 0);
        match replay(&text, &question, STORE_LEAST, &steps) {
            Ok(Replayed::Holds(NONE)) => none += 1,
            Ok(Replayed::Holds(_)) => executed += 1,
            Ok(_) => (),
            Err(fault) => panic!("{fault}: {steps:?}"),
        }
    }
    assert!(executed > 50 && none > 50, "{executed} {none}");
}
