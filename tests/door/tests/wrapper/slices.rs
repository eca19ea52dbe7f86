//! The slices that the wrapper hands out are the caller's own.

use crate::samples::QUESTION;
use door::last_file;
use second::ask::STORE_LEAST;
use second::load_cases::LISTING;
use second::random::Random;
use second::replay::{self, NONE};

/// The listing's policy, loaded by the library.
fn listing() -> Vec<u8> {
    let mut store = vec![7; STORE_LEAST];
    let (text, q) = (LISTING.as_bytes(), QUESTION);
    let (s, start) = (&mut store[..], q.start);
    let said = door::replay(text, s, q.uid, q.gid, start, q.target, q.kind, &[]);
    assert_eq!(said.number, 0);
    store
}

/// Each number: the slice is the second program's part, and no copy of it.
fn own(start: &[u8], store: &[u8]) {
    for number in 0..=NONE {
        let expected = replay::last_file(start, store, number).of(start, store);
        let found = last_file(start, store, number);
        assert!(std::ptr::eq(found, expected), "number {number}");
    }
}

#[test]
fn the_start_itself() {
    let long = [b'/'; 70_000];
    let listing = listing();
    for store in [&[][..], &[255; 3_000], &[0; STORE_LEAST], &listing] {
        for start in [&b""[..], b"/", b"no path", &long] {
            assert!(std::ptr::eq(last_file(start, store, NONE), start));
        }
    }
}

#[test]
fn parts_of_the_store() {
    let listing = listing();
    for (number, path) in (0..).zip(["/", "/bin/", "/etc/"]) {
        let found = last_file(b"/x/", &listing, number);
        assert_eq!(found, path.as_bytes());
        assert!(listing.as_ptr_range().contains(&found.as_ptr()));
    }
    // No such path: in front of the store, with no byte.
    assert!(std::ptr::eq(last_file(b"/x/", &listing, 3), &listing[..0]));
    own(b"/x/", &listing);
    own(b"", &listing[..2_950]);
    let mut random = Random::new(16);
    for _ in 0..300 {
        let len = random.below(8_000);
        let store: Vec<u8> = (0..len).map(|_| random.number() as u8).collect();
        own(b"/x/", &store);
    }
}

#[test]
fn start_and_store_one_area() {
    let listing = listing();
    for area in [&[][..], &[0; 3_000], &[255; 3_000], &listing] {
        assert!(std::ptr::eq(last_file(area, area, NONE), area));
        own(area, area);
    }
}
