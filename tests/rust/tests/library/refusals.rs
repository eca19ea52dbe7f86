//! Which refusal is given, and in which order.

use crate::calls::ask;
use crate::samples::{cases_of_texts, samples, with_faults, Sample, LONG};
use second::against::{Lengths, WORK_BYTES};
use second::ask::{Question, STORE_LEAST, TEXT_MOST};
use second::frames::{ended, text};
use second::large::{fullest, many_states};
use second::load_cases::LISTING;

/// All load cases, with the number and line worked out by hand.
#[test]
fn load_cases() {
    for (text, number, value) in cases_of_texts() {
        if number != 0 {
            Sample {
                text,
                number,
                value,
                ..Sample::listing()
            }
            .check();
        }
    }
    assert!((0..=17).all(|n| samples().iter().any(|s| s.number == n)));
}

/// Of several faults among 1 to 6 the lowest decides, and all come before those of the text: every set of them.
#[test]
fn the_lowest_of_1_to_6() {
    // Texts that earn 7, 9 and 14.
    for text in [&b"\n"[..], b"7f0000\n", b""] {
        for twin in [false, true] {
            for faults in 1..64usize {
                let mut sample = with_faults(faults, twin, text);
                sample.number = faults.trailing_zeros() as u8 + 1;
                sample.value = 0;
                sample.check();
            }
        }
    }
}

/// The number for lengths of text, store and work area.
fn number(text: &[u8], store: usize, work: usize) -> u8 {
    let lengths = Lengths {
        store,
        work,
        room: 100,
    };
    let question = Question {
        uid: 0,
        gid: 0,
        start: b"/",
        target: b"/",
        kind: 1,
    };
    let outcome = ask(text, &question, &lengths);
    outcome.map_or_else(|fault| panic!("{fault}"), |o| o.number)
}

#[test]
fn lengths() {
    let listing = LISTING.as_bytes();
    let (store, work) = (STORE_LEAST, WORK_BYTES);
    for short in [0, 1, 2, 16_382, 16_383] {
        assert_eq!(number(listing, short, work), 2);
    }
    // 24,576 is the count of numbers, not of bytes.
    for short in [0, 1, 24_575, 24_576, 24_577, 49_150, 49_151] {
        assert_eq!(number(listing, store, short), 3);
    }
    for more in [0, 1, 2, 3, 5, 255] {
        assert_eq!(number(listing, store + more, work), 0);
        assert_eq!(number(listing, store, work + more), 0);
    }
    assert_eq!(number(&fullest(), store, work), 0);
    assert_eq!(fullest().len(), TEXT_MOST);
    let longer = [fullest(), vec![b'\n']].concat();
    assert_eq!(number(&longer, store, work), 1);
    assert_eq!(number(&LONG, store, work), 1);
    assert_eq!(number(&LONG[1..], store, work), 7);
    assert_eq!(number(b"", store, work), 14);
    let states = |subjects| text(&ended(many_states(subjects)));
    assert_eq!(number(&states(8), store, work), 0);
    assert_eq!(number(&states(9), store, work), 16);
}

/// Whether start and target are taken for paths.
#[test]
fn paths_asked() {
    let of = |n: usize| [b"/", &vec![b'a'; n - 2][..], b"/"].concat();
    let check = |start: &[u8], target: &[u8], good: bool| {
        let question = Question {
            uid: 0,
            gid: 0,
            start,
            target,
            kind: 0,
        };
        let outcome = ask(LISTING.as_bytes(), &question, &Lengths::least(100));
        let number = outcome.map(|o| o.number);
        assert_eq!(number, Ok(if good { 0 } else { 4 }), "{start:?} {target:?}");
    };
    let bad: [&[u8]; 10] = [
        b"", b"a", b"a/", b"/a", b"//", b"/a//", b"//a/", b"/\0/", b"\0", b"/a/\0",
    ];
    for path in bad.into_iter().chain([&of(65)[..], &of(200)]) {
        check(path, b"/", false);
        check(b"/", path, false);
        check(path, path, false);
    }
    let good: [&[u8]; 6] = [b"/", b"/*/", b"/?[/", b"/./../", b"/\n\xff/", b"/a/a/"];
    for path in good.into_iter().chain([&of(63)[..], &of(64)]) {
        check(path, b"/", true);
        check(b"/", path, true);
    }
}

/// The highest ids are ids, one more is nobody; kinds run to 1.
#[test]
fn ids_and_kinds_asked() {
    for (uid, gid, kind, number) in [
        (0, 0, 0, 0),
        (u32::MAX - 1, u32::MAX - 1, 1, 0),
        (u32::MAX, 0, 0, 5),
        (0, u32::MAX, 0, 5),
        (u32::MAX, u32::MAX, 1, 5),
        (0, 0, 2, 6),
        (0, 0, 128, 6),
        (0, 0, 255, 6),
    ] {
        let mut sample = Sample::listing();
        (sample.question.uid, sample.question.gid) = (uid, gid);
        sample.question.kind = kind;
        sample.number = number;
        // Without its own account the listing answers never: 13 bytes.
        sample.value = if number == 0 { 13 } else { 0 };
        sample.check();
    }
}
