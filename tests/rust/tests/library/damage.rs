//! Damaged texts: every byte changed, dropped or doubled.

use crate::calls::ask;
use crate::samples::QUESTION;
use second::against::Lengths;
use second::ask::Question;
use second::generator::{case, Size};
use second::load_cases::LISTING;
use second::random::Random;

/// What a byte becomes.
const VALUES: [u8; 12] = *b"\0\n\r 019afgF\xff";

/// Asks about every damage of a text; which numbers were given.
fn damaged(text: &[u8], question: &Question) -> [u32; 18] {
    let mut seen = [0; 18];
    let mut check = |text: &[u8]| match ask(text, question, &Lengths::least(200)) {
        Ok(outcome) => seen[outcome.number as usize] += 1,
        Err(fault) => panic!("{fault}: {}", text.escape_ascii()),
    };
    for at in 0..text.len() {
        let (before, rest) = text.split_at(at);
        let (byte, after) = (rest[0], &rest[1..]);
        let values = VALUES.into_iter().chain([byte ^ 1, byte ^ 8, byte ^ 0x20]);
        for value in values.filter(|v| *v != byte) {
            check(&[before, &[value], after].concat());
        }
        check(&[before, after].concat());
        check(&[before, &[byte, byte], after].concat());
        check(before);
    }
    seen
}

#[test]
fn the_listing_damaged() {
    let seen = damaged(LISTING.as_bytes(), &QUESTION);
    for number in [0, 7, 8, 9, 10, 11, 13, 14, 15] {
        assert!(seen[number] > 0, "{number}");
    }
}

/// Whole lines of the listing: each dropped, doubled, swapped with every other.
#[test]
fn lines_of_the_listing() {
    let lines: Vec<&str> = LISTING.split_inclusive('\n').collect();
    let check = |lines: &[&str]| {
        let text = lines.concat().into_bytes();
        let asked = ask(&text, &QUESTION, &Lengths::least(200));
        assert!(asked.is_ok(), "{asked:?} {lines:?}");
    };
    for n in 0..lines.len() {
        let (before, rest) = lines.split_at(n);
        check(&[before, &rest[1..]].concat());
        check(&[before, &rest[..1], rest].concat());
        for other in 0..n {
            let mut swapped = lines.clone();
            swapped.swap(n, other);
            check(&swapped);
        }
    }
}

#[test]
fn random_policies_damaged() {
    let mut random = Random::new(11);
    for _ in 0..6 {
        let case = case(&mut random, Size::Small);
        damaged(&case.text(), &case.question());
    }
}
