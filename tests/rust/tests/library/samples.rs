//! Asks for each number, worked out by hand.

use crate::calls::ask;
use second::against::{Lengths, WORK_BYTES};
use second::ask::{Question, STORE_LEAST, TEXT_MOST};
use second::load_cases::{cases, LoadCase, LISTING};

/// The whole listing's question and answer.
pub const QUESTION: Question = Question {
    uid: 1000,
    gid: 100,
    start: b"/",
    target: b"/etc/ntp/",
    kind: 1,
};
pub const ANSWER: &str = "800100020002\n8102\n840101000003e800000064\n";

/// A text that is one byte too long.
pub static LONG: [u8; TEXT_MOST + 1] = [b'\n'; TEXT_MOST + 1];

pub struct Sample {
    pub text: Vec<u8>,
    pub question: Question<'static>,
    pub lengths: Lengths,
    pub number: u8,
    /// The answer's length, the line, or the bytes needed.
    pub value: u32,
}

impl Sample {
    /// The whole listing, which is accepted.
    pub fn listing() -> Sample {
        Sample {
            text: LISTING.as_bytes().to_vec(),
            question: QUESTION,
            lengths: Lengths::least(ANSWER.len()),
            number: 0,
            value: ANSWER.len() as u32,
        }
    }

    /// Asks the library and holds everything against the second program and the sample's own number and value.
    pub fn check(&self) {
        let Sample {
            text,
            question,
            lengths,
            ..
        } = self;
        let outcome = ask(text, question, lengths);
        let said = outcome.map(|outcome| (outcome.number, outcome.value));
        assert_eq!(said, Ok((self.number, self.value)), "{lengths:?}");
    }
}

/// The listing with a fault in what is lent or asked: numbers 1 to 6.
fn early(number: u8) -> Sample {
    let mut sample = Sample::listing();
    (sample.number, sample.value) = (number, 0);
    match number {
        1 => sample.text = LONG.to_vec(),
        2 => sample.lengths.store = STORE_LEAST - 1,
        3 => sample.lengths.work = WORK_BYTES - 1,
        4 => sample.question.target = b"/etc/ntp",
        5 => sample.question.gid = u32::MAX,
        _ => sample.question.kind = 2,
    }
    sample
}

/// An ask with a set of faults: bit n is the fault of refusal n + 1. Twins choose start or target, UID or GID.
pub fn with_faults(faults: usize, twin: bool, text: &'static [u8]) -> Sample {
    let has = |number: usize| faults >> (number - 1) & 1 == 1;
    let mut sample = Sample::listing();
    sample.text = if has(1) { LONG.to_vec() } else { text.to_vec() };
    if has(2) {
        sample.lengths.store = if twin { 0 } else { STORE_LEAST - 1 };
    }
    if has(3) {
        sample.lengths.work = if twin { 0 } else { WORK_BYTES - 1 };
    }
    match (has(4), twin) {
        (false, _) => (),
        (true, true) => sample.question.start = b"",
        (true, false) => sample.question.target = b"//",
    }
    match (has(5), twin) {
        (false, _) => (),
        (true, true) => sample.question.uid = u32::MAX,
        (true, false) => sample.question.gid = u32::MAX,
    }
    if has(6) {
        sample.question.kind = if twin { 255 } else { 2 };
    }
    sample
}

/// The load cases: text, number and line.
pub fn cases_of_texts() -> Vec<(Vec<u8>, u8, u32)> {
    let parts = |c: LoadCase| (c.text, c.expected.0, c.expected.1);
    cases().into_iter().map(parts).collect()
}

/// The load cases that are refused: 7 to 16.
fn loaded() -> Vec<Sample> {
    let sample = |(text, number, value)| Sample {
        text,
        number,
        value,
        ..Sample::listing()
    };
    let refused = cases_of_texts().into_iter().filter(|c| c.1 != 0);
    refused.map(sample).collect()
}

/// For each number from 0 to 17 at least one ask; for 7 to 16 all load cases.
pub fn samples() -> Vec<Sample> {
    let mut list = vec![Sample::listing()];
    list.extend((1..=6).map(early));
    list.extend(loaded());
    for room in [0, 1, 40] {
        list.push(Sample {
            lengths: Lengths::least(room),
            number: 17,
            value: 41,
            ..Sample::listing()
        });
    }
    list
}
