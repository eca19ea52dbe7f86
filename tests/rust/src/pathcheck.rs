//! The program's work: an input of question lines and policy, and what is printed.

use crate::ask::{ask, STORE_LEAST, TEXT_MOST, WORK_LEAST};
use crate::lines::{number, take_line, write_line, DIGITS_MOST};

pub const ROOM: usize = 49_152;

/// No more input is needed to know the answer: three lines, a policy text, and one byte too many.
pub const INPUT_MOST: usize = 3 * (DIGITS_MOST + 1) + TEXT_MOST + 1;

/// The question lines: type, shortest and longest rest.
const QUESTION: [(u8, usize, usize); 3] = [(0x60, 9, 9), (0x61, 1, 79), (0x62, 1, 79)];

/// The line of a refusal.
pub fn refused(number: u8, line: u32) -> Vec<u8> {
    let mut lines = Vec::new();
    write_line(&mut lines, &[&[0x8f, number], &(line as u16).to_be_bytes()]);
    lines
}

/// What is printed for an input (of which the first INPUT_MOST bytes decide).
pub fn pathcheck(input: &[u8]) -> Vec<u8> {
    let mut rest = input;
    let mut parts = Vec::new();
    for (n, (kind, least, most)) in QUESTION.into_iter().enumerate() {
        let good = |bytes: &[u8]| bytes[0] == kind && (least..=most).contains(&(bytes.len() - 1));
        match take_line(rest) {
            Some((frame, next)) if good(frame.bytes()) => {
                parts.push(frame.bytes()[1..].to_vec());
                rest = next;
            }
            _ => return refused(18, n as u32 + 1),
        }
    }
    let (uid, gid) = (number(&parts[0][1..5]), number(&parts[0][5..9]));
    let kind = parts[0][0];
    let (start, target) = (&parts[1], &parts[2]);
    let outcome = ask(
        rest,
        STORE_LEAST,
        WORK_LEAST,
        ROOM,
        uid,
        gid,
        start,
        target,
        kind,
    );
    match outcome.number {
        0 => outcome.answer,
        17 => refused(17, 0),
        number => refused(number, outcome.value),
    }
}
