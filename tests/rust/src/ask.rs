//! The whole ask: refusals in their order, the answer's lines.

use crate::layout;
use crate::lines::{number, take_line, write_line};
use crate::policy::{is_path, load, Policy, Refusal, NOBODY, PATH_BYTES_MOST};
use crate::replay::Step;
use crate::search::search;

pub const TEXT_MOST: usize = 32_768;
pub const STORE_LEAST: usize = 16_384;
pub const WORK_LEAST: usize = 24_576;

/// Types of the step lines.
pub const TAKE_SPECIAL: u8 = 0x81;
pub const SET_USER: u8 = 0x82;
pub const SET_GROUP: u8 = 0x83;
pub const EXECUTE: u8 = 0x84;

/// Number 0: `value` is the answer's length. 17: the bytes needed. Else the line.
#[derive(Clone, Debug, PartialEq, Eq)]
pub struct Outcome {
    pub number: u8,
    pub value: u32,
    /// The answer's lines; empty unless the number is 0.
    pub answer: Vec<u8>,
}

impl From<Refusal> for Outcome {
    fn from(refusal: Refusal) -> Outcome {
        Outcome {
            number: refusal.number,
            value: refusal.line,
            answer: Vec::new(),
        }
    }
}

/// A question to a policy.
#[derive(Clone, Copy, Debug)]
pub struct Question<'a> {
    pub uid: u32,
    pub gid: u32,
    pub start: &'a [u8],
    pub target: &'a [u8],
    pub kind: u8,
}

impl Question<'_> {
    /// The first of refusals 4 to 6 that the question earns.
    pub fn fault(&self) -> Option<u8> {
        let good = |path: &[u8]| is_path(path) && path.len() <= PATH_BYTES_MOST;
        if !good(self.start) || !good(self.target) {
            Some(4)
        } else if self.uid == NOBODY || self.gid == NOBODY {
            Some(5)
        } else if self.kind > 1 {
            Some(6)
        } else {
            None
        }
    }
}

/// What a search finds.
#[derive(Clone, Debug, PartialEq, Eq)]
pub struct Found {
    pub reached: bool,
    pub opened: usize,
    pub steps: Vec<Step>,
}

impl Found {
    /// The answer's lines.
    pub fn lines(&self) -> Vec<u8> {
        let mut lines = Vec::with_capacity(self.bytes());
        let head = [
            &[0x80, self.reached as u8][..],
            &(self.opened as u16).to_be_bytes(),
            &(self.steps.len() as u16).to_be_bytes(),
        ];
        write_line(&mut lines, &head);
        for step in &self.steps {
            let (uid, gid) = (step.uid.to_be_bytes(), step.gid.to_be_bytes());
            match step.kind {
                TAKE_SPECIAL => write_line(&mut lines, &[&[TAKE_SPECIAL, step.role]]),
                SET_USER => write_line(&mut lines, &[&[SET_USER], &uid]),
                SET_GROUP => write_line(&mut lines, &[&[SET_GROUP], &gid]),
                _ => {
                    let head = [EXECUTE, step.object, step.file];
                    write_line(&mut lines, &[&head, &uid, &gid])
                }
            }
        }
        lines
    }

    /// Reads the answer that stands in front of these bytes: as many step lines as its first line says, whatever
    /// follows them.
    pub fn read(bytes: &[u8]) -> Option<Found> {
        let (head, mut rest) = take_line(bytes)?;
        let head = head.bytes();
        let mut steps = Vec::new();
        for _ in 0..number(&head[4..6]) {
            let (line, behind) = take_line(rest)?;
            steps.push(step_of(line.bytes()));
            rest = behind;
        }
        Some(Found {
            reached: head[1] == 1,
            opened: number(&head[2..4]) as usize,
            steps,
        })
    }

    /// The answer's length.
    pub fn bytes(&self) -> usize {
        let line = |step: &Step| match step.kind {
            TAKE_SPECIAL => 5,
            SET_USER | SET_GROUP => 11,
            _ => 23,
        };
        13 + self.steps.iter().map(line).sum::<usize>()
    }
}

/// The step that a line's bytes spell.
fn step_of(bytes: &[u8]) -> Step {
    let mut step = Step {
        kind: bytes[0],
        ..Step::default()
    };
    match bytes[0] {
        TAKE_SPECIAL => step.role = bytes[1],
        SET_USER => step.uid = number(&bytes[1..5]),
        SET_GROUP => step.gid = number(&bytes[1..5]),
        _ => {
            (step.object, step.file) = (bytes[1], bytes[2]);
            (step.uid, step.gid) = (number(&bytes[3..7]), number(&bytes[7..11]));
        }
    }
    step
}

/// An accepted text, and what the search finds in it.
#[derive(Clone, Debug)]
pub struct Accepted {
    pub policy: Policy,
    pub found: Found,
}

/// The ask up to its room: refusals 1 to 16, or the policy and what is found. The work area's length is in
/// numbers.
pub fn weigh(
    text: &[u8],
    store_len: usize,
    work_len: usize,
    question: &Question,
) -> Result<Accepted, Refusal> {
    let refuse = |number| Err(Refusal { number, line: 0 });
    if text.len() > TEXT_MOST {
        return refuse(1);
    }
    if store_len < STORE_LEAST {
        return refuse(2);
    }
    if work_len < WORK_LEAST {
        return refuse(3);
    }
    if let Some(number) = question.fault() {
        return refuse(number);
    }
    let policy = load(text)?;
    let found = search(&policy, question);
    Ok(Accepted { policy, found })
}

/// The ask with its nine parts, a store, a work area and a room given by their lengths.
#[allow(clippy::too_many_arguments)]
pub fn ask(
    text: &[u8],
    store_len: usize,
    work_len: usize,
    room_len: usize,
    uid: u32,
    gid: u32,
    start: &[u8],
    target: &[u8],
    kind: u8,
) -> Outcome {
    let question = Question {
        uid,
        gid,
        start,
        target,
        kind,
    };
    match weigh(text, store_len, work_len, &question) {
        Ok(accepted) => answered(&accepted.found, room_len),
        Err(refusal) => refusal.into(),
    }
}

/// The answer of an accepted ask, or refusal 17.
pub fn answered(found: &Found, room_len: usize) -> Outcome {
    let needed = found.bytes();
    let fits = needed <= room_len;
    Outcome {
        number: if fits { 0 } else { 17 },
        value: needed as u32,
        answer: if fits { found.lines() } else { Vec::new() },
    }
}

/// What an ask is lent: a store, a work area of bytes, two a number, and a room.
pub struct Lent<'a> {
    pub store: &'a mut [u8],
    pub work: &'a mut [u8],
    pub room: &'a mut [u8],
}

/// The ask with all that it leaves in the lent areas: number, and value as in an outcome.
pub fn ask_lent(text: &[u8], lent: Lent, question: &Question) -> (u8, u32) {
    match weigh(text, lent.store.len(), lent.work.len() / 2, question) {
        Ok(Accepted { policy, found }) => {
            layout::write(&policy, lent.store);
            lent.work[..2 * WORK_LEAST].fill(0);
            let outcome = answered(&found, lent.room.len());
            lent.room[..outcome.answer.len()].copy_from_slice(&outcome.answer);
            (outcome.number, outcome.value)
        }
        Err(Refusal { number, line }) => {
            if number > 6 {
                lent.store[..STORE_LEAST].fill(0);
            }
            (number, line)
        }
    }
}
