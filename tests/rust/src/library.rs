//! The proved library's three calls, and what they return: made in this process or in another one.

use crate::ask::Question;
use crate::lent::Area;
use crate::replay::Step;

/// What an ask returns: the refusal's number, 0 for none, and a value: the answer's length for 0, the bytes
/// needed for 17, else the line.
#[derive(Clone, Copy, Debug, PartialEq, Eq)]
pub struct Answer {
    pub number: u32,
    pub value: u32,
}

impl From<u64> for Answer {
    /// The number is in the upper half.
    fn from(result: u64) -> Answer {
        Answer {
            number: (result >> 32) as u32,
            value: result as u32,
        }
    }
}

/// A replay holds.
pub const HOLDS: u8 = 1;
/// A record is no real step.
pub const NO_STEP: u8 = 2;
/// All records are real steps, and the access is not granted at the end.
pub const NOT_GRANTED: u8 = 3;

/// What a replay returns. It lies in memory as C lays it, as does a part.
#[repr(C)]
#[derive(Clone, Copy, Debug, PartialEq, Eq)]
pub struct Replayed {
    /// The refusal's number, 0 for none.
    pub number: u8,
    /// 0 under a refusal, else HOLDS, NO_STEP or NOT_GRANTED.
    pub verdict: u8,
    /// The last file's path number where it holds; 255 for none, and otherwise.
    pub file: u8,
    /// The refusal's line.
    pub line: usize,
    /// The first record that is no real step; 0 under any other verdict.
    pub first: usize,
}

/// A part is of the start.
pub const OF_START: u8 = 0;
/// A part is of the store.
pub const OF_STORE: u8 = 1;

/// What a call for the last file returns: a place in one of the two areas, also where both have the same bytes.
#[repr(C)]
#[derive(Clone, Copy, Debug, PartialEq, Eq)]
pub struct Part {
    /// OF_START or OF_STORE.
    pub stored: u8,
    pub from: usize,
    pub size: usize,
}

impl Part {
    /// The whole start.
    pub fn start(start: &[u8]) -> Part {
        Part {
            stored: OF_START,
            from: 0,
            size: start.len(),
        }
    }

    /// The empty part in front of the store.
    pub const EMPTY: Part = Part {
        stored: OF_STORE,
        from: 0,
        size: 0,
    };

    /// The part itself. One that is not inside its area ends here.
    pub fn of<'a>(&self, start: &'a [u8], store: &'a [u8]) -> &'a [u8] {
        let area = match self.stored {
            OF_START => start,
            OF_STORE => store,
            other => panic!("no area has the number {other}"),
        };
        &area[self.from..][..self.size]
    }
}

/// The library, wherever it runs. What it writes to is lent in areas, so that every byte around can be looked at.
pub trait Library {
    fn ask(
        &mut self,
        text: &[u8],
        store: &mut Area,
        work: &mut Area,
        room: &mut Area,
        question: &Question,
    ) -> Answer;

    fn replay(
        &mut self,
        text: &[u8],
        store: &mut Area,
        question: &Question,
        steps: &[Step],
    ) -> Replayed;

    /// The last file for each number.
    fn last_files(&mut self, start: &[u8], store: &[u8], numbers: &[u8]) -> Vec<Part>;
}
