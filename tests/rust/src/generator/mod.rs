//! Seeded random policies with a question, and damage to texts and step records.

mod damage;
mod draft;
mod full;
mod ladder;
mod rows;

pub use damage::{damage, damage_steps};
pub use rows::row;

use crate::ask::Question;
use crate::frames::{self, Frame};
use crate::random::Random;
use draft::{near, Draft};

/// How large a policy becomes. Small ones suit the finite search; the last two go up to what the tables hold.
#[derive(Clone, Copy, Debug, PartialEq, Eq)]
pub enum Size {
    Small,
    Usual,
    ManyRoles,
    ManyPaths,
}

/// A policy as frames, and a question.
#[derive(Clone, Debug)]
pub struct Case {
    pub frames: Vec<Frame>,
    pub uid: u32,
    pub gid: u32,
    pub start: Vec<u8>,
    pub target: Vec<u8>,
    pub kind: u8,
}

impl Case {
    pub fn text(&self) -> Vec<u8> {
        frames::text(&self.frames)
    }

    pub fn question(&self) -> Question<'_> {
        Question {
            uid: self.uid,
            gid: self.gid,
            start: &self.start,
            target: &self.target,
            kind: self.kind,
        }
    }
}

/// A policy and a question. Most policies are accepted, and many asks are reached in several steps.
pub fn case(random: &mut Random, size: Size) -> Case {
    let open = random.pick(&[0, 0, 2, 5, 10, 20, 40]);
    let mut draft = Draft::default();
    draft.roles(random, size);
    draft.paths(random, size);
    draft.takes(random, open);
    draft.entries(random, size, open);
    if size != Size::Small && random.chance(6) {
        let over = random.below(2);
        draft.fill(random, over);
    }
    let mut case = Case {
        frames: Vec::new(),
        uid: draft.id(random, b'u'),
        gid: draft.id(random, b'g'),
        start: near(random, &draft.paths),
        target: near(random, &draft.paths),
        kind: random.below(2) as u8,
    };
    if random.chance(75) {
        let steps = random.below(if size == Size::Small { 9 } else { 30 });
        draft.ladder(random, &case, steps);
    }
    case.frames = draft.frames();
    case
}
