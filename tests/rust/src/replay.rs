//! Replay: step records walked against the real steps; the last file's path.

use crate::ask::{Question, EXECUTE, SET_GROUP, SET_USER, STORE_LEAST, TAKE_SPECIAL, TEXT_MOST};
use crate::layout::path_at;
use crate::library::{Part, OF_STORE};
use crate::model::{self, access, object_for, Move, Real};
use crate::policy::{load, Policy, Refusal};

/// No role, no file.
pub const NONE: u8 = 255;

/// A step record. Fields that a kind does not use are 0. It lies in memory as C lays it, so that a row of them
/// can be lent to the library in one process with it.
#[repr(C)]
#[derive(Clone, Copy, Debug, Default, PartialEq, Eq)]
pub struct Step {
    pub kind: u8,
    pub role: u8,
    pub uid: u32,
    pub gid: u32,
    pub object: u8,
    pub file: u8,
}

/// A step record with these fields.
pub const fn step(kind: u8, role: u8, uid: u32, gid: u32, object: u8, file: u8) -> Step {
    Step {
        kind,
        role,
        uid,
        gid,
        object,
        file,
    }
}

/// Leaves the special role.
pub const LEAVE: Step = step(TAKE_SPECIAL, NONE, 0, 0, 0, 0);

#[derive(Clone, Copy, Debug, PartialEq, Eq)]
pub enum Replayed {
    Refused(Refusal),
    /// The last file's path number, 255 if nothing was executed.
    Holds(u8),
    /// The first record, from 0, that is no real step.
    NoStep(usize),
    NotGranted,
}

/// One record from a state: the state after it, if it is a real step.
pub fn step_record<'a>(policy: &'a Policy, state: Real<'a>, record: &Step) -> Option<Real<'a>> {
    let (kind, role, uid, gid) = (record.kind, record.role, record.uid, record.gid);
    let used = match kind {
        TAKE_SPECIAL => step(kind, role, 0, 0, 0, 0),
        SET_USER => step(kind, 0, uid, 0, 0, 0),
        SET_GROUP => step(kind, 0, 0, gid, 0, 0),
        EXECUTE => Step { role: 0, ..*record },
        _ => return None,
    };
    if used != *record {
        return None;
    }
    let what = match kind {
        TAKE_SPECIAL => Move::SetSpecial((role != NONE).then_some(role)),
        SET_USER => Move::SetUser(uid),
        SET_GROUP => Move::SetGroup(gid),
        _ => {
            let file = policy.paths.get(record.file as usize)?.bytes();
            let entry = state.entry(policy);
            let own = policy.objects(entry)[object_for(policy, entry, file)];
            if own.path != record.object {
                return None;
            }
            Move::Exec { file, uid, gid }
        }
    };
    model::step(policy, state, what)
}

/// Replay of records in an accepted policy.
pub fn walk(policy: &Policy, question: &Question, steps: &[Step]) -> Replayed {
    let mut state = Real {
        special: None,
        uid: question.uid,
        gid: question.gid,
        file: question.start,
    };
    let mut last = NONE;
    for (n, record) in steps.iter().enumerate() {
        state = match step_record(policy, state, record) {
            Some(after) => after,
            None => return Replayed::NoStep(n),
        };
        if record.kind == EXECUTE {
            last = record.file;
        }
    }
    match access(policy, state, question.target, question.kind) {
        true => Replayed::Holds(last),
        false => Replayed::NotGranted,
    }
}

/// The whole call, the store given by its length: refusals 1, 2, 4 to 16, then the walk.
pub fn replay(text: &[u8], store_len: usize, question: &Question, steps: &[Step]) -> Replayed {
    let refuse = |number| Replayed::Refused(Refusal { number, line: 0 });
    if text.len() > TEXT_MOST {
        return refuse(1);
    }
    if store_len < STORE_LEAST {
        return refuse(2);
    }
    if let Some(number) = question.fault() {
        return refuse(number);
    }
    match load(text) {
        Ok(policy) => walk(&policy, question, steps),
        Err(refusal) => Replayed::Refused(refusal),
    }
}

/// The last file's path by its number: the start, or a part of the store. An empty part is in front of it.
pub fn last_file(start: &[u8], store: &[u8], number: u8) -> Part {
    if number == NONE {
        return Part::start(start);
    }
    match path_at(store, number) {
        Some(path) if !path.is_empty() => Part {
            stored: OF_STORE,
            from: path.start,
            size: path.len(),
        },
        _ => Part::EMPTY,
    }
}
