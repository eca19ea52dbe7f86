//! Rows of step records: walks through a policy in which most records are real steps.

use crate::ask::{Question, EXECUTE, SET_GROUP, SET_USER, TAKE_SPECIAL};
use crate::model::{object_for, Real};
use crate::policy::{Ids, Kind, Policy, NOBODY};
use crate::random::Random;
use crate::replay::{step, step_record, Step, LEAVE, NONE};

/// Draws per record: the first that is a real step is taken.
const DRAWS: usize = 8;

/// An id: the one that is held, a listed one, a role's, or any.
fn id(random: &mut Random, policy: &Policy, kind: Kind, ids: &Ids, held: u32) -> u32 {
    let roles = policy.roles_of(kind);
    match random.below(8) {
        0..=2 if !ids.listed().is_empty() => random.pick(ids.listed()),
        3 | 4 if !roles.is_empty() => policy.roles[random.pick(&roles) as usize].id,
        5 => random.pick(&[0, 1, 4, 7, 1000, NOBODY - 1, NOBODY]),
        _ => held,
    }
}

/// A record that may be a step from a state: its parts are the policy's, mostly such as fit each other.
fn drawn(random: &mut Random, policy: &Policy, state: &Real) -> Step {
    let number = state.entry(policy);
    let entry = &policy.entries[number];
    let uid = id(random, policy, Kind::User, &entry.users, state.uid);
    let gid = id(random, policy, Kind::Group, &entry.groups, state.gid);
    match random.below(8) {
        0 | 1 => {
            let specials = policy.roles_of(Kind::Special);
            let role = match random.below(8) {
                0 => random.below(policy.roles.len() + 1) as u8,
                1..=5 if !specials.is_empty() => random.pick(&specials),
                _ => NONE,
            };
            step(TAKE_SPECIAL, role, 0, 0, 0, 0)
        }
        2 => step(SET_USER, 0, uid, 0, 0, 0),
        3 => step(SET_GROUP, 0, 0, gid, 0, 0),
        _ => {
            let file = random.below(policy.paths.len()) as u8;
            let place = object_for(policy, number, policy.path(file));
            let own = policy.objects(number)[place].path;
            let object = if random.chance(97) { own } else { file };
            step(EXECUTE, 0, uid, gid, object, file)
        }
    }
}

/// A row of records from a question's start. `bad`: how many in a thousand are taken as drawn, step or not.
pub fn row(
    random: &mut Random,
    policy: &Policy,
    question: &Question,
    len: usize,
    bad: usize,
) -> Vec<Step> {
    let mut state = Real {
        special: None,
        uid: question.uid,
        gid: question.gid,
        file: question.start,
    };
    let mut steps = Vec::with_capacity(len);
    for _ in 0..len {
        let draws = if random.below(1000) < bad { 1 } else { DRAWS };
        let mut record = LEAVE;
        for _ in 0..draws {
            record = drawn(random, policy, &state);
            if step_record(policy, state, &record).is_some() {
                break;
            }
        }
        if draws == DRAWS && step_record(policy, state, &record).is_none() {
            // Leaving the special role is always a step.
            record = LEAVE;
        }
        steps.push(record);
        match step_record(policy, state, &record) {
            Some(after) => state = after,
            None => break,
        }
    }
    steps
}
