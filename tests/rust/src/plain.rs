//! The search once more, straight from the definitions: first runs are compared label by label, and the
//! states opened are counted by comparing first runs. Slow; a check of `ask`.

use crate::ask::{Found, Question, EXECUTE, SET_GROUP, SET_USER, TAKE_SPECIAL};
use crate::model::{
    abstract_access, abstract_entry, abstract_steps, abstraction, object_for,
    smallest_without_role, Abstract, Choice, Label, Real,
};
use crate::policy::{Ids, Kind, Policy};
use crate::replay::{Step, NONE};
use std::collections::HashMap;

type Run = Vec<Label>;

/// All abstract states reached with their first runs: the shortest, among those the first in order.
fn first_runs(policy: &Policy, start: Abstract) -> HashMap<Abstract, Run> {
    let mut runs = HashMap::from([(start, Run::new())]);
    let mut level = vec![start];
    while !level.is_empty() {
        let mut next: HashMap<Abstract, Run> = HashMap::new();
        for state in &level {
            for (label, after) in abstract_steps(policy, state) {
                if runs.contains_key(&after) {
                    continue;
                }
                let mut run = runs[state].clone();
                run.push(label);
                next.entry(after)
                    .and_modify(|old| *old = run.clone().min(old.clone()))
                    .or_insert(run);
            }
        }
        level = next.keys().copied().collect();
        runs.extend(next);
    }
    runs
}

/// The id that a choice of role is written with.
fn id(policy: &Policy, kind: Kind, ids: &Ids, role: Option<u8>) -> u32 {
    match role {
        Some(r) => policy.roles[r as usize].id,
        None => smallest_without_role(policy, kind, ids).expect("none is allowed"),
    }
}

fn chosen(policy: &Policy, kind: Kind, ids: &Ids, choice: Choice, kept: u32) -> u32 {
    match choice {
        Choice::Kept => kept,
        Choice::None => id(policy, kind, ids, None),
        Choice::Role(r) => id(policy, kind, ids, Some(r)),
    }
}

/// A run's steps as they are written.
fn written(policy: &Policy, question: &Question, start: Abstract, run: &Run) -> Vec<Step> {
    let (mut state, mut uid, mut gid) = (start, question.uid, question.gid);
    let mut steps = Vec::new();
    for label in run {
        let e = abstract_entry(policy, &state);
        let entry = &policy.entries[e];
        let mut step = Step::default();
        match *label {
            Label::Special(special) => {
                step.kind = TAKE_SPECIAL;
                step.role = special.unwrap_or(NONE);
            }
            Label::User(user) => {
                uid = id(policy, Kind::User, &entry.users, user);
                step.kind = SET_USER;
                step.uid = uid;
            }
            Label::Group(group) => {
                gid = id(policy, Kind::Group, &entry.groups, group);
                step.kind = SET_GROUP;
                step.gid = gid;
            }
            Label::Exec {
                place,
                user,
                group,
                subject,
            } => {
                uid = chosen(policy, Kind::User, &entry.users, user, uid);
                gid = chosen(policy, Kind::Group, &entry.groups, group, gid);
                step.kind = EXECUTE;
                (step.uid, step.gid) = (uid, gid);
                step.object = policy.objects(e)[place].path;
                let own = object_for(policy, e, policy.path(subject)) == place;
                step.file = if own { subject } else { step.object };
            }
        }
        steps.push(step);
        let all = abstract_steps(policy, &state);
        let after = all.iter().find(|(l, _)| l == label);
        state = after.expect("a run's labels are steps").1;
    }
    steps
}

pub fn search(policy: &Policy, question: &Question) -> Found {
    let real = Real {
        special: None,
        uid: question.uid,
        gid: question.gid,
        file: question.start,
    };
    let start = abstraction(policy, real);
    let runs = first_runs(policy, start);
    let has_access = |s: &&Abstract| abstract_access(policy, s, question.target, question.kind);
    let key = |s: &Abstract| (runs[s].len(), runs[s].clone());
    let shown = runs.keys().filter(has_access).map(key).min();
    match shown {
        None => Found {
            reached: false,
            opened: runs.len(),
            steps: Vec::new(),
        },
        Some(shown) => Found {
            reached: true,
            opened: runs.keys().filter(|s| key(s) < shown).count(),
            steps: written(policy, question, start, &shown.1),
        },
    }
}
