//! A search of real steps (Table II) over a finite set of ids and files: all that the policy and the question
//! name, and a few that nobody names. It knows nothing of abstract states; verdict and least count of steps
//! must be those of the ask.

use crate::ask::Question;
use crate::model::{access, allowed, entry_in_force, may_exec, object_for, role_in_force, Real};
use crate::policy::{Entry, Kind, Policy, SET_GID, SET_UID};

/// All ids of a kind that are named anywhere, and a few that are not.
fn ids(policy: &Policy, kind: Kind, asked: u32) -> Vec<u32> {
    let roles = policy.roles.iter().filter(|r| r.kind == kind).map(|r| r.id);
    let lists = policy.entries.iter().flat_map(|e| match kind {
        Kind::User => e.users.listed().to_vec(),
        _ => e.groups.listed().to_vec(),
    });
    let mut ids: Vec<u32> = roles.chain(lists).chain([asked]).collect();
    let named = ids.clone();
    let unnamed = |id: &u32| !named.contains(id);
    ids.extend((0..).filter(unnamed).take(1));
    ids.extend((0..u32::MAX).rev().filter(unnamed).take(1));
    ids.sort_unstable();
    ids.dedup();
    ids
}

/// All paths of the policy and the start, each with children that nobody names.
fn files(policy: &Policy, start: &[u8]) -> Vec<Vec<u8>> {
    let named: Vec<Vec<u8>> = policy
        .paths
        .iter()
        .map(|p| p.bytes().to_vec())
        .chain([start.to_vec()])
        .collect();
    let mut files = named.clone();
    for path in &named {
        for name in [&b"new/"[..], b"new/new/"] {
            files.push([path, name].concat());
        }
    }
    files.sort();
    files.dedup();
    files
}

struct World<'a> {
    policy: &'a Policy,
    question: &'a Question<'a>,
    specials: Vec<Option<u8>>,
    uids: Vec<u32>,
    gids: Vec<u32>,
    files: Vec<Vec<u8>>,
}

/// A real state, each part by its place in the world's lists.
#[derive(Clone, Copy)]
struct Place {
    special: usize,
    uid: usize,
    gid: usize,
    file: usize,
}

/// What is known of each file in each role, and of each entry's files: read once from the model.
struct Known {
    /// Entry in force at role x files + file.
    entries: Vec<usize>,
    /// For each entry the files that it may run, as bits.
    runs: Vec<u128>,
    /// For each entry which of the uids and gids are allowed.
    users: Vec<Vec<bool>>,
    groups: Vec<Vec<bool>>,
}

impl World<'_> {
    fn known(&self) -> Known {
        let policy = self.policy;
        let may = |e: usize, f: &[u8]| may_exec(policy.objects(e)[object_for(policy, e, f)].modes);
        let runs = |e: usize| {
            let files = self.files.iter().enumerate();
            files.fold(0, |set, (i, f)| set | (may(e, f) as u128) << i)
        };
        let roles = 0..policy.roles.len() as u8;
        Known {
            entries: roles
                .flat_map(|r| self.files.iter().map(move |f| entry_in_force(policy, r, f)))
                .collect(),
            runs: (0..policy.entries.len()).map(runs).collect(),
            users: self.each(|e| self.uids.iter().map(|id| allowed(&e.users, *id)).collect()),
            groups: self.each(|e| self.gids.iter().map(|id| allowed(&e.groups, *id)).collect()),
        }
    }

    fn each<T>(&self, of: impl Fn(&Entry) -> T) -> Vec<T> {
        self.policy.entries.iter().map(of).collect()
    }

    fn real(&self, at: Place) -> Real<'_> {
        Real {
            special: self.specials[at.special],
            uid: self.uids[at.uid],
            gid: self.gids[at.gid],
            file: &self.files[at.file],
        }
    }

    /// The states after one step, each as a place with a set of files.
    fn after(&self, known: &Known, at: Place) -> Vec<(Place, u128)> {
        let policy = self.policy;
        let role = role_in_force(
            policy,
            self.specials[at.special],
            self.uids[at.uid],
            self.gids[at.gid],
        );
        let e = known.entries[role as usize * self.files.len() + at.file];
        let (entry, own) = (&policy.entries[e], 1 << at.file);
        let mut after = Vec::new();
        for (special, taken) in self.specials.iter().enumerate() {
            if taken.is_none_or(|s| policy.roles[role as usize].takes >> s & 1 == 1) {
                after.push((Place { special, ..at }, own));
            }
        }
        for uid in (0..self.uids.len()).filter(|i| known.users[e][*i]) {
            if entry.caps & SET_UID != 0 {
                after.push((Place { uid, ..at }, own));
            }
        }
        for gid in (0..self.gids.len()).filter(|i| known.groups[e][*i]) {
            if entry.caps & SET_GID != 0 {
                after.push((Place { gid, ..at }, own));
            }
        }
        for uid in (0..self.uids.len()).filter(|i| *i == at.uid || known.users[e][*i]) {
            for gid in (0..self.gids.len()).filter(|i| *i == at.gid || known.groups[e][*i]) {
                after.push((Place { uid, gid, ..at }, known.runs[e]));
            }
        }
        after
    }

    /// The fewest real steps to a state that has the access; None if none is reached.
    fn fewest(&self) -> Option<usize> {
        let find = |list: &[u32], id| {
            list.iter()
                .position(|x| *x == id)
                .expect("the asked id is listed")
        };
        let start = Place {
            special: 0,
            uid: find(&self.uids, self.question.uid),
            gid: find(&self.gids, self.question.gid),
            file: self
                .files
                .iter()
                .position(|f| f == self.question.start)
                .expect("the start is listed"),
        };
        let known = self.known();
        let slot = |p: Place| (p.special * self.uids.len() + p.uid) * self.gids.len() + p.gid;
        let mut seen = vec![0u128; self.specials.len() * self.uids.len() * self.gids.len()];
        seen[slot(start)] = 1 << start.file;
        let mut level = vec![start];
        for count in 0.. {
            let granted = |at: &Place| {
                let (target, kind) = (self.question.target, self.question.kind);
                access(self.policy, self.real(*at), target, kind)
            };
            if level.is_empty() {
                return None;
            }
            if level.iter().any(granted) {
                return Some(count);
            }
            let mut next = Vec::new();
            for at in level {
                for (to, files) in self.after(&known, at) {
                    let new = files & !seen[slot(to)];
                    seen[slot(to)] |= new;
                    next.extend(
                        (0..self.files.len())
                            .filter(|f| new >> f & 1 == 1)
                            .map(|file| Place { file, ..to }),
                    );
                }
            }
            level = next;
        }
        None
    }
}

/// The fewest real steps in the finite world of a policy and a question; at most 128 files.
pub fn fewest_steps(policy: &Policy, question: &Question) -> Option<usize> {
    let specials = policy.roles_of(Kind::Special).into_iter().map(Some);
    let world = World {
        policy,
        question,
        specials: std::iter::once(None).chain(specials).collect(),
        uids: ids(policy, Kind::User, question.uid),
        gids: ids(policy, Kind::Group, question.gid),
        files: files(policy, question.start),
    };
    assert!(world.files.len() <= 128);
    world.fewest()
}
