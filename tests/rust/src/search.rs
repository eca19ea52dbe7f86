//! The search: breadth first over abstract states, with the tables.
//!
//! The steps from each state are taken in the order of the specification, so the states are opened in the order
//! of their first runs, and the first state found to have the access ends the run that is shown.

use crate::ask::{Found, Question, EXECUTE, SET_GROUP, SET_USER, TAKE_SPECIAL};
use crate::model::grants;
use crate::policy::{Policy, ROLES_MOST};
use crate::replay::{Step, NONE};
use crate::tables::Tables;

/// A state: slots and subject, as in the tables.
#[derive(Clone, Copy)]
struct State {
    special: u8,
    user: u8,
    group: u8,
    subject: u8,
}

/// The step that opened a state: the state it came from, and the object if it was an exec.
#[derive(Clone, Copy)]
struct Opened {
    from: u16,
    kind: u8,
    object: u8,
}

/// The states opened, as sets seen from four sides, so that steps to known states cost nothing.
struct Seen {
    users: usize,
    groups: usize,
    subjects: usize,
    /// Subjects for each special, user, group.
    of_subjects: Vec<u64>,
    /// Special slots for each user, group, subject; and so on.
    of_specials: Vec<u16>,
    of_users: Vec<u16>,
    of_groups: Vec<u16>,
}

impl Seen {
    fn new(tables: &Tables) -> Seen {
        let (specials, users) = (tables.specials.len() + 1, tables.users.len() + 1);
        let (groups, subjects) = (tables.groups.len() + 1, tables.subjects.len());
        Seen {
            users,
            groups,
            subjects,
            of_subjects: vec![0; specials * users * groups],
            of_specials: vec![0; users * groups * subjects],
            of_users: vec![0; specials * groups * subjects],
            of_groups: vec![0; specials * users * subjects],
        }
    }

    fn subjects(&mut self, at: State) -> &mut u64 {
        let place = at.special as usize * self.users + at.user as usize;
        &mut self.of_subjects[place * self.groups + at.group as usize]
    }

    fn specials(&mut self, at: State) -> &mut u16 {
        let place = at.user as usize * self.groups + at.group as usize;
        &mut self.of_specials[place * self.subjects + at.subject as usize]
    }

    fn users(&mut self, at: State) -> &mut u16 {
        let place = at.special as usize * self.groups + at.group as usize;
        &mut self.of_users[place * self.subjects + at.subject as usize]
    }

    fn groups(&mut self, at: State) -> &mut u16 {
        let place = at.special as usize * self.users + at.user as usize;
        &mut self.of_groups[place * self.subjects + at.subject as usize]
    }

    fn add(&mut self, at: State) {
        *self.subjects(at) |= 1 << at.subject;
        *self.specials(at) |= 1 << at.special;
        *self.users(at) |= 1 << at.user;
        *self.groups(at) |= 1 << at.group;
    }
}

struct Search<'a> {
    tables: &'a Tables,
    /// In the order in which they were opened.
    nodes: Vec<(State, Opened)>,
    seen: Seen,
    /// For each role the subjects at which it has the access.
    granted: [u64; ROLES_MOST],
    /// For each entry and user slot: the group slots with which all execs of the entry were taken. The special
    /// slot needs no place: an entry in force has its role's own, or none.
    ran: Vec<[u16; 16]>,
}

/// The places of the bits that are set, from the lowest.
fn bits(mut set: u64) -> impl Iterator<Item = u8> {
    std::iter::from_fn(move || {
        let lowest = set.trailing_zeros() as u8;
        let some = set != 0;
        set &= set.wrapping_sub(1);
        some.then_some(lowest)
    })
}

/// The kept slot first, then the others that are allowed.
fn choices(kept: u8, allowed: u16) -> impl Iterator<Item = u8> {
    std::iter::once(kept).chain(bits((allowed & !(1 << kept)) as u64))
}

impl Search<'_> {
    fn entry(&self, at: State) -> usize {
        let role = self.tables.role(at.special, at.user, at.group);
        self.tables.entry(role, at.subject)
    }

    /// Opens a state that is new; true if it has the access.
    fn open(&mut self, state: State, step: Opened) -> bool {
        self.seen.add(state);
        self.nodes.push((state, step));
        let role = self.tables.role(state.special, state.user, state.group);
        self.granted[role as usize] >> state.subject & 1 == 1
    }

    /// Opens all new states that a step leads to; true as soon as one has the access.
    fn steps(&mut self, from: u16) -> bool {
        let at = self.nodes[from as usize].0;
        let e = self.entry(at);
        let tables = self.tables;
        let row = &tables.rows[e];
        let step = |kind, object| Opened { from, kind, object };
        let new = row.set_special & !*self.seen.specials(at);
        for special in bits(new.into()) {
            if self.open(State { special, ..at }, step(TAKE_SPECIAL, 0)) {
                return true;
            }
        }
        let new = row.set_user & !*self.seen.users(at);
        for user in bits(new.into()) {
            if self.open(State { user, ..at }, step(SET_USER, 0)) {
                return true;
            }
        }
        let new = row.set_group & !*self.seen.groups(at);
        for group in bits(new.into()) {
            if self.open(State { group, ..at }, step(SET_GROUP, 0)) {
                return true;
            }
        }
        self.execs(from, at, e)
    }

    fn execs(&mut self, from: u16, at: State, e: usize) -> bool {
        let tables = self.tables;
        let row = &tables.rows[e];
        let groups = row.groups | 1 << at.group;
        let left = self.ran[e].map(|done| groups & !done);
        let users = || choices(at.user, row.users).filter(|user| left[*user as usize] != 0);
        if row.execs.is_empty() || users().next().is_none() {
            return false;
        }
        for user in users() {
            self.ran[e][user as usize] |= groups;
        }
        for exec in &row.execs {
            let (kind, object) = (EXECUTE, exec.object);
            for user in users() {
                let left = left[user as usize];
                for group in choices(at.group, row.groups).filter(|g| left >> g & 1 == 1) {
                    let to = State { user, group, ..at };
                    let new = exec.leads & !*self.seen.subjects(to);
                    for subject in bits(new) {
                        if self.open(State { subject, ..to }, Opened { from, kind, object }) {
                            return true;
                        }
                    }
                }
            }
        }
        false
    }

    /// The steps that led to the last state opened, as they are written.
    fn run(&self, uid: u32, gid: u32) -> Vec<Step> {
        let mut row = Vec::new();
        let mut at = self.nodes.len() - 1;
        while at != 0 {
            row.push(at);
            at = self.nodes[at].1.from as usize;
        }
        let mut ids = (uid, gid);
        let written = |n: &usize| self.written(*n, &mut ids);
        row.iter().rev().map(written).collect()
    }

    /// The step that opened a state as it is written; UID and GID go along.
    fn written(&self, n: usize, ids: &mut (u32, u32)) -> Step {
        let tables = self.tables;
        let (to, Opened { from, kind, object }) = self.nodes[n];
        let from = self.nodes[from as usize].0;
        let row = &tables.rows[self.entry(from)];
        let id = |roles: &[u8], slot: u8, none: u32| match slot {
            0 => none,
            _ => tables.ids[roles[slot as usize - 1] as usize],
        };
        if to.user != from.user {
            ids.0 = id(&tables.users, to.user, row.none_uid);
        }
        if to.group != from.group {
            ids.1 = id(&tables.groups, to.group, row.none_gid);
        }
        let mut step = Step {
            kind,
            ..Step::default()
        };
        match kind {
            TAKE_SPECIAL if to.special == 0 => step.role = NONE,
            TAKE_SPECIAL => step.role = tables.specials[to.special as usize - 1],
            SET_USER => step.uid = ids.0,
            SET_GROUP => step.gid = ids.1,
            _ => {
                let exec = row.execs.iter().find(|x| x.object == object);
                let within = exec.is_some_and(|x| x.within >> to.subject & 1 == 1);
                (step.uid, step.gid) = *ids;
                step.object = object;
                step.file = match within {
                    true => tables.subjects[to.subject as usize],
                    false => object,
                };
            }
        }
        step
    }
}

/// For each role the subjects at which it has the access that is asked for.
fn granted(policy: &Policy, tables: &Tables, question: &Question) -> [u64; ROLES_MOST] {
    let target = tables.locate(policy, question.target);
    let access = |e| grants(tables.modes(policy, e, target), question.kind);
    let access: Vec<bool> = (0..policy.entries.len()).map(access).collect();
    let mut granted = [0; ROLES_MOST];
    for role in 0..policy.roles.len() as u8 {
        for s in 0..tables.subjects.len() as u8 {
            granted[role as usize] |= (access[tables.entry(role, s)] as u64) << s;
        }
    }
    granted
}

/// The search for the access in an accepted policy.
pub fn search(policy: &Policy, question: &Question) -> Found {
    let tables = Tables::new(policy);
    let mut search = Search {
        tables: &tables,
        nodes: Vec::new(),
        seen: Seen::new(&tables),
        granted: granted(policy, &tables, question),
        ran: vec![[0; 16]; policy.entries.len()],
    };
    let slot = |roles: &[u8], id: u32| {
        let found = roles.iter().position(|r| tables.ids[*r as usize] == id);
        found.map_or(0, |n| n as u8 + 1)
    };
    let start = State {
        special: 0,
        user: slot(&tables.users, question.uid),
        group: slot(&tables.groups, question.gid),
        subject: tables.subject_at(tables.locate(policy, question.start)),
    };
    let none = Opened {
        from: 0,
        kind: 0,
        object: 0,
    };
    let mut reached = search.open(start, none);
    let mut next = 0;
    while !reached && next < search.nodes.len() {
        reached = search.steps(next as u16);
        next += 1;
    }
    match reached {
        true => Found {
            reached,
            opened: search.nodes.len() - 1,
            steps: search.run(question.uid, question.gid),
        },
        false => Found {
            reached,
            opened: search.nodes.len(),
            steps: Vec::new(),
        },
    }
}
