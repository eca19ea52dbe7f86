//! The model worked out into arrays, so that a search compares no paths.
//!
//! Slots: among users (and groups, and special roles) slot 0 is none and slot n the n-th role of that kind.
//! Subjects of S are counted from 0 by path number. Sets of slots and of subjects are bits of a number.

use crate::model::{allowed, may_exec, under};
use crate::policy::{Ids, Kind, Policy, NOBODY, PATHS_MOST, SET_GID, SET_UID};

const NONE: u8 = u8::MAX;

/// For each path of the policy the most specific other path that it is under.
pub struct Above([u8; PATHS_MOST]);

impl Above {
    fn new(policy: &Policy) -> Above {
        let mut above = [NONE; PATHS_MOST];
        let mut order: Vec<u8> = (0..policy.paths.len() as u8).collect();
        order.sort_unstable_by_key(|p| policy.path(*p));
        // In byte order all paths that p is under come before p: the open ones are kept in a row.
        let mut open: Vec<u8> = Vec::with_capacity(PATHS_MOST);
        for p in order {
            while open
                .last()
                .is_some_and(|q| !under(policy.path(p), policy.path(*q)))
            {
                open.pop();
            }
            above[p as usize] = open.last().copied().unwrap_or(NONE);
            open.push(p);
        }
        Above(above)
    }

    /// The value held by the most specific path that p is under and that holds one. The path `/` must.
    fn nearest(&self, held: &[u8; PATHS_MOST], p: u8) -> u8 {
        let mut p = p as usize;
        while held[p] == NONE {
            p = self.0[p] as usize;
        }
        held[p]
    }
}

/// What an exec of an object may lead to.
#[derive(Clone, Copy)]
pub struct Exec {
    /// Path number of the object.
    pub object: u8,
    /// Subjects that no earlier object of the entry leads to.
    pub leads: u64,
    /// Subjects whose object this is.
    pub within: u64,
}

/// What an entry lets its process do.
pub struct Row {
    /// Slots that 81, 82 and 83 lead to.
    pub set_special: u16,
    pub set_user: u16,
    pub set_group: u16,
    /// Slots of the allowed users and groups.
    pub users: u16,
    pub groups: u16,
    /// The smallest allowed ids without a role, where slot 0 is allowed.
    pub none_uid: u32,
    pub none_gid: u32,
    /// Objects that may be run, in their order.
    pub execs: Vec<Exec>,
}

pub struct Tables {
    pub specials: Vec<u8>,
    pub users: Vec<u8>,
    pub groups: Vec<u8>,
    /// Path numbers of S.
    pub subjects: Vec<u8>,
    pub rows: Vec<Row>,
    /// Entry in force, at role x subjects + subject.
    entries: Vec<u8>,
    above: Above,
    default: u8,
    /// The id of each role.
    pub ids: Vec<u32>,
}

impl Tables {
    pub fn new(policy: &Policy) -> Tables {
        let mut tables = Tables {
            specials: policy.roles_of(Kind::Special),
            users: policy.roles_of(Kind::User),
            groups: policy.roles_of(Kind::Group),
            subjects: policy.subjects(),
            rows: Vec::with_capacity(policy.entries.len()),
            entries: Vec::new(),
            above: Above::new(policy),
            default: policy.default,
            ids: policy.roles.iter().map(|r| r.id).collect(),
        };
        tables.enter(policy);
        for e in 0..policy.entries.len() {
            let row = tables.row(policy, e);
            tables.rows.push(row);
        }
        tables
    }

    /// Fills in the entry in force for each role and subject.
    fn enter(&mut self, policy: &Policy) {
        self.entries
            .reserve(policy.roles.len() * self.subjects.len());
        for role in 0..policy.roles.len() as u8 {
            let mut held = [NONE; PATHS_MOST];
            for (e, entry) in policy.entries.iter().enumerate() {
                if entry.role == role {
                    held[entry.subject as usize] = e as u8;
                }
            }
            for s in &self.subjects {
                self.entries.push(self.above.nearest(&held, *s));
            }
        }
    }

    fn row(&self, policy: &Policy, e: usize) -> Row {
        let entry = &policy.entries[e];
        let takes = policy.roles[entry.role as usize].takes;
        let slots = self.specials.iter().enumerate();
        let set_special = slots.fold(1, |set, (i, s)| set | (takes >> s & 1) << (i + 1));
        let (users, none_uid) = slots_allowed(policy, &self.users, &entry.users);
        let (groups, none_gid) = slots_allowed(policy, &self.groups, &entry.groups);
        Row {
            set_special: set_special as u16,
            set_user: if entry.caps & SET_UID != 0 { users } else { 0 },
            set_group: if entry.caps & SET_GID != 0 { groups } else { 0 },
            users,
            groups,
            none_uid,
            none_gid,
            execs: self.execs(policy, e),
        }
    }

    fn execs(&self, policy: &Policy, e: usize) -> Vec<Exec> {
        let objects = policy.objects(e);
        let good = objects
            .iter()
            .enumerate()
            .filter(|(_, o)| may_exec(o.modes));
        let mut execs = Vec::new();
        // For each subject its object's place, and for each place its subjects; worked out at the first need.
        let mut within: Option<[u64; PATHS_MOST]> = None;
        let mut led = 0;
        for (place, object) in good {
            let within = within.get_or_insert_with(|| self.within(policy, e))[place];
            let leads = within | 1 << self.subject_at(object.path);
            execs.push(Exec {
                object: object.path,
                leads: leads & !led,
                within,
            });
            led |= leads;
        }
        execs
    }

    /// For each place of an object in an entry: the subjects whose object it is.
    fn within(&self, policy: &Policy, e: usize) -> [u64; PATHS_MOST] {
        let mut held = [NONE; PATHS_MOST];
        for (place, object) in policy.objects(e).iter().enumerate() {
            held[object.path as usize] = place as u8;
        }
        let mut within = [0; PATHS_MOST];
        for (i, s) in self.subjects.iter().enumerate() {
            within[self.above.nearest(&held, *s) as usize] |= 1 << i;
        }
        within
    }

    /// The most specific path of S that a path of the policy is under, as a subject.
    pub fn subject_at(&self, path: u8) -> u8 {
        let mut p = path;
        loop {
            match self.subjects.binary_search(&p) {
                Ok(subject) => return subject as u8,
                Err(_) => p = self.above.0[p as usize],
            }
        }
    }

    /// The most specific path of the policy that any path is under.
    pub fn locate(&self, policy: &Policy, path: &[u8]) -> u8 {
        let paths = 0..policy.paths.len() as u8;
        let over = paths.filter(|q| under(path, policy.path(*q)));
        over.max_by_key(|q| policy.path(*q).len())
            .expect("/ is a path of the policy")
    }

    /// The modes that an entry gives to a located path.
    pub fn modes(&self, policy: &Policy, e: usize, path: u8) -> u8 {
        let mut held = [NONE; PATHS_MOST];
        for object in policy.objects(e) {
            held[object.path as usize] = object.modes;
        }
        self.above.nearest(&held, path)
    }

    /// The role in force for the slots.
    pub fn role(&self, special: u8, user: u8, group: u8) -> u8 {
        match (special as usize, user as usize, group as usize) {
            (0, 0, 0) => self.default,
            (0, 0, group) => self.groups[group - 1],
            (0, user, _) => self.users[user - 1],
            (special, _, _) => self.specials[special - 1],
        }
    }

    pub fn entry(&self, role: u8, subject: u8) -> usize {
        self.entries[role as usize * self.subjects.len() + subject as usize] as usize
    }
}

/// The slots of the allowed ids, and the smallest allowed id without a role (0 if there is none).
fn slots_allowed(policy: &Policy, roles: &[u8], ids: &Ids) -> (u16, u32) {
    let id_of = |r: &u8| policy.roles[*r as usize].id;
    let free = |id: &u32| allowed(ids, *id) && !roles.iter().any(|r| id_of(r) == *id);
    let none = match ids.mode {
        1 => ids.listed().iter().copied().filter(free).min(),
        _ => (0..NOBODY).find(free),
    };
    let named = roles
        .iter()
        .enumerate()
        .filter(|(_, r)| allowed(ids, id_of(r)));
    let slots = named.fold(none.is_some() as u16, |set, (i, _)| set | 1 << (i + 1));
    (slots, none.unwrap_or(0))
}
