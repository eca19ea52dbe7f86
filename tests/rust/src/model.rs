//! The model in the specification's words: paths, roles, entries, matching, real and abstract steps, access.
//!
//! Everything here is read off the policy anew each time; `tables` holds the same worked out.

use crate::policy::{Entry, Ids, Kind, Policy, EXEC, HIDE, NOBODY, READ, SET_GID, SET_UID, WRITE};

/// p is under q when q's names are the first names of p. Both end in a slash, so that is a prefix of bytes.
pub fn under(p: &[u8], q: &[u8]) -> bool {
    p.starts_with(q)
}

/// The place in `paths` of the most specific path that p is under.
fn most_specific<'a>(p: &[u8], paths: impl Iterator<Item = &'a [u8]>) -> Option<usize> {
    paths
        .enumerate()
        .filter(|(_, q)| under(p, q))
        .max_by_key(|(_, q)| q.len())
        .map(|(place, _)| place)
}

/// The role of a kind with an id.
pub fn role_with(policy: &Policy, kind: Kind, id: u32) -> Option<u8> {
    let found = policy
        .roles
        .iter()
        .position(|r| r.kind == kind && r.id == id);
    found.map(|n| n as u8)
}

/// The role in force of (special, user role, group role).
pub fn role_of(policy: &Policy, special: Option<u8>, user: Option<u8>, group: Option<u8>) -> u8 {
    special.or(user).or(group).unwrap_or(policy.default)
}

/// The role in force of (special, UID, GID).
pub fn role_in_force(policy: &Policy, special: Option<u8>, uid: u32, gid: u32) -> u8 {
    let user = role_with(policy, Kind::User, uid);
    let group = role_with(policy, Kind::Group, gid);
    role_of(policy, special, user, group)
}

/// The entry in force for a file in a role.
pub fn entry_in_force(policy: &Policy, role: u8, file: &[u8]) -> usize {
    let of_role = |e: &usize| policy.entries[*e].role == role;
    let entries: Vec<usize> = (0..policy.entries.len()).filter(of_role).collect();
    let subjects = entries
        .iter()
        .map(|e| policy.path(policy.entries[*e].subject));
    entries[most_specific(file, subjects).expect("every role has an entry for /")]
}

/// The place in its entry of the object for a file.
pub fn object_for(policy: &Policy, entry: usize, file: &[u8]) -> usize {
    let objects = policy.objects(entry).iter().map(|o| policy.path(o.path));
    most_specific(file, objects).expect("every entry has an object /")
}

pub fn allowed(ids: &Ids, id: u32) -> bool {
    let listed = ids.listed().contains(&id);
    id != NOBODY && (ids.mode == 0 || listed == (ids.mode == 1))
}

pub fn may_exec(modes: u8) -> bool {
    modes & EXEC != 0 && modes & HIDE == 0
}

/// Kind 0 asks for read, 1 for write.
pub fn grants(modes: u8, kind: u8) -> bool {
    let asked = if kind == 0 { READ } else { WRITE };
    modes & asked != 0 && modes & HIDE == 0
}

/// A real state.
#[derive(Clone, Copy, Debug, PartialEq, Eq)]
pub struct Real<'a> {
    pub special: Option<u8>,
    pub uid: u32,
    pub gid: u32,
    pub file: &'a [u8],
}

/// What a real step does.
#[derive(Clone, Copy, Debug, PartialEq, Eq)]
pub enum Move<'a> {
    SetSpecial(Option<u8>),
    SetUser(u32),
    SetGroup(u32),
    Exec { file: &'a [u8], uid: u32, gid: u32 },
}

impl Real<'_> {
    pub fn role(&self, policy: &Policy) -> u8 {
        role_in_force(policy, self.special, self.uid, self.gid)
    }

    pub fn entry(&self, policy: &Policy) -> usize {
        entry_in_force(policy, self.role(policy), self.file)
    }
}

/// Table II: the state after a real step, if it is one.
pub fn step<'a>(policy: &Policy, state: Real<'a>, what: Move<'a>) -> Option<Real<'a>> {
    let number = state.entry(policy);
    let entry: &Entry = &policy.entries[number];
    match what {
        Move::SetSpecial(special) => {
            let takes = policy.roles[entry.role as usize].takes;
            let good =
                special.is_none_or(|s| (s as usize) < policy.roles.len() && takes >> s & 1 == 1);
            good.then_some(Real { special, ..state })
        }
        Move::SetUser(uid) => {
            let good = entry.caps & SET_UID != 0 && allowed(&entry.users, uid);
            good.then_some(Real { uid, ..state })
        }
        Move::SetGroup(gid) => {
            let good = entry.caps & SET_GID != 0 && allowed(&entry.groups, gid);
            good.then_some(Real { gid, ..state })
        }
        Move::Exec { file, uid, gid } => {
            let object = policy.objects(number)[object_for(policy, number, file)];
            let good = may_exec(object.modes)
                && (uid == state.uid || allowed(&entry.users, uid))
                && (gid == state.gid || allowed(&entry.groups, gid));
            good.then_some(Real {
                uid,
                gid,
                file,
                ..state
            })
        }
    }
}

/// Whether the access is granted in a real state.
pub fn access(policy: &Policy, state: Real, target: &[u8], kind: u8) -> bool {
    let entry = state.entry(policy);
    let object = policy.objects(entry)[object_for(policy, entry, target)];
    grants(object.modes, kind)
}

/// The most specific path of S that p is under.
pub fn subject_of(policy: &Policy, p: &[u8]) -> u8 {
    let subjects = policy.subjects();
    let found = most_specific(p, subjects.iter().map(|s| policy.path(*s)));
    subjects[found.expect("/ is in S")]
}

/// The image of an object, by its place in an entry: each subject of S whose object in the entry it is, and
/// the most specific path of S that it is under. By path number.
pub fn image(policy: &Policy, entry: usize, place: usize) -> Vec<u8> {
    let above = subject_of(policy, policy.path(policy.objects(entry)[place].path));
    let within = |s: u8| object_for(policy, entry, policy.path(s)) == place;
    let subjects = policy.subjects().into_iter();
    subjects.filter(|s| *s == above || within(*s)).collect()
}

/// An abstract state: roles by number, the subject by path number.
#[derive(Clone, Copy, Debug, PartialEq, Eq, Hash)]
pub struct Abstract {
    pub special: Option<u8>,
    pub user: Option<u8>,
    pub group: Option<u8>,
    pub subject: u8,
}

/// A choice of user or group at an exec, in the order of the specification.
#[derive(Clone, Copy, Debug, PartialEq, Eq, PartialOrd, Ord)]
pub enum Choice {
    Kept,
    None,
    Role(u8),
}

/// What an abstract step does. The derived order is that of the specification ("Which steps").
#[derive(Clone, Copy, Debug, PartialEq, Eq, PartialOrd, Ord)]
pub enum Label {
    Special(Option<u8>),
    User(Option<u8>),
    Group(Option<u8>),
    Exec {
        place: usize,
        user: Choice,
        group: Choice,
        subject: u8,
    },
}

/// The abstraction of a real state.
pub fn abstraction(policy: &Policy, state: Real) -> Abstract {
    Abstract {
        special: state.special,
        user: role_with(policy, Kind::User, state.uid),
        group: role_with(policy, Kind::Group, state.gid),
        subject: subject_of(policy, state.file),
    }
}

/// The entry in force in an abstract state.
pub fn abstract_entry(policy: &Policy, state: &Abstract) -> usize {
    let role = role_of(policy, state.special, state.user, state.group);
    entry_in_force(policy, role, policy.path(state.subject))
}

/// The smallest allowed id without a role of the kind.
pub fn smallest_without_role(policy: &Policy, kind: Kind, ids: &Ids) -> Option<u32> {
    let good = |id: &u32| allowed(ids, *id) && role_with(policy, kind, *id).is_none();
    match ids.mode {
        1 => ids.listed().iter().copied().filter(good).min(),
        _ => (0..NOBODY).find(good),
    }
}

/// The roles of a kind that an allowed id leads to, none first, then by number.
pub fn allowed_roles(policy: &Policy, kind: Kind, ids: &Ids) -> Vec<Option<u8>> {
    let none = smallest_without_role(policy, kind, ids).map(|_| None);
    let roles = policy.roles_of(kind).into_iter();
    let named = roles.filter(|r| allowed(ids, policy.roles[*r as usize].id));
    none.into_iter().chain(named.map(Some)).collect()
}

/// The choices at an exec: the kept one first; one with the kept one's role is the kept one.
fn choices(kept: Option<u8>, roles: &[Option<u8>]) -> Vec<(Choice, Option<u8>)> {
    let mut list = vec![(Choice::Kept, kept)];
    for role in roles.iter().filter(|r| **r != kept) {
        list.push((role.map_or(Choice::None, Choice::Role), *role));
    }
    list
}

/// Table III: all abstract steps from a state, in the order of the specification.
pub fn abstract_steps(policy: &Policy, state: &Abstract) -> Vec<(Label, Abstract)> {
    let number = abstract_entry(policy, state);
    let entry = &policy.entries[number];
    let users = allowed_roles(policy, Kind::User, &entry.users);
    let groups = allowed_roles(policy, Kind::Group, &entry.groups);
    let mut steps = vec![(
        Label::Special(None),
        Abstract {
            special: None,
            ..*state
        },
    )];
    for s in policy.roles_of(Kind::Special) {
        if policy.roles[entry.role as usize].takes >> s & 1 == 1 {
            let special = Some(s);
            steps.push((Label::Special(special), Abstract { special, ..*state }));
        }
    }
    if entry.caps & SET_UID != 0 {
        for &user in &users {
            steps.push((Label::User(user), Abstract { user, ..*state }));
        }
    }
    if entry.caps & SET_GID != 0 {
        for &group in &groups {
            steps.push((Label::Group(group), Abstract { group, ..*state }));
        }
    }
    for (place, object) in policy.objects(number).iter().enumerate() {
        if !may_exec(object.modes) {
            continue;
        }
        let image = image(policy, number, place);
        for (user_choice, user) in choices(state.user, &users) {
            for (group_choice, group) in choices(state.group, &groups) {
                for &subject in &image {
                    let label = Label::Exec {
                        place,
                        user: user_choice,
                        group: group_choice,
                        subject,
                    };
                    let after = Abstract {
                        special: state.special,
                        user,
                        group,
                        subject,
                    };
                    steps.push((label, after));
                }
            }
        }
    }
    steps
}

/// Whether the access is granted in an abstract state.
pub fn abstract_access(policy: &Policy, state: &Abstract, target: &[u8], kind: u8) -> bool {
    let entry = abstract_entry(policy, state);
    let object = policy.objects(entry)[object_for(policy, entry, target)];
    grants(object.modes, kind)
}
