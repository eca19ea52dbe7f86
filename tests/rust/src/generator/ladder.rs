//! Ladders: runs that a draft is made to let through.

use super::draft::{Draft, DraftEntry};
use super::Case;
use crate::policy::{EXEC, HIDE, IDS_MOST, READ, WRITE};
use crate::random::Random;

/// A step of a ladder.
enum Rung {
    Special,
    User,
    Group,
    Exec(u8),
}

/// A real state on the way of a ladder.
#[derive(Clone)]
struct Climber {
    special: Option<u8>,
    uid: u32,
    gid: u32,
    file: Vec<u8>,
}

/// Changes an id list so that an id is allowed.
fn allow(ids: &mut (u8, Vec<u32>), id: u32) {
    let listed = ids.1.iter().position(|x| *x == id);
    match (ids.0, listed) {
        (1, None) if ids.1.len() < IDS_MOST => ids.1.push(id),
        (2, Some(place)) => drop(ids.1.remove(place)),
        _ => (),
    }
}

impl Draft {
    /// The role in force, if the draft has all it takes.
    fn role_in_force(&self, at: &Climber) -> Option<u8> {
        let find = |role| self.roles.iter().position(|r| *r == role).map(|n| n as u8);
        let user = find((b'u', at.uid));
        at.special
            .or(user)
            .or(find((b'g', at.gid)))
            .or(find((b'-', 0)))
    }

    fn entry_in_force(&mut self, at: &Climber) -> Option<&mut DraftEntry> {
        let role = self.role_in_force(at)?;
        let paths = &self.paths;
        let over =
            |e: &&mut DraftEntry| e.role == role && at.file.starts_with(&paths[e.subject as usize]);
        self.entries
            .iter_mut()
            .filter(over)
            .max_by_key(|e| paths[e.subject as usize].len())
    }

    /// Gives modes to an object of the entry in force.
    fn give(&mut self, at: &Climber, path: u8, modes: u8) {
        if let Some(entry) = self.entry_in_force(at) {
            match entry.objects.iter_mut().find(|o| o.0 == path) {
                Some(object) => object.1 = object.1 & !HIDE | modes,
                None => entry.objects.push((path, modes)),
            }
        }
    }

    /// Makes a run possible: some steps, each let through by the entry then in force, and the access at the end.
    /// Where it can the run goes on to an entry that it has not used, so that few shorter ones arise.
    pub(super) fn ladder(&mut self, random: &mut Random, case: &Case, steps: usize) {
        let mut at = Climber {
            special: None,
            uid: case.uid,
            gid: case.gid,
            file: case.start.clone(),
        };
        let mut used = Vec::new();
        for _ in 0..steps {
            used.extend(self.entry_in_force(&at).map(|e| (e.role, e.subject)));
            let (mut rung, mut next) = self.rung(random, &at);
            for _ in 0..12 {
                let entry = self.entry_in_force(&next).map(|e| (e.role, e.subject));
                if !entry.is_some_and(|e| used.contains(&e)) {
                    break;
                }
                (rung, next) = self.rung(random, &at);
            }
            self.let_through(&at, &rung, &next);
            at = next;
        }
        let target = case.target.as_slice();
        let over = (0..self.paths.len()).filter(|p| target.starts_with(&self.paths[*p]));
        if let Some(path) = over.max_by_key(|p| self.paths[*p].len()) {
            self.give(&at, path as u8, if case.kind == 0 { READ } else { WRITE });
        }
    }

    /// A step, and the state after it.
    fn rung(&self, random: &mut Random, at: &Climber) -> (Rung, Climber) {
        let is_special = |r: &u8| self.roles[*r as usize].0 == b's';
        let specials: Vec<u8> = (0..self.roles.len() as u8).filter(is_special).collect();
        let mut next = at.clone();
        let (uid, gid) = (self.id(random, b'u'), self.id(random, b'g'));
        let rung = match random.below(8) {
            0 => {
                next.special = (!specials.is_empty()).then(|| random.pick(&specials));
                Rung::Special
            }
            1 => {
                next.special = None;
                Rung::Special
            }
            2 => {
                next.uid = uid;
                Rung::User
            }
            3 => {
                next.gid = gid;
                Rung::Group
            }
            _ => {
                let path = random.below(self.paths.len());
                next.file = self.paths[path].clone();
                if random.chance(25) {
                    next.uid = uid;
                }
                if random.chance(25) {
                    next.gid = gid;
                }
                Rung::Exec(path as u8)
            }
        };
        (rung, next)
    }

    fn let_through(&mut self, at: &Climber, rung: &Rung, next: &Climber) {
        match rung {
            Rung::Special => {
                if let (Some(role), Some(special)) = (self.role_in_force(at), next.special) {
                    if !self.takes.contains(&(role, special)) {
                        self.takes.push((role, special));
                    }
                }
            }
            Rung::Exec(path) => self.give(at, *path, EXEC),
            Rung::User | Rung::Group => (),
        }
        if let Some(entry) = self.entry_in_force(at) {
            match rung {
                Rung::User => entry.caps |= 1,
                Rung::Group => entry.caps |= 2,
                _ => (),
            }
            if next.uid != at.uid {
                allow(&mut entry.users, next.uid);
            }
            if next.gid != at.gid {
                allow(&mut entry.groups, next.gid);
            }
        }
    }
}
