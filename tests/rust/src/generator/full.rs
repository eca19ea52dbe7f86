//! Full tables: drafts that hold as much as a table can, or one more.

use super::draft::{Draft, DraftEntry};
use crate::policy::{
    ENTRIES_MOST, GROUPS_MOST, IDS_MOST, OBJECTS_MOST, PATHS_MOST, SPECIALS_MOST, USERS_MOST,
};
use crate::random::Random;

/// Subjects in S with which all roles together make 8,192 states.
const SUBJECTS_MOST: usize = 8;

impl Draft {
    /// Fills one of the tables, with so many more than it holds.
    pub(super) fn fill(&mut self, random: &mut Random, over: usize) {
        match random.below(9) {
            0 => self.fill_roles(b'u', USERS_MOST + over),
            1 => self.fill_roles(b'g', GROUPS_MOST + over),
            2 => self.fill_roles(b's', SPECIALS_MOST + over),
            3 => self.fill_paths(PATHS_MOST + over),
            4 => self.fill_entries(ENTRIES_MOST + over),
            5 => self.fill_objects(OBJECTS_MOST + over),
            6 | 7 => self.fill_ids(random, IDS_MOST + over),
            _ => self.fill_states(SUBJECTS_MOST + over),
        }
    }

    /// An entry that lets nothing through.
    fn closed(&mut self, role: u8, subject: u8) {
        let objects = vec![(self.root(), 0)];
        self.entries.push(DraftEntry {
            role,
            subject,
            caps: 0,
            users: (1, Vec::new()),
            groups: (1, Vec::new()),
            objects,
        });
    }

    fn fill_roles(&mut self, kind: u8, count: usize) {
        let there = self.roles.iter().filter(|r| r.0 == kind).count();
        for n in there..count {
            let id = if kind == b's' { 0 } else { 3000 + n as u32 };
            self.roles.push((kind, id));
            self.closed(self.roles.len() as u8 - 1, self.root());
        }
    }

    fn fill_paths(&mut self, count: usize) {
        for n in self.paths.len()..count {
            self.paths.push(format!("/p{n}/").into_bytes());
        }
    }

    /// The pairs of role and subject that have no entry.
    fn unentered(&self) -> Vec<(u8, u8)> {
        let roles = 0..self.roles.len() as u8;
        let paths = self.paths.len() as u8;
        let pairs = roles.flat_map(|role| (0..paths).map(move |path| (role, path)));
        let there = |pair: &(u8, u8)| self.entries.iter().any(|e| (e.role, e.subject) == *pair);
        pairs.filter(|pair| !there(pair)).collect()
    }

    fn fill_entries(&mut self, count: usize) {
        self.fill_paths(count);
        let more = count.saturating_sub(self.entries.len());
        for (role, subject) in self.unentered().into_iter().take(more) {
            self.closed(role, subject);
        }
    }

    fn fill_objects(&mut self, count: usize) {
        self.fill_paths(PATHS_MOST);
        self.fill_entries(8);
        let there: usize = self.entries.iter().map(|e| e.objects.len()).sum();
        let mut more = count.saturating_sub(there);
        for entry in &mut self.entries {
            for path in 0..self.paths.len() as u8 {
                if more > 0 && !entry.objects.iter().any(|o| o.0 == path) {
                    entry.objects.push((path, 0));
                    more -= 1;
                }
            }
        }
    }

    fn fill_ids(&mut self, random: &mut Random, count: usize) {
        if self.entries.is_empty() {
            return;
        }
        let at = random.below(self.entries.len());
        let entry = &mut self.entries[at];
        let ids = match random.below(2) {
            0 => &mut entry.users,
            _ => &mut entry.groups,
        };
        ids.0 = 1 + random.below(2) as u8;
        for n in ids.1.len()..count {
            ids.1.push(4000 + n as u32);
        }
    }

    /// All roles, and so many subjects.
    fn fill_states(&mut self, subjects: usize) {
        self.fill_roles(b'u', USERS_MOST);
        self.fill_roles(b'g', GROUPS_MOST);
        self.fill_roles(b's', SPECIALS_MOST);
        self.fill_paths(subjects);
        let in_s = |draft: &Draft, p: &u8| draft.entries.iter().any(|e| e.subject == *p);
        let all = 0..self.paths.len() as u8;
        let (inside, outside): (Vec<u8>, Vec<u8>) = all.partition(|p| in_s(self, p));
        for path in outside
            .into_iter()
            .take(subjects.saturating_sub(inside.len()))
        {
            self.closed(0, path);
        }
    }
}
