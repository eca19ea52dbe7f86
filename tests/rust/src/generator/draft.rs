//! Drafts of policies, before they are frames.

use super::Size;
use crate::frames::{self, Frame};
use crate::policy::{ENTRIES_MOST, EXEC, HIDE, IDS_MOST, NOBODY, OBJECTS_MOST, READ, WRITE};
use crate::random::Random;

pub(super) struct DraftEntry {
    pub(super) role: u8,
    pub(super) subject: u8,
    pub(super) caps: u8,
    pub(super) users: (u8, Vec<u32>),
    pub(super) groups: (u8, Vec<u32>),
    pub(super) objects: Vec<(u8, u8)>,
}

#[derive(Default)]
pub(super) struct Draft {
    pub(super) roles: Vec<(u8, u32)>,
    pub(super) paths: Vec<Vec<u8>>,
    pub(super) takes: Vec<(u8, u8)>,
    pub(super) entries: Vec<DraftEntry>,
}

const NAMES: [&[u8]; 12] = [
    b"a", b"b", b"bin", b"binary", b"su", b"etc", b"ntp", b".", b"..", b"x y", b"\n", b"\xff]",
];

/// A path one name below another.
fn child(random: &mut Random, path: &[u8]) -> Vec<u8> {
    [path, random.pick(&NAMES), b"/"].concat()
}

/// A path of a list, or one or two names below it.
pub(super) fn near(random: &mut Random, paths: &[Vec<u8>]) -> Vec<u8> {
    let mut path = random.pick(paths);
    for of in [30, 20] {
        if random.chance(of) {
            path = child(random, &path);
        }
    }
    if path.len() > 64 {
        path = b"/".to_vec();
    }
    path
}

impl Draft {
    pub(super) fn roles(&mut self, random: &mut Random, size: Size) {
        let most = match size {
            Size::Small => [2, 2, 2],
            Size::Usual => [5, 3, 3],
            Size::ManyRoles => [15, 7, 7],
            Size::ManyPaths => [1, 1, 1],
        };
        let low = [0, 1, 2, 3, 5, 100, 1000, 1001];
        for (kind, most) in [b'u', b'g', b's'].into_iter().zip(most) {
            for n in 0..self.count(random, size, most) as u32 {
                let id = match kind {
                    b's' => 0,
                    _ if size == Size::ManyRoles => n,
                    _ if random.chance(80) => random.pick(&low),
                    _ => random.pick(&[n + 50, NOBODY - 1 - n]),
                };
                if kind == b's' || !self.roles.contains(&(kind, id)) {
                    self.roles.push((kind, id));
                }
            }
        }
        if !random.chance(1) {
            self.roles.push((b'-', 0));
        }
        random.shuffle(&mut self.roles);
    }

    /// A count up to a most; in the large policies often the most itself.
    fn count(&self, random: &mut Random, size: Size, most: usize) -> usize {
        match size {
            Size::ManyRoles | Size::ManyPaths if random.chance(40) => most,
            _ => random.below(most + 1),
        }
    }

    pub(super) fn paths(&mut self, random: &mut Random, size: Size) {
        let most = match size {
            Size::Small => 6,
            Size::Usual => 15,
            Size::ManyRoles => 24,
            Size::ManyPaths => 96,
        };
        self.paths.push(b"/".to_vec());
        let count = self.count(random, size, most).max(2);
        while self.paths.len() < count {
            let over = random.pick(&self.paths);
            let path = child(random, &over);
            if path.len() <= 64 && !self.paths.contains(&path) {
                self.paths.push(path);
            }
        }
        random.shuffle(&mut self.paths);
    }

    pub(super) fn root(&self) -> u8 {
        self.paths
            .iter()
            .position(|p| p == b"/")
            .expect("/ is drafted") as u8
    }

    /// Any id: a role's or one of a few others.
    pub(super) fn id(&self, random: &mut Random, kind: u8) -> u32 {
        let named: Vec<u32> = self
            .roles
            .iter()
            .filter(|r| r.0 == kind)
            .map(|r| r.1)
            .collect();
        match named.is_empty() || random.chance(35) {
            true => random.pick(&[0, 1, 4, 7, 1000, NOBODY - 1]),
            false => random.pick(&named),
        }
    }

    fn ids(&self, random: &mut Random, kind: u8, open: usize) -> (u8, Vec<u32>) {
        let mode = match random.chance(open) {
            true => random.pick(&[0, 2]),
            false => 1,
        };
        let mut ids = (mode, Vec::new());
        let full = random.chance(3);
        let count = match mode {
            0 => 0,
            _ if full => IDS_MOST,
            1 => random.below(2 + open / 20),
            _ => random.below(4),
        };
        for n in 0..count as u32 {
            let id = if full {
                2000 + n
            } else {
                self.id(random, kind)
            };
            if !ids.1.contains(&id) {
                ids.1.push(id);
            }
        }
        ids
    }

    /// `open`: how much in a hundred the entry lets through.
    fn entry(&mut self, random: &mut Random, role: u8, subject: u8, open: usize, most: usize) {
        let mut entry = DraftEntry {
            role,
            subject,
            caps: 0,
            users: self.ids(random, b'u', open),
            groups: self.ids(random, b'g', open),
            objects: Vec::new(),
        };
        for cap in [1, 2] {
            if random.chance(open) {
                entry.caps |= cap;
            }
        }
        if !random.chance(1) || random.chance(60) {
            let modes = random.pick(&[0, HIDE, 16, 0]);
            let asked = if random.chance(open / 8) {
                READ | WRITE
            } else {
                0
            };
            entry.objects.push((self.root(), modes | asked));
        }
        let so_far: usize = self.entries.iter().map(|e| e.objects.len()).sum();
        for _ in 0..random
            .below(most + 1)
            .min((OBJECTS_MOST - 30).saturating_sub(so_far))
        {
            let path = random.below(self.paths.len()) as u8;
            let mut modes = random.pick(&[0, 0, 16, HIDE, HIDE | READ | EXEC]);
            for (mode, of) in [(EXEC, open), (READ, open / 4), (WRITE, open / 4)] {
                if random.chance(of) {
                    modes |= mode;
                }
            }
            if !entry.objects.iter().any(|o| o.0 == path) {
                entry.objects.push((path, modes));
            }
        }
        random.shuffle(&mut entry.objects);
        self.entries.push(entry);
    }

    pub(super) fn entries(&mut self, random: &mut Random, size: Size, open: usize) {
        let (extra, objects) = match size {
            Size::Small => (5, 3),
            Size::Usual => (12, 5),
            Size::ManyRoles => (64, 6),
            Size::ManyPaths => (100, 14),
        };
        let root = self.root();
        for role in 0..self.roles.len() as u8 {
            if !random.chance(1) || random.chance(70) {
                self.entry(random, role, root, open, objects);
            }
        }
        // With many roles few paths are subjects, lest there be too many states.
        let subjects = match size {
            Size::ManyRoles => 1 + random.below(9),
            _ => self.paths.len(),
        };
        for _ in 0..self.count(random, size, extra) {
            let role = random.below(self.roles.len().max(1)) as u8;
            let subject = random.below(subjects.min(self.paths.len())) as u8;
            let there = |e: &DraftEntry| (e.role, e.subject) == (role, subject);
            let room = self.entries.len() < ENTRIES_MOST || random.chance(1);
            if room && !self.roles.is_empty() && !self.entries.iter().any(there) {
                self.entry(random, role, subject, open, objects);
            }
        }
        random.shuffle(&mut self.entries);
    }

    pub(super) fn takes(&mut self, random: &mut Random, open: usize) {
        for special in 0..self.roles.len() as u8 {
            for role in 0..self.roles.len() as u8 {
                if self.roles[special as usize].0 == b's' && random.chance(open / 3) {
                    self.takes.push((role, special));
                }
            }
        }
        random.shuffle(&mut self.takes);
    }

    pub(super) fn frames(&self) -> Vec<Frame> {
        let mut list = vec![frames::form()];
        list.extend(self.roles.iter().map(|(kind, id)| frames::role(*kind, *id)));
        list.extend(self.paths.iter().map(|p| frames::path(p)));
        list.extend(
            self.takes
                .iter()
                .map(|(role, special)| frames::takes(*role, *special)),
        );
        for e in &self.entries {
            list.push(frames::entry(
                e.role, e.subject, e.caps, e.users.0, e.groups.0,
            ));
            list.extend(
                e.objects
                    .iter()
                    .map(|(path, modes)| frames::object(*path, *modes)),
            );
            list.extend(e.users.1.iter().map(|id| frames::uid(*id)));
            list.extend(e.groups.1.iter().map(|id| frames::gid(*id)));
        }
        frames::ended(list)
    }
}
