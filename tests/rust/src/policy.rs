//! The policy as hexadecimal lines: loading, with refusals 7 to 16.

use crate::lines::{number, take_line};

pub const USERS_MOST: usize = 15;
pub const GROUPS_MOST: usize = 7;
pub const SPECIALS_MOST: usize = 7;
pub const ROLES_MOST: usize = USERS_MOST + GROUPS_MOST + SPECIALS_MOST + 1;
pub const PATHS_MOST: usize = 96;
pub const ENTRIES_MOST: usize = 64;
pub const OBJECTS_MOST: usize = 512;
pub const IDS_MOST: usize = 16;
pub const STATES_MOST: usize = 8_192;
pub const PATH_BYTES_MOST: usize = 64;

/// The id that names nobody.
pub const NOBODY: u32 = u32::MAX;

pub const READ: u8 = 1;
pub const WRITE: u8 = 2;
pub const EXEC: u8 = 4;
pub const HIDE: u8 = 8;
pub const APPEND: u8 = 16;
pub const SET_UID: u8 = 1;
pub const SET_GID: u8 = 2;

pub const FORM: u8 = 0x01;
pub const ROLE: u8 = 0x10;
pub const PATH: u8 = 0x20;
pub const TAKES: u8 = 0x30;
pub const ENTRY: u8 = 0x40;
pub const OBJECT: u8 = 0x41;
pub const UID: u8 = 0x42;
pub const GID: u8 = 0x43;
pub const END: u8 = 0x7f;

/// Type, shortest rest, longest rest.
const FRAMES: [(u8, usize, usize); 9] = [
    (FORM, 1, 1),
    (ROLE, 5, 5),
    (PATH, 1, 79),
    (TAKES, 2, 2),
    (ENTRY, 5, 5),
    (OBJECT, 2, 2),
    (UID, 4, 4),
    (GID, 4, 4),
    (END, 2, 2),
];

/// A refusal: its number, and the line from 1 (0 where no line is at fault).
#[derive(Clone, Copy, Debug, PartialEq, Eq)]
pub struct Refusal {
    pub number: u8,
    pub line: u32,
}

#[derive(Clone, Copy, Debug, PartialEq, Eq)]
pub enum Kind {
    User,
    Group,
    Special,
    Default,
}

impl Kind {
    /// The byte that stands for it in a frame.
    pub fn byte(self) -> u8 {
        match self {
            Kind::User => b'u',
            Kind::Group => b'g',
            Kind::Special => b's',
            Kind::Default => b'-',
        }
    }
}

#[derive(Clone, Copy, Debug, PartialEq, Eq)]
pub struct Role {
    pub kind: Kind,
    pub id: u32,
    /// Bit n: this role may take special role n.
    pub takes: u32,
}

/// A path of the policy.
#[derive(Clone, Copy, Debug, PartialEq, Eq)]
pub struct Path {
    len: u8,
    bytes: [u8; PATH_BYTES_MOST],
}

impl Path {
    fn new(text: &[u8]) -> Path {
        let mut bytes = [0; PATH_BYTES_MOST];
        bytes[..text.len()].copy_from_slice(text);
        Path {
            len: text.len() as u8,
            bytes,
        }
    }

    pub fn bytes(&self) -> &[u8] {
        &self.bytes[..self.len as usize]
    }
}

#[derive(Clone, Copy, Debug, PartialEq, Eq)]
pub struct Object {
    pub path: u8,
    pub modes: u8,
}

/// Allowed users or groups of an entry. Mode 0: all, 1: only those listed, 2: all but those listed.
#[derive(Clone, Copy, Debug, PartialEq, Eq)]
pub struct Ids {
    pub mode: u8,
    count: u8,
    ids: [u32; IDS_MOST],
}

impl Ids {
    fn new(mode: u8) -> Ids {
        Ids {
            mode,
            count: 0,
            ids: [0; IDS_MOST],
        }
    }

    pub fn listed(&self) -> &[u32] {
        &self.ids[..self.count as usize]
    }

    /// Adds an id: refusal 10, 11 or 12.
    fn add(&mut self, id: u32) -> Result<(), u8> {
        check(10, id != NOBODY && self.mode != 0)?;
        check(11, !self.listed().contains(&id))?;
        check(12, self.listed().len() < IDS_MOST)?;
        self.ids[self.count as usize] = id;
        self.count += 1;
        Ok(())
    }
}

#[derive(Clone, Copy, Debug, PartialEq, Eq)]
pub struct Entry {
    pub role: u8,
    pub subject: u8,
    pub caps: u8,
    pub users: Ids,
    pub groups: Ids,
    /// The entry's objects are `first..end` of the policy's.
    first: u16,
    end: u16,
}

#[derive(Clone, Debug, PartialEq, Eq)]
pub struct Policy {
    pub roles: Vec<Role>,
    pub paths: Vec<Path>,
    /// Transitions in the text's order: a role, and a special role that it may take.
    pub moves: Vec<(u8, u8)>,
    pub entries: Vec<Entry>,
    objects: Vec<Object>,
    /// Number of the default role.
    pub default: u8,
}

impl Policy {
    /// The objects of an entry in their order.
    pub fn objects(&self, entry: usize) -> &[Object] {
        let e = &self.entries[entry];
        &self.objects[e.first as usize..e.end as usize]
    }

    pub fn path(&self, number: u8) -> &[u8] {
        self.paths[number as usize].bytes()
    }

    /// The numbers of the roles of a kind, in order.
    pub fn roles_of(&self, kind: Kind) -> Vec<u8> {
        let of_kind = |n: &u8| self.roles[*n as usize].kind == kind;
        (0..self.roles.len() as u8).filter(of_kind).collect()
    }

    /// S: the subject paths of all entries of all roles, by path number.
    pub fn subjects(&self) -> Vec<u8> {
        let mut held = [false; PATHS_MOST];
        for e in &self.entries {
            held[e.subject as usize] = true;
        }
        (0..self.paths.len() as u8)
            .filter(|p| held[*p as usize])
            .collect()
    }
}

/// `/`, or names between slashes with a slash at both ends; no byte 00.
pub fn is_path(bytes: &[u8]) -> bool {
    bytes.first() == Some(&b'/')
        && bytes.last() == Some(&b'/')
        && !bytes.windows(2).any(|pair| pair == b"//")
        && !bytes.contains(&0)
}

/// A path as a policy may hold it.
fn is_policy_path(bytes: &[u8]) -> bool {
    bytes.len() <= PATH_BYTES_MOST
        && is_path(bytes)
        && !bytes.iter().any(|b| matches!(b, b'*' | b'?' | b'['))
}

fn check(number: u8, good: bool) -> Result<(), u8> {
    if good {
        Ok(())
    } else {
        Err(number)
    }
}

/// Whether a frame of type `next` may follow one of type `last` (None: be the first).
fn in_order(last: Option<u8>, next: u8) -> bool {
    match (last, next) {
        (None, _) => next == FORM,
        (Some(END), _) | (_, FORM) => false,
        (Some(last), ROLE | PATH | TAKES) => last <= next,
        (Some(last), OBJECT | UID | GID) => ENTRY <= last && last <= next,
        (Some(_), _) => true,
    }
}

struct Loader {
    policy: Policy,
    /// Type of the last frame.
    last: Option<u8>,
    /// Frames so far.
    count: u32,
    /// Bit p in place r: role r has an entry for path p.
    entered: [u128; ROLES_MOST],
    /// Bit p: the last entry has object p.
    objects: u128,
}

impl Loader {
    /// One frame: the lowest of refusals 8 to 13, or the frame is taken.
    fn frame(&mut self, frame: &[u8]) -> Result<(), u8> {
        let (kind, rest) = (frame[0], &frame[1..]);
        let fits = |t: &(u8, usize, usize)| t.0 == kind && t.1 <= rest.len() && rest.len() <= t.2;
        check(8, FRAMES.iter().any(fits))?;
        check(9, in_order(self.last, kind))?;
        match kind {
            FORM => check(10, rest[0] == 1)?,
            ROLE => self.role(rest[0], number(&rest[1..]))?,
            PATH => self.path(rest)?,
            TAKES => self.takes(rest[0], rest[1])?,
            ENTRY => self.entry(rest)?,
            OBJECT => self.object(rest[0], rest[1])?,
            UID => self.entry_last().users.add(number(rest))?,
            GID => self.entry_last().groups.add(number(rest))?,
            _ => check(13, number(rest) == self.count)?,
        }
        self.last = Some(kind);
        self.count += 1;
        Ok(())
    }

    fn entry_last(&mut self) -> &mut Entry {
        self.policy.entries.last_mut().expect("an entry is open")
    }

    fn role(&mut self, kind: u8, id: u32) -> Result<(), u8> {
        let (kind, most) = match kind {
            b'u' => (Kind::User, USERS_MOST),
            b'g' => (Kind::Group, GROUPS_MOST),
            b's' => (Kind::Special, SPECIALS_MOST),
            b'-' => (Kind::Default, 1),
            _ => return Err(10),
        };
        let named = matches!(kind, Kind::User | Kind::Group);
        check(10, if named { id != NOBODY } else { id == 0 })?;
        let same = |r: &&Role| r.kind == kind;
        let roles = &self.policy.roles;
        let second = roles.iter().filter(same).any(|r| r.id == id);
        check(11, kind == Kind::Special || !second)?;
        check(12, roles.iter().filter(same).count() < most)?;
        if kind == Kind::Default {
            self.policy.default = roles.len() as u8;
        }
        self.policy.roles.push(Role { kind, id, takes: 0 });
        Ok(())
    }

    fn path(&mut self, bytes: &[u8]) -> Result<(), u8> {
        check(10, is_policy_path(bytes))?;
        let paths = &mut self.policy.paths;
        check(11, !paths.iter().any(|p| p.bytes() == bytes))?;
        check(12, paths.len() < PATHS_MOST)?;
        paths.push(Path::new(bytes));
        Ok(())
    }

    fn takes(&mut self, role: u8, special: u8) -> Result<(), u8> {
        let roles = &mut self.policy.roles;
        let kind = roles.get(special as usize).map(|r| r.kind);
        let named = (role as usize) < roles.len();
        check(10, named && kind == Some(Kind::Special))?;
        let takes = &mut roles[role as usize].takes;
        check(11, *takes >> special & 1 == 0)?;
        *takes |= 1 << special;
        self.policy.moves.push((role, special));
        Ok(())
    }

    fn entry(&mut self, rest: &[u8]) -> Result<(), u8> {
        let policy = &mut self.policy;
        let (role, subject) = (rest[0] as usize, rest[1] as usize);
        check(
            10,
            role < policy.roles.len() && subject < policy.paths.len(),
        )?;
        check(10, rest[2] <= SET_UID | SET_GID)?;
        check(10, rest[3] <= 2 && rest[4] <= 2)?;
        check(11, self.entered[role] >> subject & 1 == 0)?;
        check(12, policy.entries.len() < ENTRIES_MOST)?;
        let first = policy.objects.len() as u16;
        policy.entries.push(Entry {
            role: rest[0],
            subject: rest[1],
            caps: rest[2],
            users: Ids::new(rest[3]),
            groups: Ids::new(rest[4]),
            first,
            end: first,
        });
        self.entered[role] |= 1 << subject;
        self.objects = 0;
        Ok(())
    }

    fn object(&mut self, path: u8, modes: u8) -> Result<(), u8> {
        let policy = &mut self.policy;
        check(10, (path as usize) < policy.paths.len())?;
        check(10, modes <= READ | WRITE | EXEC | HIDE | APPEND)?;
        check(11, self.objects >> path & 1 == 0)?;
        check(12, policy.objects.len() < OBJECTS_MOST)?;
        policy.objects.push(Object { path, modes });
        self.objects |= 1 << path;
        self.entry_last().end += 1;
        Ok(())
    }

    /// Refusals 14 to 16, in this order.
    fn whole(&self) -> Result<(), u8> {
        let policy = &self.policy;
        check(14, self.last == Some(END))?;
        check(15, policy.roles.iter().any(|r| r.kind == Kind::Default))?;
        let root = policy.paths.iter().position(|p| p.bytes() == b"/");
        let root = root.ok_or(15u8)?;
        let entered = &self.entered[..policy.roles.len()];
        check(15, entered.iter().all(|paths| paths >> root & 1 == 1))?;
        let has_root = |e| policy.objects(e).iter().any(|o| o.path as usize == root);
        check(15, (0..policy.entries.len()).all(has_root))?;
        check(16, states(policy) <= STATES_MOST)
    }
}

/// (special roles + 1) x (user roles + 1) x (group roles + 1) x paths in S.
fn states(policy: &Policy) -> usize {
    let of = |kind| policy.roles.iter().filter(|r| r.kind == kind).count() + 1;
    of(Kind::Special) * of(Kind::User) * of(Kind::Group) * policy.subjects().len()
}

/// Loads a policy. The first faulty line decides, in it the lowest of 7 to 13; then 14, 15, 16.
pub fn load(text: &[u8]) -> Result<Policy, Refusal> {
    let mut loader = Loader {
        policy: Policy {
            roles: Vec::with_capacity(ROLES_MOST),
            paths: Vec::with_capacity(PATHS_MOST),
            moves: Vec::new(),
            entries: Vec::with_capacity(ENTRIES_MOST),
            objects: Vec::with_capacity(OBJECTS_MOST),
            default: 0,
        },
        last: None,
        count: 0,
        entered: [0; ROLES_MOST],
        objects: 0,
    };
    let mut rest = text;
    let mut line = 0;
    while !rest.is_empty() {
        line += 1;
        let (frame, next) = take_line(rest).ok_or(Refusal { number: 7, line })?;
        let refused = |number| Refusal { number, line };
        loader.frame(frame.bytes()).map_err(refused)?;
        rest = next;
    }
    let refused = |number| Refusal { number, line: 0 };
    loader.whole().map_err(refused)?;
    Ok(loader.policy)
}
