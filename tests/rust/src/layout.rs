//! The store's first 16,384 bytes after an accepted load, as docs/LAYOUT.md describes them; a path found
//! again.

use crate::policy::{Kind, Policy};
use std::ops::Range;

pub const BYTES: usize = 16_384;

const ROLES_AT: usize = 16;
const ROLE: usize = 22;
const PLACES_AT: usize = 676;
const PLACE: usize = 3;
const ENTRIES_AT: usize = 1_156;
const ENTRY: usize = 12;
const OBJECTS_AT: usize = 1_924;
const OBJECT: usize = 2;
const POOL_AT: usize = 2_948;

/// A store that is written row by row; what is not written stays 0.
struct Store<'a> {
    bytes: &'a mut [u8],
    /// Bytes used in the pool.
    pool: usize,
}

fn two(n: usize) -> [u8; 2] {
    (n as u16).to_be_bytes()
}

impl Store<'_> {
    /// Writes the parts of a row, one behind the other.
    fn put(&mut self, mut at: usize, parts: &[&[u8]]) {
        for part in parts {
            self.bytes[at..at + part.len()].copy_from_slice(part);
            at += part.len();
        }
    }

    /// Appends to the pool; the place where the bytes begin.
    fn pool(&mut self, bytes: &[u8]) -> usize {
        let at = self.pool;
        self.put(POOL_AT + at, &[bytes]);
        self.pool += bytes.len();
        at
    }

    fn roles(&mut self, policy: &Policy) {
        for (n, role) in policy.roles.iter().enumerate() {
            let row: [&[u8]; 2] = [&[role.kind.byte()], &role.id.to_be_bytes()];
            self.put(ROLES_AT + n * ROLE, &row);
        }
    }

    fn paths(&mut self, policy: &Policy) {
        for (n, path) in policy.paths.iter().enumerate() {
            let at = self.pool(path.bytes());
            let row: [&[u8]; 2] = [&two(at), &[path.bytes().len() as u8]];
            self.put(PLACES_AT + n * PLACE, &row);
        }
    }

    fn moves(&mut self, policy: &Policy) {
        for (role, special) in &policy.moves {
            self.pool(&[*role, *special]);
        }
    }

    /// The entries with their objects and ids; the count of all objects.
    fn entries(&mut self, policy: &Policy) -> usize {
        let mut first = 0;
        for (n, e) in policy.entries.iter().enumerate() {
            let objects = policy.objects(n);
            let (users, groups) = (e.users.listed(), e.groups.listed());
            let row: [&[u8]; 5] = [
                &[e.subject, e.role, e.caps, e.users.mode, e.groups.mode],
                &two(first),
                &[objects.len() as u8],
                &two(self.pool),
                &[users.len() as u8, groups.len() as u8],
            ];
            self.put(ENTRIES_AT + n * ENTRY, &row);
            for id in users.iter().chain(groups) {
                self.pool(&id.to_be_bytes());
            }
            for (place, object) in objects.iter().enumerate() {
                let at = OBJECTS_AT + (first + place) * OBJECT;
                self.put(at, &[&[object.path, object.modes]]);
            }
            first += objects.len();
        }
        first
    }

    fn header(&mut self, policy: &Policy, objects: usize, moves_at: usize) {
        let of = |kind| policy.roles_of(kind).len() as u8;
        let root = policy.paths.iter().position(|p| p.bytes() == b"/");
        let row: [&[u8]; 5] = [
            &[
                1,
                policy.roles.len() as u8,
                policy.paths.len() as u8,
                policy.entries.len() as u8,
            ],
            &two(objects),
            &two(self.pool),
            &[
                of(Kind::User),
                of(Kind::Group),
                of(Kind::Special),
                policy.subjects().len() as u8,
                root.expect("an accepted policy has the path /") as u8,
                policy.moves.len() as u8,
            ],
            &two(moves_at),
        ];
        self.put(0, &row);
    }
}

/// Writes an accepted policy into the first bytes of a store.
pub fn write(policy: &Policy, store: &mut [u8]) {
    let bytes = &mut store[..BYTES];
    bytes.fill(0);
    let mut store = Store { bytes, pool: 0 };
    store.roles(policy);
    store.paths(policy);
    let moves_at = store.pool;
    store.moves(policy);
    let objects = store.entries(policy);
    store.header(policy, objects, moves_at);
}

/// The bytes that hold an accepted policy.
pub fn layout(policy: &Policy) -> Vec<u8> {
    let mut store = vec![0; BYTES];
    write(policy, &mut store);
    store
}

/// Where path `number` of a store stands, whatever its bytes are: nowhere if the store does not reach to the end
/// of the path's place or of the path, or has no such path by its count.
pub fn path_at(store: &[u8], number: u8) -> Option<Range<usize>> {
    let place = store.get(PLACES_AT + number as usize * PLACE..)?;
    let (&[high, low, len], _) = place.split_first_chunk()?;
    let from = POOL_AT + u16::from_be_bytes([high, low]) as usize;
    let end = from + len as usize;
    (number < store[2] && end <= store.len()).then_some(from..end)
}
