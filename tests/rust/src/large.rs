//! Large policies: full tables, many states, the longest text.

use crate::frames::{self, ended, entry, form, object, path, role, takes, text, Frame};
use crate::policy;

fn numbered(n: usize) -> Vec<u8> {
    format!("/{n}/").into_bytes()
}

/// A default role and `/`, then paths, entries of role 0 for the first paths with an object `/` each.
pub fn wide(paths: usize, entries: usize) -> Vec<Frame> {
    let mut list = vec![form(), role(b'-', 0), path(b"/")];
    list.extend((1..paths).map(|n| path(&numbered(n))));
    for n in 0..entries {
        list.push(entry(0, n as u8, 0, 1, 1));
        list.push(object(0, 1));
    }
    list
}

/// A default role in line 2, then roles of a kind with ids from 0; each role with an entry for `/`.
pub fn many_roles(kind: u8, count: usize) -> Vec<Frame> {
    let mut list = vec![form(), role(b'-', 0)];
    list.extend((0..count as u32).map(|n| role(kind, if kind == b's' { 0 } else { n })));
    list.push(path(b"/"));
    for n in 0..=count {
        list.push(entry(n as u8, 0, 0, 1, 1));
        list.push(object(0, 1));
    }
    list
}

/// 7 special, 15 user and 7 group roles, and so many subjects: 1,024 states each.
pub fn many_states(subjects: usize) -> Vec<Frame> {
    let mut list = vec![form(), role(b'-', 0)];
    list.extend((0..15).map(|n| role(b'u', n)));
    list.extend((0..7).map(|n| role(b'g', n)));
    list.extend((0..7).map(|_| role(b's', 0)));
    list.push(path(b"/"));
    list.extend((1..subjects).map(|n| path(&numbered(n))));
    for n in 0..30 {
        list.push(entry(n, 0, 0, 1, 1));
        list.push(object(0, 1));
    }
    for n in 1..subjects as u8 {
        list.push(entry(0, n, 0, 1, 1));
        list.push(object(0, 1));
    }
    list
}

/// 8,192 states, all of which are reached: every entry may set every id, run every file and take every special
/// role, and nothing may be read or written.
pub fn open_states() -> Vec<Frame> {
    let mut list = many_states(8);
    for frame in list.iter_mut() {
        match frame[0] {
            policy::ENTRY => frame[3..].copy_from_slice(&[3, 0, 0]),
            policy::OBJECT => frame[2] = policy::EXEC,
            _ => (),
        }
    }
    let groups = list
        .iter()
        .position(|f| f[0] == policy::ENTRY)
        .expect("entries are there");
    let pairs = (0..30).flat_map(|role| (23..30).map(move |special| takes(role, special)));
    list.splice(groups..groups, pairs);
    ended(list)
}

/// 64 entries of 8 objects each, and some more in the last.
pub fn many_objects(more: u8) -> Vec<Frame> {
    let mut list = wide(64, 0);
    for n in 0..64 {
        list.push(entry(0, n, 0, 1, 1));
        list.extend((0..8).map(|path| object(path, 5)));
    }
    list.extend((0..more).map(|n| object(8 + n, 1)));
    list
}

/// A text of 32,768 bytes: 96 paths, all but `/` of 64 bytes, and 1,743 ids in 56 entries.
/// 5 + 13 + 5 + 95 x 131 + 56 x (13 + 7) + 1,743 x 11 + 7 = 32,768.
pub fn fullest() -> Vec<u8> {
    let mut list = vec![form(), role(b'-', 0), path(b"/")];
    list.extend((1..96).map(|n| path(format!("/{n:062}/").as_bytes())));
    let mut left = 1_743;
    for n in 0..56 {
        list.push(entry(0, n, 3, 1 + n % 2, 2 - n % 2));
        list.push(object(0, 5));
        for of in [frames::uid, frames::gid] {
            for id in 0..left.min(16) {
                list.push(of(u32::MAX - 1 - id * 0x0101_0101));
            }
            left -= left.min(16);
        }
    }
    text(&ended(list))
}
