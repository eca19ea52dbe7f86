//! A policy whose shortest run is very long: a clock with three hands.
//!
//! The special role runs the subjects one after the other. Only at the last of them is it of use to leave the
//! special role: there a user role runs the first subject again, with the next UID. The last user role sets a
//! UID without a role instead; so the group role comes into force, and it runs the first subject with the first
//! UID and the next GID. The access is granted to one group role at the last subject.

use crate::frames::{ended, entry, form, gid, object, path, role, takes, uid, Frame};

pub const SUBJECTS: u8 = 23;
pub const USERS: u8 = 12;
pub const GROUPS: u8 = 7;
const NO_ROLE: u32 = 100;

/// The frames; the access is granted at a group role, 1 to 7. Ask with UID 1, GID 0, start `/a/`, target
/// `/etc/`, kind 0.
pub fn clock(at: u8) -> Vec<Frame> {
    // Role 0 is the default, then come the users, the groups, and the special role.
    let special = USERS + GROUPS + 1;
    let mut list = vec![form(), role(b'-', 0)];
    list.extend((1..=USERS).map(|n| role(b'u', n.into())));
    list.extend((1..=GROUPS).map(|n| role(b'g', n.into())));
    list.push(role(b's', 0));
    // Path 0 is `/`, path n the n-th letter.
    list.push(path(b"/"));
    list.extend((0..SUBJECTS).map(|n| path(&[b'/', b'a' + n, b'/'])));
    list.extend((1..=USERS).map(|n| takes(n, special)));
    for n in 0..=special {
        list.extend([entry(n, 0, 0, 1, 1), object(0, 0)]);
    }
    for n in 1..SUBJECTS {
        list.extend([entry(special, n, 0, 1, 1), object(0, 0), object(n + 1, 4)]);
    }
    for n in 1..USERS {
        list.extend([entry(n, SUBJECTS, 0, 1, 1), object(0, 0), object(1, 4)]);
        list.push(uid(n as u32 + 1));
    }
    list.extend([entry(USERS, SUBJECTS, 1, 1, 1), object(0, 0), uid(NO_ROLE)]);
    for n in 0..=GROUPS {
        let number = if n == 0 { 0 } else { USERS + n };
        let modes = if n == at { 1 } else { 0 };
        list.extend([
            entry(number, SUBJECTS, 0, 1, 1),
            object(0, modes),
            object(1, 4),
        ]);
        list.extend([uid(1), gid(n as u32 + 1)]);
    }
    ended(list)
}
