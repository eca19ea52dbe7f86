//! A policy, and a run in it with every kind of step.

use second::ask::Question;
use second::frames::{ended, entry, form, gid, object, path, role, takes, text, uid};
use second::replay::{step, Step, LEAVE};

/// A policy in which steps of each kind follow one another. Roles: 0 default, 1 user 5, 2 group 6, 3 special.
/// Paths: `/`, `/a/`, `/a/b/`. Every role may take the special role, set ids and run `/a/` and what is below it;
/// there all but the group role may write.
pub fn all_kinds() -> Vec<u8> {
    let mut list = vec![form(), role(b'-', 0), role(b'u', 5), role(b'g', 6)];
    list.extend([role(b's', 0), path(b"/"), path(b"/a/"), path(b"/a/b/")]);
    list.extend((0..4).map(|r| takes(r, 3)));
    for r in 0..4 {
        list.extend([entry(r, 0, 3, 1, 2), object(1, 4), object(0, 1)]);
        list.extend([uid(5), uid(9), gid(7)]);
        let modes = if r == 2 { 1 } else { 3 };
        list.extend([entry(r, 1, 1, 2, 0), object(0, modes), object(2, 12)]);
        list.push(uid(4));
    }
    text(&ended(list))
}

pub const ASKED: Question = Question {
    uid: 1,
    gid: 2,
    start: b"/x/",
    target: b"/y/",
    kind: 1,
};

/// A run with every kind of step; it ends in `/a/b/`, with the special role.
pub const RUN: [Step; 8] = [
    step(0x81, 3, 0, 0, 0, 0),
    step(0x82, 0, 5, 0, 0, 0),
    step(0x83, 0, 0, 6, 0, 0),
    LEAVE,
    step(0x84, 0, 9, 6, 1, 2),
    step(0x82, 0, 7, 0, 0, 0),
    step(0x81, 3, 0, 0, 0, 0),
    step(0x81, 3, 0, 0, 0, 0),
];
