//! Refusals 11, 12 and 16: what is there already, and full tables.

use super::{lines, Cases, EVERY, SMALL};
use crate::frames::{self, ended, entry, form, gid, object, path, role, takes, text, uid, Frame};
use crate::large::{many_objects, many_roles, many_states, wide};

/// Refusal 11: a second.
pub(super) fn seconds(c: &mut Cases) {
    // In the last line.
    c.after(&SMALL, 2, &["102d00000000"], 11, 3);
    c.after(&SMALL, 2, &["107500000001", "107500000001"], 11, 4);
    c.after(&SMALL, 2, &["106700000001", "106700000001"], 11, 4);
    c.after(&SMALL, 3, &["202f"], 11, 4);
    c.after(&SMALL, 3, &["202f612f", "202f622f", "202f612f"], 11, 6);
    c.after(&EVERY, 8, &["300003"], 11, 9);
    c.after(&EVERY, 8, &["300103", "300203", "300303", "300103"], 11, 12);
    c.after(&EVERY, 8, &["400000000101", "400000000101"], 11, 10);
    c.after(&SMALL, 4, &["400000030202"], 11, 5);
    c.after(&SMALL, 5, &["410001"], 11, 6);
    c.after(&SMALL, 5, &["41001f"], 11, 6);
    c.after(&SMALL, 5, &["4200000001", "4200000001"], 11, 7);
    c.after(
        &SMALL,
        5,
        &["4300000001", "4300000002", "4300000001"],
        11,
        8,
    );
    // In the middle of a text that goes on to its 7f.
    let mut doubled = EVERY.to_vec();
    doubled.insert(9, EVERY[8]);
    c.add("a second entry in the middle", lines(&doubled), 11, 10);
    // No seconds: the same id as user and group, two special roles, the same path as object of two entries,
    // the same id as UID and GID, the same subject in two roles.
    let list = vec![
        form(),
        role(b'-', 0),
        role(b'u', 7),
        role(b'g', 7),
        role(b's', 0),
        role(b's', 0),
        path(b"/"),
        takes(0, 3),
        takes(0, 4),
        takes(3, 3),
        entry(0, 0, 3, 1, 1),
        object(0, 31),
        uid(7),
        gid(7),
        entry(1, 0, 0, 2, 2),
        object(0, 0),
        uid(7),
        gid(7),
        entry(2, 0, 0, 0, 0),
        object(0, 0),
        entry(3, 0, 0, 1, 2),
        object(0, 0),
        entry(4, 0, 0, 2, 1),
        object(0, 0),
    ];
    c.add("what is no second", text(&ended(list)), 0, 0);
}

/// Refusals 12 and 16: one more than a table holds, and too many states.
pub(super) fn tables(c: &mut Cases) {
    let whole = |list: Vec<Frame>| text(&ended(list));
    let cut = |list: Vec<Frame>, lines: usize| text(&list[..lines]);
    c.add("15 user roles", whole(many_roles(b'u', 15)), 0, 0);
    c.add("16 user roles", whole(many_roles(b'u', 16)), 12, 18);
    c.add(
        "16 user roles, the last line",
        cut(many_roles(b'u', 16), 18),
        12,
        18,
    );
    for (kind, name) in [(b'g', "group"), (b's', "special")] {
        c.add(&format!("7 {name} roles"), whole(many_roles(kind, 7)), 0, 0);
        c.add(
            &format!("8 {name} roles"),
            whole(many_roles(kind, 8)),
            12,
            10,
        );
        c.add(
            &format!("8 {name} roles, the last line"),
            cut(many_roles(kind, 8), 10),
            12,
            10,
        );
    }
    c.add("96 paths", whole(wide(96, 1)), 0, 0);
    c.add("97 paths", whole(wide(97, 1)), 12, 99);
    c.add("97 paths, the last line", cut(wide(97, 1), 99), 12, 99);
    c.add("64 entries", whole(wide(64, 64)), 0, 0);
    c.add("65 entries", whole(wide(65, 65)), 12, 196);
    c.add("65 entries, the last line", cut(wide(65, 65), 196), 12, 196);
    c.add("512 objects", whole(many_objects(0)), 0, 0);
    c.add("513 objects", whole(many_objects(1)), 12, 643);
    c.add(
        "513 objects, the last line",
        cut(many_objects(1), 643),
        12,
        643,
    );
    let ids = |count: u32, of: fn(u32) -> Frame| {
        let mut list = wide(1, 1);
        list.extend((0..count).map(of));
        list
    };
    for (name, of) in [
        ("UIDs", frames::uid as fn(u32) -> Frame),
        ("GIDs", frames::gid),
    ] {
        c.add(&format!("16 {name}"), whole(ids(16, of)), 0, 0);
        c.add(&format!("17 {name}"), whole(ids(17, of)), 12, 22);
        c.add(
            &format!("17 {name}, the last line"),
            cut(ids(17, of), 22),
            12,
            22,
        );
    }
    full_and_second(c);
    c.add("8,192 states", whole(many_states(8)), 0, 0);
    c.add("9,216 states", whole(many_states(9)), 16, 0);
}

/// A second is 11 also where its table is full; a bad field 10.
fn full_and_second(c: &mut Cases) {
    let mut add = |name: &str, kept: &[Frame], last: Frame, number: u8| {
        let list = [kept, &[last]].concat();
        c.add(
            &format!("full, {name}"),
            text(&list),
            number,
            list.len() as u32,
        );
    };
    let users = many_roles(b'u', 15);
    add("a user role again", &users[..17], role(b'u', 14), 11);
    add(
        "a user role of nobody",
        &users[..17],
        role(b'u', u32::MAX),
        10,
    );
    add("one more user role", &users[..17], role(b'u', 15), 12);
    add("a role of no kind", &users[..17], role(b'x', 15), 10);
    let groups = many_roles(b'g', 7);
    add("a group role again", &groups[..9], role(b'g', 0), 11);
    let paths = wide(96, 0);
    add("a path again", &paths, path(b"/95/"), 11);
    add("a bad path", &paths, path(b"/96"), 10);
    let entries = wide(65, 64);
    add("an entry again", &entries, entry(0, 0, 0, 1, 1), 11);
    add("an entry of no path", &entries, entry(0, 65, 0, 1, 1), 10);
    let objects = many_objects(0);
    add("an object again", &objects, object(7, 1), 11);
    add("an object of no path", &objects, object(64, 1), 10);
    let mut ids = wide(1, 1);
    ids.extend((0..16).map(uid));
    add("a UID again", &ids, uid(15), 11);
    add("a UID of nobody", &ids, uid(u32::MAX), 10);
    let mut ids = wide(1, 1);
    ids.extend((0..16).map(gid));
    add("a GID again", &ids, gid(0), 11);
}
