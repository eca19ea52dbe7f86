//! Refusals 13 to 15: the count, and the whole.

use super::{lines, Cases, EVERY, SMALL};
use crate::frames::{ended, entry, form, object, path, role, text};
use crate::large::many_states;

/// Refusals 13, 14, 15: the whole.
pub(super) fn wholes(c: &mut Cases) {
    for bad in ["7f0000", "7f0004", "7f0006", "7fffff", "7f0500"] {
        c.line(&SMALL, 6, bad, 13, 6);
    }
    c.line(&EVERY, 14, "7f000e", 13, 14);
    c.add(
        "7f after the form alone, wrong count",
        lines(&["0101", "7f0002"]),
        13,
        2,
    );
    c.add("empty text", Vec::new(), 14, 0);
    for kept in 1..6 {
        c.after(&SMALL, kept, &[], 14, 0);
    }
    c.add("nothing but a form", lines(&["0101", "7f0001"]), 15, 0);
    c.add(
        "roles alone",
        lines(&["0101", "102d00000000", "7f0002"]),
        15,
        0,
    );
    c.add(
        "a path alone",
        lines(&["0101", "102d00000000", "202f", "7f0003"]),
        15,
        0,
    );
    // No default role.
    c.line(&SMALL, 2, "107500000001", 15, 0);
    c.line(&SMALL, 2, "107300000000", 15, 0);
    // No path `/`: no role has an entry for it.
    c.line(&SMALL, 3, "202f612f", 15, 0);
    // EVERY: only the default role has an entry for `/`.
    c.add("roles without an entry for /", lines(&EVERY), 15, 0);
    let mut list = vec![
        form(),
        role(b'-', 0),
        role(b'u', 1),
        path(b"/"),
        path(b"/a/"),
    ];
    list.extend([entry(0, 0, 0, 1, 1), object(0, 1)]);
    let lacks = [&list[..], &[entry(1, 1, 0, 1, 1), object(0, 1)]].concat();
    c.add(
        "a role with an entry, not for /",
        text(&ended(lacks)),
        15,
        0,
    );
    let has = [&list[..], &[entry(1, 0, 0, 1, 1), object(0, 1)]].concat();
    c.add(
        "each role with an entry for /",
        text(&ended(has.clone())),
        0,
        0,
    );
    let lacks = [&has[..], &[entry(1, 1, 0, 1, 1), object(1, 1)]].concat();
    c.add("an entry with an object, not /", text(&ended(lacks)), 15, 0);
    let lacks = [&has[..], &[entry(1, 1, 0, 1, 1)]].concat();
    c.add("an entry without objects", text(&ended(lacks)), 15, 0);
    c.after(&SMALL, 4, &["7f0004"], 15, 0);
    // 15 comes before 16, 14 before 15.
    let mut both = many_states(9);
    both.pop();
    c.add(
        "9,216 states and an entry without /",
        text(&ended(both)),
        15,
        0,
    );
    c.add("9,216 states without 7f", text(&many_states(9)), 14, 0);
    // The entry for `/` may come last, its object too, and `/` may be any path.
    let list = vec![
        form(),
        role(b's', 0),
        role(b'-', 0),
        path(b"/a/"),
        path(b"/"),
        entry(1, 0, 3, 2, 2),
        object(0, 31),
        object(1, 8),
        entry(0, 1, 0, 0, 0),
        object(1, 0),
        entry(1, 1, 0, 0, 0),
        object(1, 0),
    ];
    c.add("/ last everywhere", text(&ended(list)), 0, 0);
}
