//! Refusal 10: fields, numbers and paths.

use super::{lines, Cases, EVERY, SMALL};
use crate::frames::{ended, entry, form, object, path, role, text};

/// Refusal 10: fields, numbers and paths.
pub(super) fn fields(c: &mut Cases) {
    c.line(&SMALL, 1, "0102", 10, 1);
    c.line(&SMALL, 1, "0100", 10, 1);
    c.add("form 2 alone", lines(&["0102"]), 10, 1);
    for bad in [
        "107800000000",
        "100000000000",
        "105500000000",
        "107300000001",
        "102d00000001",
        "1075ffffffff",
        "1067ffffffff",
        "1073ffffffff",
        "102dffffffff",
    ] {
        c.line(&SMALL, 2, bad, 10, 2);
        c.after(&SMALL, 1, &[bad], 10, 2);
    }
    // Transitions: roles 0 default, 1 user, 2 group, 3 special.
    for bad in [
        "300403", "300004", "30ff03", "3000ff", "300000", "300001", "300002", "300404",
    ] {
        c.line(&EVERY, 8, bad, 10, 8);
        c.after(&EVERY, 7, &[bad], 10, 8);
    }
    c.after(&SMALL, 1, &["300000"], 10, 2);
    // Entries.
    for bad in [
        "400400000101",
        "40ff00000101",
        "400002000101",
        "4000ff000101",
        "400000040101",
        "400000800101",
        "400000000301",
        "400000000103",
        "400000ff0101",
        "40000000ff01",
        "4000000001ff",
    ] {
        c.line(&EVERY, 9, bad, 10, 9);
        c.after(&EVERY, 8, &[bad], 10, 9);
    }
    c.after(&SMALL, 1, &["400000000101"], 10, 2);
    c.after(&SMALL, 2, &["400000000101"], 10, 3);
    // Objects.
    for bad in ["410201", "41ff01", "410020", "410040", "4100ff", "410120"] {
        c.line(&EVERY, 10, bad, 10, 10);
        c.after(&EVERY, 9, &[bad], 10, 10);
    }
    // Ids: nobody, and lists under mode 0 (line 13 opens an entry with both modes 0).
    c.line(&EVERY, 11, "42ffffffff", 10, 11);
    c.line(&EVERY, 12, "43ffffffff", 10, 12);
    c.after(&EVERY, 10, &["42ffffffff"], 10, 11);
    c.after(&EVERY, 13, &["4200000001"], 10, 14);
    c.after(&EVERY, 13, &["4300000001"], 10, 14);
    c.after(&EVERY, 13, &["410000", "4200000001"], 10, 15);
    c.after(&EVERY, 8, &["400000000001", "4200000001"], 10, 10);
    c.after(
        &EVERY,
        8,
        &["400000000001", "4300000001", "4300000001"],
        11,
        11,
    );
    c.after(
        &EVERY,
        8,
        &["400000000100", "4200000001", "4300000001"],
        10,
        11,
    );
    paths(c);
    // A bad field is lower than a second, and than a full table.
    c.after(&EVERY, 9, &["410000", "410020"], 10, 11);
    c.after(&EVERY, 8, &["400000000101", "400000040101"], 10, 10);
}

fn paths(c: &mut Cases) {
    let good = |p: &[u8]| {
        text(&ended(vec![
            form(),
            role(b'-', 0),
            path(b"/"),
            path(p),
            entry(0, 0, 0, 1, 1),
            object(0, 1),
        ]))
    };
    let long = |n: usize| [b"/", &vec![b'a'; n - 2][..], b"/"].concat();
    for (name, p, number) in [
        ("64 bytes", long(64), 0),
        ("65 bytes", long(65), 10),
        ("79 bytes", long(79), 10),
        (
            "64 bytes in many names",
            [b"/a".repeat(31), b"b/".to_vec()].concat(),
            0,
        ),
        (
            "65 bytes in many names",
            [b"/a".repeat(32), b"/".to_vec()].concat(),
            10,
        ),
        (
            "63 bytes in names of one byte",
            [b"/a".repeat(31), b"/".to_vec()].concat(),
            0,
        ),
        ("*", b"/a*/".to_vec(), 10),
        ("?", b"/a?/".to_vec(), 10),
        ("[", b"/a[/".to_vec(), 10),
        ("]", b"/a]/".to_vec(), 0),
        ("byte 00", b"/a\0/".to_vec(), 10),
        ("byte 00 alone", b"\0".to_vec(), 10),
        ("//", b"//".to_vec(), 10),
        ("// in front", b"//a/".to_vec(), 10),
        ("// in the middle", b"/a//b/".to_vec(), 10),
        ("// at the end", b"/a//".to_vec(), 10),
        ("no closing slash", b"/a".to_vec(), 10),
        ("no opening slash", b"a/".to_vec(), 10),
        ("no slash", b"a".to_vec(), 10),
        (".", b"/./".to_vec(), 0),
        ("..", b"/../".to_vec(), 0),
        ("LF", b"/\n/".to_vec(), 0),
        ("byte ff", b"/\xff/".to_vec(), 0),
        ("byte 01", b"/\x01/".to_vec(), 0),
    ] {
        c.add(
            &format!("path {name}"),
            good(&p),
            number,
            if number == 0 { 0 } else { 4 },
        );
    }
    let list = [form(), role(b'-', 0), path(b"a")];
    c.add("a bad path in the last line", text(&list), 10, 3);
}
