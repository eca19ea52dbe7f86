//! The policies that are asked about.

use second::ask::Question;
use second::frames::{ended, entry, form, gid, object, path, role, takes, text, uid};
use second::large::open_states;
use second::load_cases::LISTING;

pub struct Case {
    pub name: &'static str,
    pub text: Vec<u8>,
    pub question: Question<'static>,
    /// The answer's first line.
    pub head: &'static str,
}

/// Document 01's listing.
fn listing() -> Case {
    Case {
        name: "01's listing",
        text: LISTING.as_bytes().to_vec(),
        question: Question {
            uid: 1000,
            gid: 100,
            start: b"/",
            target: b"/etc/ntp/",
            kind: 1,
        },
        head: "800100020002\n",
    }
}

const PROGRAMS: u8 = 40;

/// Each program may run the next one only; the last may read the target.
fn chain() -> Case {
    let mut list = vec![form(), role(b'-', 0), path(b"/")];
    list.extend((1..=PROGRAMS).map(|n| path(format!("/bin/program{n}/").as_bytes())));
    for n in 0..=PROGRAMS {
        list.push(entry(0, n, 0, 1, 1));
        match n < PROGRAMS {
            true => list.extend([object(0, 0), object(n + 1, 4)]),
            false => list.push(object(0, 1)),
        }
    }
    Case {
        name: "a chain of 40 programs",
        text: text(&ended(list)),
        question: Question {
            uid: 1000,
            gid: 100,
            start: b"/",
            target: b"/etc/",
            kind: 0,
        },
        head: "800100280028\n",
    }
}

/// 8 roles with 8 subjects each, 8 objects an entry, paths that share prefixes, listed ids under modes 1 and 2.
/// 168 of 288 states are reached; nothing may be written.
fn full_tables() -> Case {
    let mut list = vec![form(), role(b'-', 0)];
    list.extend((1..=3).map(|id| role(b'u', id)));
    list.extend((1..=2).map(|id| role(b'g', id)));
    list.extend([role(b's', 0), role(b's', 0), path(b"/")]);
    for n in 1..96u32 {
        // Seven folders, and files in them.
        let name = match n {
            1..=7 => format!("/srv{n}/"),
            _ => format!("/srv{}/bin/tool{n}/", n % 7 + 1),
        };
        list.push(path(name.as_bytes()));
    }
    list.extend((0..8).flat_map(|r| [takes(r, 6), takes(r, 7)]));
    for r in 0..8u8 {
        for subject in 0..8u8 {
            let n = 8 * r + subject;
            list.push(entry(r, subject, n % 4, 1 + n % 2, 2 - n % 2));
            list.push(object(0, 1));
            list.push(object(1 + n % 7, 5));
            list.extend((0..6).map(|k| object(8 + (n * 5 + k * 13) % 88, 4 + k % 2)));
            list.extend([uid(1 + (n % 3) as u32), uid(70 + n as u32)]);
            list.extend([gid(1 + (n % 2) as u32), gid(90 + n as u32)]);
        }
    }
    Case {
        name: "64 entries, 96 paths, 512 objects",
        text: text(&ended(list)),
        question: Question {
            uid: 1,
            gid: 100,
            start: b"/srv3/bin/tool9/",
            target: b"/srv4/bin/",
            kind: 1,
        },
        head: "800000a80000\n",
    }
}

/// Every entry may set every id, run every file and take every special role.
fn all_states() -> Case {
    Case {
        name: "8,192 states, all reached",
        text: text(&open_states()),
        question: Question {
            uid: 0,
            gid: 0,
            start: b"/",
            target: b"/",
            kind: 1,
        },
        head: "800020000000\n",
    }
}

pub fn cases() -> [Case; 4] {
    [listing(), chain(), full_tables(), all_states()]
}
