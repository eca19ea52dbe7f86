//! Inputs of the program, for both implementations to be run on: the listing, limits, bad question lines, and
//! random asks.

use crate::clock::clock;
use crate::frames::{ended, text};
use crate::generator::{case, damage, Size};
use crate::large::{many_states, open_states};
use crate::lines::write_line;
use crate::load_cases::{cases, LISTING};
use crate::random::Random;

/// The question of the listing.
pub const QUESTION: [&str; 3] = ["6001000003e800000064\n", "612f\n", "622f6574632f6e74702f\n"];

const SEED: u64 = 18;
const RANDOM_ASKS: usize = 300;
/// A random policy that is longer is passed over; a few may be larger.
const TEXT_MOST: usize = 400;
const LARGER_MOST: usize = 1_600;

/// The three lines of a question.
pub fn question(kind: u8, uid: u32, gid: u32, start: &[u8], target: &[u8]) -> Vec<u8> {
    let mut lines = Vec::new();
    write_line(
        &mut lines,
        &[&[0x60, kind], &uid.to_be_bytes(), &gid.to_be_bytes()],
    );
    write_line(&mut lines, &[&[0x61], start]);
    write_line(&mut lines, &[&[0x62], target]);
    lines
}

/// Question lines, each as given, and the listing's policy.
fn listing(lines: [&str; 3]) -> Vec<u8> {
    [&lines.concat(), LISTING].concat().into_bytes()
}

/// The listing, and variants of its question that are good lines.
fn listings(all: &mut Vec<Vec<u8>>) {
    let [asked, start, target] = QUESTION;
    all.push(listing(QUESTION));
    for other in [
        "6000000003e800000064\n", // to read
        "6001000003e900000064\n", // UID 1001
        "6001000003e8ffffffff\n", // 5
        "6001ffffffff00000064\n", // 5
        "6002000003e800000064\n", // 6
        "6002ffffffff00000064\n", // 5 before 6
    ] {
        all.push(listing([other, start, target]));
    }
    let long = format!("61{}\n", "2f".repeat(79));
    let most = format!("612f{}2f\n", "61".repeat(62));
    let over = format!("612f{}2f\n", "61".repeat(63));
    for other in ["612f61\n", "6100\n", &long, &most, &over] {
        all.push(listing([asked, other, target]));
    }
    all.push(listing([asked, start, "622f2f\n"]));
    all.push(QUESTION.concat().into_bytes()); // 14
}

/// Limits: states, paths, and an answer that is too long for the room.
fn limits(all: &mut Vec<Vec<u8>>) {
    let named = |name: &str| {
        let case = cases().into_iter().find(|c| c.name == name);
        case.expect("the case is there").text
    };
    let root = question(0, 1000, 100, b"/", b"/");
    for policy in [
        text(&ended(many_states(8))),
        text(&ended(many_states(9))),
        text(&open_states()),
        named("96 paths"),
        named("97 paths"),
    ] {
        all.push([root.clone(), policy].concat());
    }
    for at in [1, 7] {
        let lines = question(0, 1, 0, b"/a/", b"/etc/");
        all.push([lines, text(&clock(at))].concat());
    }
}

/// Each question line missing or of wrong form, type or length.
fn bad_questions(all: &mut Vec<Vec<u8>>) {
    for n in 0..3 {
        let kept = QUESTION[..n].concat();
        let good = QUESTION[n].trim_end();
        let long = format!("{}{}\n", &good[..2], "2f".repeat(80));
        all.push(kept.clone().into_bytes());
        all.push([&kept, LISTING].concat().into_bytes());
        all.push([&kept, good].concat().into_bytes());
        for bad in [
            "\n",
            &format!("{}\n", &good[1..]),
            &format!("{good} \n"),
            &format!("{}\n", good.replace('6', "A")),
            &format!("{}\n", &good[..2]),
            "632f\n",
            &long,
        ] {
            let rest = QUESTION[n + 1..].concat();
            let input = [&kept, bad, &rest, LISTING].concat();
            all.push(input.into_bytes());
        }
    }
    let long = "6001000003e80000006400\n";
    all.push(listing([long, QUESTION[1], QUESTION[2]]));
}

/// Random policies with a question each; one in six is damaged.
fn random_asks(all: &mut Vec<Vec<u8>>) {
    let mut random = Random::new(SEED);
    let mut made = 0;
    while made < RANDOM_ASKS {
        let (size, most) = match made % 20 {
            0 => (Size::Usual, LARGER_MOST),
            _ => (Size::Small, TEXT_MOST),
        };
        let asked = case(&mut random, size);
        let policy = match made % 6 {
            5 => damage(&mut random, &asked.frames),
            _ => asked.text(),
        };
        if policy.len() <= most {
            let kind = asked.kind;
            let lines = question(kind, asked.uid, asked.gid, &asked.start, &asked.target);
            all.push([lines, policy].concat());
            made += 1;
        }
    }
}

pub fn samples() -> Vec<Vec<u8>> {
    let mut all = Vec::new();
    listings(&mut all);
    limits(&mut all);
    bad_questions(&mut all);
    random_asks(&mut all);
    all
}
