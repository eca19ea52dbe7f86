//! The replay.

use crate::calls::{ask_alone, replay, replay_alone};
use crate::runs::{all_kinds, ASKED, RUN};
use crate::samples::{cases_of_texts, with_faults, Sample, QUESTION};
use second::against::WORK_BYTES;
use second::ask::{weigh, Found, Question, STORE_LEAST, WORK_LEAST};
use second::clock::clock;
use second::frames::{ended, entry, form, object, path, role, text};
use second::generator::{case, Size};
use second::lent::Area;
use second::load_cases::LISTING;
use second::policy::Refusal;
use second::random::Random;
use second::replay::{step, Replayed, Step, LEAVE, NONE};

/// Replays in a store of the least length, against the second program.
fn replayed(text: &[u8], question: &Question, steps: &[Step]) -> Replayed {
    let checked = replay(text, question, STORE_LEAST, steps);
    checked.unwrap_or_else(|fault| panic!("{fault}: {steps:?}"))
}

#[test]
fn the_listing_replayed() {
    let listing = LISTING.as_bytes();
    let take = step(0x81, 2, 0, 0, 0, 0);
    let run = step(0x84, 0, 1000, 100, 1, 1);
    let said = |steps: &[Step]| replayed(listing, &QUESTION, steps);
    assert_eq!(said(&[take, run]), Replayed::Holds(1));
    assert_eq!(said(&[]), Replayed::NotGranted);
    assert_eq!(said(&[take]), Replayed::NotGranted);
    assert_eq!(said(&[run]), Replayed::NoStep(0));
    assert_eq!(said(&[take, run, run]), Replayed::NoStep(2));
    assert_eq!(said(&[take, run, LEAVE]), Replayed::NotGranted);
    assert_eq!(said(&[take, run, LEAVE, take]), Replayed::Holds(1));
    let read = Question {
        kind: 0,
        ..QUESTION
    };
    assert_eq!(replayed(listing, &read, &[take]), Replayed::Holds(NONE));
}

/// The values that a number of four bytes is changed to: each bit turned, and a few.
fn numbers(own: u32) -> impl Iterator<Item = u32> {
    let turned = (0..32).map(move |bit| own ^ 1 << bit);
    turned.chain([0, 4, 5, 6, 7, 9, u32::MAX - 1, u32::MAX])
}

/// A record with one field changed, for every field and many values.
fn changed(own: Step) -> Vec<Step> {
    let mut list = vec![own];
    for byte in 0..=255 {
        list.push(Step { kind: byte, ..own });
        list.push(Step { role: byte, ..own });
        let object = byte;
        list.push(Step { object, ..own });
        list.push(Step { file: byte, ..own });
        list.push(Step {
            object,
            file: byte,
            ..own
        });
    }
    list.extend(numbers(own.uid).map(|uid| Step { uid, ..own }));
    list.extend(numbers(own.gid).map(|gid| Step { gid, ..own }));
    list
}

#[test]
fn every_field_of_every_record() {
    let text = all_kinds();
    let holds = replayed(&text, &ASKED, &RUN);
    assert_eq!(holds, Replayed::Holds(2));
    let mut seen = [0; 3];
    for n in 0..RUN.len() {
        for record in changed(RUN[n]) {
            let mut steps = RUN;
            steps[n] = record;
            match replayed(&text, &ASKED, &steps) {
                Replayed::Holds(_) => seen[0] += 1,
                Replayed::NoStep(_) => seen[1] += 1,
                Replayed::NotGranted => seen[2] += 1,
                Replayed::Refused(refusal) => panic!("{refusal:?}"),
            }
        }
    }
    assert!(seen.iter().all(|n| *n > 0), "{seen:?}");
}

/// The run with another record is no run at that record.
fn no_step(n: usize, record: Step) {
    let mut steps = RUN;
    steps[n] = record;
    let said = replayed(&all_kinds(), &ASKED, &steps);
    assert_eq!(said, Replayed::NoStep(n), "{record:?}");
}

/// A kind that is no step line's type, and each field that a kind does not use.
#[test]
fn kinds_and_unused_fields() {
    for (n, own) in RUN.into_iter().enumerate() {
        for byte in 1..=255 {
            let (kind, role, object, file) = (byte, byte, byte, byte);
            if !(0x81..=0x84).contains(&kind) {
                no_step(n, Step { kind, ..own });
            }
            if own.kind != 0x81 {
                no_step(n, Step { role, ..own });
            }
            if own.kind != 0x84 {
                no_step(n, Step { object, ..own });
                no_step(n, Step { file, ..own });
            }
        }
        no_step(n, Step { kind: 0, ..own });
        for id in [1, 2, 5, 6, 9, u32::MAX] {
            if matches!(own.kind, 0x81 | 0x83) {
                no_step(n, Step { uid: id, ..own });
            }
            if matches!(own.kind, 0x81 | 0x82) {
                no_step(n, Step { gid: id, ..own });
            }
        }
    }
}

/// A role that is not special; an id that is not allowed, or names nobody; a capability that is missing.
#[test]
fn roles_and_ids() {
    for role in (0..3).chain(4..255) {
        no_step(0, step(0x81, role, 0, 0, 0, 0));
    }
    for uid in [0, 1, 4, 6, 10, u32::MAX - 1, u32::MAX] {
        no_step(1, step(0x82, 0, uid, 0, 0, 0));
        no_step(4, step(0x84, 0, uid, 6, 1, 2));
    }
    for gid in [7, u32::MAX] {
        no_step(2, step(0x83, 0, 0, gid, 0, 0));
        no_step(4, step(0x84, 0, 9, gid, 1, 2));
    }
    for uid in [4, u32::MAX] {
        no_step(5, step(0x82, 0, uid, 0, 0, 0));
    }
    no_step(5, step(0x83, 0, 0, 6, 0, 0));
}

/// An object that is not the file's, has no x, or is hidden; a file past the last path.
#[test]
fn objects_and_files() {
    for object in (0..1).chain(2..=255) {
        no_step(4, step(0x84, 0, 9, 6, object, 2));
    }
    no_step(4, step(0x84, 0, 9, 6, 0, 0));
    no_step(5, step(0x84, 0, 9, 6, 2, 2));
    for file in 3..=255 {
        for object in [0, 1, file] {
            no_step(4, step(0x84, 0, 9, 6, object, file));
        }
    }
}

/// 4294967295 is no id under any mode, also where all are allowed; the one before it is, under 0 and 2.
#[test]
fn nobody_under_every_mode() {
    let question = Question {
        uid: 1,
        gid: 1,
        start: b"/",
        target: b"/",
        kind: 0,
    };
    for mode in 0..=2 {
        let list = vec![form(), role(b'-', 0), path(b"/")];
        let own = vec![entry(0, 0, 3, mode, mode), object(0, 5)];
        let text = text(&ended([list, own].concat()));
        for (id, allowed) in [(u32::MAX, false), (u32::MAX - 1, mode != 1)] {
            for (record, file) in [
                (step(0x82, 0, id, 0, 0, 0), NONE),
                (step(0x83, 0, 0, id, 0, 0), NONE),
                (step(0x84, 0, id, 1, 0, 0), 0),
                (step(0x84, 0, 1, id, 0, 0), 0),
                (step(0x84, 0, id, id, 0, 0), 0),
            ] {
                let expected = match allowed {
                    true => Replayed::Holds(file),
                    false => Replayed::NoStep(0),
                };
                assert_eq!(replayed(&text, &question, &[record]), expected);
            }
        }
    }
}

/// Rows of none, one and many records.
#[test]
fn rows_of_any_length() {
    let text = all_kinds();
    let read = Question { kind: 0, ..ASKED };
    assert_eq!(replayed(&text, &ASKED, &[]), Replayed::NotGranted);
    assert_eq!(replayed(&text, &read, &[]), Replayed::Holds(NONE));
    assert_eq!(replayed(&text, &read, &[LEAVE]), Replayed::Holds(NONE));
    for n in 0..=RUN.len() {
        replayed(&text, &ASKED, &RUN[..n]);
        replayed(&text, &read, &RUN[n..]);
    }
    let mut many = vec![LEAVE; 100_000];
    assert_eq!(replayed(&text, &read, &many), Replayed::Holds(NONE));
    assert_eq!(replayed(&text, &ASKED, &many), Replayed::NotGranted);
    many.extend(RUN);
    assert_eq!(replayed(&text, &ASKED, &many), Replayed::Holds(2));
    many.push(Step::default());
    assert_eq!(replayed(&text, &ASKED, &many), Replayed::NoStep(100_008));
    // Only the first that is no step is named.
    many[99_999] = Step::default();
    assert_eq!(replayed(&text, &ASKED, &many), Replayed::NoStep(99_999));
}

/// The answer is read out of a longer room; its steps hold, and the file is that of the last exec.
fn own_steps_hold(text: &[u8], question: &Question) -> usize {
    let Ok(accepted) = weigh(text, STORE_LEAST, WORK_LEAST, question) else {
        return 0;
    };
    let lengths = [STORE_LEAST, WORK_BYTES, accepted.found.bytes() + 50];
    let mut areas = lengths.map(Area::new);
    let answer = ask_alone(text, &mut areas, question);
    assert_eq!(answer.number, 0);
    assert_eq!(Found::read(areas[2].lent()).as_ref(), Some(&accepted.found));
    let steps = accepted.found.steps;
    if accepted.found.reached {
        let last = steps.iter().rfind(|s| s.kind == 0x84);
        let last = last.map_or(NONE, |s| s.file);
        assert_eq!(replayed(text, question, &steps), Replayed::Holds(last));
    }
    steps.len()
}

#[test]
fn own_steps() {
    own_steps_hold(LISTING.as_bytes(), &QUESTION);
    own_steps_hold(&all_kinds(), &ASKED);
    let at_a = Question {
        uid: 1,
        gid: 0,
        start: b"/a/",
        target: b"/etc/",
        kind: 0,
    };
    assert_eq!(own_steps_hold(&text(&clock(7)), &at_a), 2_407);
    let mut random = Random::new(12);
    for n in 0..400 {
        let size = if n % 2 == 0 { Size::Small } else { Size::Usual };
        let case = case(&mut random, size);
        own_steps_hold(&case.text(), &case.question());
    }
}

/// Rows of none, one and many records, steps or not.
fn rows() -> [Vec<Step>; 5] {
    [
        vec![],
        vec![LEAVE],
        vec![Step::default()],
        RUN.to_vec(),
        vec![Step::default(); 300],
    ]
}

/// Refusals 1, 2 and 4 to 6 in this order, before any record is looked at; a work area is not lent, so 3 is never
/// given.
#[test]
fn the_lowest_of_1_to_6_without_3() {
    for twin in [false, true] {
        for faults in 1..64usize {
            let Sample {
                text,
                question,
                lengths,
                ..
            } = with_faults(faults, twin, b"7f0000\n");
            let number = match faults & !0b100 {
                0 => 9,
                others => others.trailing_zeros() as u8 + 1,
            };
            let line = (number == 9).into();
            let expected = Ok(Replayed::Refused(Refusal { number, line }));
            for steps in &rows() {
                assert_eq!(replay(&text, &question, lengths.store, steps), expected);
            }
        }
    }
}

/// Refusals 7 to 16, and the store as an ask leaves it.
#[test]
fn the_store_as_by_an_ask() {
    let mut seen = [false; 17];
    for (text, number, line) in cases_of_texts() {
        seen[number as usize] = true;
        let refused = Replayed::Refused(Refusal { number, line });
        for steps in &rows() {
            let said = replayed(&text, &QUESTION, steps);
            assert_eq!(said == refused, number != 0);
        }
        let mut areas = [STORE_LEAST + 9, WORK_BYTES, 0].map(Area::new);
        ask_alone(&text, &mut areas, &QUESTION);
        let mut store = Area::new(STORE_LEAST + 9);
        replay_alone(&text, &mut store, &QUESTION, &RUN);
        assert_eq!(areas[0].whole(), store.whole());
    }
    assert!((7..=16).all(|n| seen[n]) && seen[0]);
    // A store that is longer keeps the rest.
    for more in [1, 2, 1000] {
        let steps = &[LEAVE];
        let kept = replay(LISTING.as_bytes(), &QUESTION, STORE_LEAST + more, steps);
        assert_eq!(kept, Ok(Replayed::NotGranted));
        let refused = replay(b"", &QUESTION, STORE_LEAST + more, steps);
        let expected = Refusal {
            number: 14,
            line: 0,
        };
        assert_eq!(refused, Ok(Replayed::Refused(expected)));
    }
}
