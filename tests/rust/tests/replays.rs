//! Replays worked out by hand.

use second::ask::{Question, STORE_LEAST, TEXT_MOST};
use second::frames::{ended, entry, form, gid, object, path, role, text, uid};
use second::load_cases::LISTING;
use second::policy::Refusal;
use second::replay::{replay, step, Replayed, Step, LEAVE};

fn of_listing(kind: u8) -> Question<'static> {
    Question {
        uid: 1000,
        gid: 100,
        start: b"/",
        target: b"/etc/ntp/",
        kind,
    }
}

#[test]
fn replays_of_the_listing() {
    let replayed =
        |kind, steps: &[Step]| replay(LISTING.as_bytes(), STORE_LEAST, &of_listing(kind), steps);
    let take = step(0x81, 2, 0, 0, 0, 0);
    let run = step(0x84, 0, 1000, 100, 1, 1);
    use Replayed::{Holds, NoStep, NotGranted};
    assert_eq!(replayed(1, &[take, run]), Holds(1));
    assert_eq!(replayed(0, &[take]), Holds(255));
    assert_eq!(replayed(1, &[]), NotGranted);
    assert_eq!(replayed(1, &[take]), NotGranted);
    assert_eq!(replayed(1, &[run]), NoStep(0));
    assert_eq!(replayed(1, &[take, run, LEAVE]), NotGranted);
    assert_eq!(replayed(1, &[take, run, LEAVE, take]), Holds(1));
    // No special role is always a step, also from none.
    assert_eq!(replayed(1, &[LEAVE, LEAVE, take, run]), Holds(1));
    // The special role may not take itself, and the program that runs /bin/ may not run it again.
    assert_eq!(replayed(1, &[take, take, run]), NoStep(1));
    assert_eq!(replayed(1, &[take, run, run]), NoStep(2));
    for bad in [
        step(0, 0, 0, 0, 0, 0),
        step(0x80, 2, 0, 0, 0, 0),
        step(0x85, 2, 0, 0, 0, 0),
        step(0x81, 0, 0, 0, 0, 0),
        step(0x81, 1, 0, 0, 0, 0),
        step(0x81, 3, 0, 0, 0, 0),
        step(0x81, 34, 0, 0, 0, 0),
        step(0x81, 254, 0, 0, 0, 0),
        step(0x81, 2, 1000, 0, 0, 0),
        step(0x81, 2, 0, 100, 0, 0),
        step(0x81, 2, 0, 0, 1, 0),
        step(0x81, 2, 0, 0, 0, 1),
        step(0x82, 0, 1000, 0, 0, 0),
        step(0x83, 0, 0, 100, 0, 0),
    ] {
        assert_eq!(replayed(1, &[bad, take, run]), NoStep(0), "{bad:?}");
        assert_eq!(replayed(1, &[LEAVE, bad]), NoStep(1), "{bad:?}");
    }
    for bad in [
        step(0x84, 2, 1000, 100, 1, 1),
        step(0x84, 255, 1000, 100, 1, 1),
        step(0x84, 0, 1001, 100, 1, 1),
        step(0x84, 0, 1000, 101, 1, 1),
        step(0x84, 0, u32::MAX, 100, 1, 1),
        step(0x84, 0, 1000, 100, 0, 1),
        step(0x84, 0, 1000, 100, 1, 0),
        step(0x84, 0, 1000, 100, 0, 0),
        step(0x84, 0, 1000, 100, 2, 2),
        step(0x84, 0, 1000, 100, 3, 3),
        step(0x84, 0, 1000, 100, 1, 3),
        step(0x84, 0, 1000, 100, 255, 255),
    ] {
        assert_eq!(replayed(1, &[take, bad]), NoStep(1), "{bad:?}");
    }
}

/// Setting an id needs the capability and an allowed id, also for the id one has; an exec may keep it.
#[test]
fn replays_of_ids() {
    let mut list = vec![form(), role(b'-', 0), path(b"/"), path(b"/a/")];
    list.extend([
        entry(0, 0, 1, 1, 2),
        object(0, 1),
        object(1, 4),
        uid(1),
        gid(2),
    ]);
    list.extend([entry(0, 1, 2, 2, 1), object(0, 5), uid(1), gid(2)]);
    let text = text(&ended(list));
    let question = Question {
        uid: 7,
        gid: 2,
        start: b"/",
        target: b"/",
        kind: 0,
    };
    let replayed = |steps: &[Step]| replay(&text, STORE_LEAST, &question, steps);
    use Replayed::{Holds, NoStep};
    assert_eq!(replayed(&[step(0x82, 0, 1, 0, 0, 0)]), Holds(255));
    assert_eq!(replayed(&[step(0x82, 0, 1, 0, 0, 0); 2]), Holds(255));
    assert_eq!(replayed(&[step(0x82, 0, 7, 0, 0, 0)]), NoStep(0));
    assert_eq!(replayed(&[step(0x82, 0, u32::MAX, 0, 0, 0)]), NoStep(0));
    assert_eq!(replayed(&[step(0x83, 0, 0, 1, 0, 0)]), NoStep(0));
    assert_eq!(replayed(&[step(0x84, 0, 7, 2, 1, 1)]), Holds(1));
    assert_eq!(replayed(&[step(0x84, 0, 1, 3, 1, 1)]), Holds(1));
    assert_eq!(replayed(&[step(0x84, 0, 1, u32::MAX, 1, 1)]), NoStep(0));
    assert_eq!(replayed(&[step(0x84, 0, 8, 2, 1, 1)]), NoStep(0));
    // Kept is what one has at that step, not at the start.
    let to_1 = step(0x82, 0, 1, 0, 0, 0);
    assert_eq!(replayed(&[to_1, step(0x84, 0, 7, 2, 1, 1)]), NoStep(1));
    // At `/a/` the GID may become 2 alone, the UID, without the capability, at an exec any but 1.
    let at_a = step(0x84, 0, 1, 3, 1, 1);
    assert_eq!(replayed(&[at_a, step(0x83, 0, 0, 2, 0, 0)]), Holds(1));
    assert_eq!(replayed(&[at_a, step(0x83, 0, 0, 3, 0, 0)]), NoStep(1));
    assert_eq!(replayed(&[at_a, step(0x82, 0, 9, 0, 0, 0)]), NoStep(1));
    assert_eq!(replayed(&[at_a, step(0x84, 0, 9, 3, 0, 1)]), Holds(1));
    assert_eq!(replayed(&[at_a, step(0x84, 0, 1, 3, 0, 0)]), Holds(0));
    assert_eq!(
        replayed(&[at_a, step(0x84, 0, 9, 3, 0, 0), step(0x84, 0, 1, 3, 1, 1)]),
        Holds(1)
    );
}

#[test]
fn refusals_of_a_replay() {
    let refused = |number, line| Replayed::Refused(Refusal { number, line });
    let question = of_listing(1);
    let long = vec![b'0'; TEXT_MOST + 1];
    let nobody = Question {
        gid: u32::MAX,
        kind: 2,
        ..question
    };
    let nowhere = Question {
        target: b"/etc",
        ..nobody
    };
    let any = [step(0, 0, 0, 0, 0, 0)];
    assert_eq!(replay(&long, 0, &nowhere, &any), refused(1, 0));
    assert_eq!(replay(b"", STORE_LEAST - 1, &nowhere, &any), refused(2, 0));
    assert_eq!(replay(b"", STORE_LEAST, &nowhere, &any), refused(4, 0));
    assert_eq!(replay(b"", STORE_LEAST, &nobody, &any), refused(5, 0));
    assert_eq!(
        replay(b"", STORE_LEAST, &of_listing(2), &any),
        refused(6, 0)
    );
    assert_eq!(replay(b"", STORE_LEAST, &question, &any), refused(14, 0));
    assert_eq!(
        replay(b"0101\n0101\n", STORE_LEAST, &question, &any),
        refused(9, 2)
    );
}
