//! What is lent: which bytes an ask changes, and that it changes no other.

use crate::calls::ask_alone;
use crate::samples::{samples, Sample, ANSWER};
use second::against::{Lengths, WORK_BYTES};
use second::ask::STORE_LEAST;
use second::layout::layout;
use second::lent::Area;
use second::library::Answer;
use second::load_cases::LISTING;
use second::policy::load;

/// A sample's ask over fresh areas: the answer, and store, work area and room after it.
fn asked(sample: &Sample) -> (Answer, [Area; 3]) {
    let Lengths { store, work, room } = sample.lengths;
    let mut areas = [Area::new(store), Area::new(work), Area::new(room)];
    let answer = ask_alone(&sample.text, &mut areas, &sample.question);
    (answer, areas)
}

/// Every number with the shortest areas and with longer ones: what lies beyond, before and behind is kept.
#[test]
fn every_number_with_longer_areas() {
    let mut seen = [false; 18];
    for mut sample in samples() {
        let short = sample.lengths;
        seen[sample.number as usize] = true;
        for more in [0, 1, 2, 3, 1000, 16_384, 49_152] {
            // A store or work area that is to be too short, or a room, stays as it is.
            if sample.number != 2 {
                sample.lengths.store = short.store + more;
            }
            if sample.number != 3 {
                sample.lengths.work = short.work + more;
            }
            if sample.number != 17 {
                sample.lengths.room = short.room + more;
            }
            sample.check();
        }
    }
    assert_eq!(seen, [true; 18]);
}

/// 1 to 6 change nothing; 7 to 16 zero the store's first 16,384 bytes and nothing else.
#[test]
fn refusals_and_the_areas() {
    for sample in samples().iter().filter(|s| (1..=16).contains(&s.number)) {
        let (answer, [store, work, room]) = asked(sample);
        assert_eq!(answer.number, sample.number.into());
        assert_eq!(answer.value, sample.value);
        let zeros = if sample.number <= 6 { 0 } else { STORE_LEAST };
        assert!(store.holds(&vec![0; zeros]), "number {}", sample.number);
        assert!(work.holds(&[]), "number {}", sample.number);
        assert!(room.holds(&[]), "number {}", sample.number);
    }
}

/// 17 keeps the room, and leaves the policy in the store and zeros in the work area; so does an answer, in front
/// of the room.
#[test]
fn the_listing_and_the_areas() {
    let policy = layout(&load(LISTING.as_bytes()).expect("the listing is accepted"));
    for room_len in [0, 1, 12, 40, 41, 42, 1000] {
        let mut sample = Sample::listing();
        sample.lengths.room = room_len;
        let (answer, [store, work, room]) = asked(&sample);
        let fits = room_len >= ANSWER.len();
        assert_eq!(answer.number, if fits { 0 } else { 17 });
        assert_eq!(answer.value, 41);
        assert!(store.holds(&policy));
        assert!(work.holds(&[0; WORK_BYTES]));
        let front = if fits { ANSWER } else { "" };
        assert!(room.holds(front.as_bytes()));
    }
}

/// A sample's ask in the first bytes of a store and a work area, which keep what it leaves there: the answer, and
/// the room.
fn asked_in(store: &mut [u8], work: &mut [u8], sample: &Sample) -> (Answer, Area) {
    let Lengths {
        store: s, work: w, ..
    } = sample.lengths;
    let room = Area::new(sample.lengths.room);
    let mut areas = [Area::with(&store[..s]), Area::with(&work[..w]), room];
    let answer = ask_alone(&sample.text, &mut areas, &sample.question);
    let [mut after_store, mut after_work, room] = areas;
    store[..s].copy_from_slice(after_store.lent());
    work[..w].copy_from_slice(after_work.lent());
    (answer, room)
}

/// One ask leaves nothing that the next one could find: the same store and work area serve all samples in turn,
/// and the listing after each.
#[test]
fn areas_used_again() {
    let mut store = vec![7; STORE_LEAST];
    let mut work = vec![7; WORK_BYTES];
    let listing = Sample::listing();
    for sample in samples() {
        let (number, value) = (sample.number.into(), sample.value);
        let (answer, _) = asked_in(&mut store, &mut work, &sample);
        assert_eq!(answer, Answer { number, value });
        let (answer, room) = asked_in(&mut store, &mut work, &listing);
        assert_eq!((answer.number, answer.value), (0, 41));
        assert!(room.holds(ANSWER.as_bytes()));
    }
}
