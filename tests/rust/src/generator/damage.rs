//! Damage to texts and to rows of step records.

use crate::frames::{self, Frame};
use crate::policy::{END, NOBODY};
use crate::random::Random;
use crate::replay::{Step, LEAVE};

/// Damage to a policy: frames dropped, doubled, swapped, moved, one more of a kind, bytes and lengths changed, a
/// wrong count, and damage to the text itself. In half of the cases the count is right again, so that other
/// faults show.
pub fn damage(random: &mut Random, list: &[Frame]) -> Vec<u8> {
    let mut list = list.to_vec();
    let (at, other) = (random.below(list.len()), random.below(list.len()));
    match random.below(11) {
        0 => drop(list.remove(at)),
        1 => list.insert(at, list[at].clone()),
        2 => list.swap(at, other),
        3 => {
            let moved = list.remove(at);
            list.insert(other, moved);
        }
        4 | 5 => {
            let byte = random.below(list[at].len());
            list[at][byte] = match random.chance(60) {
                true => list[at][byte] ^ 1 << random.below(8),
                false => random.number() as u8,
            };
        }
        6 if random.chance(50) => list[at].truncate(1 + random.below(5)),
        6 => list[at].push(random.number() as u8),
        7 => {
            let mut more = list[at].clone();
            let byte = random.below(more.len() - 1) + 1;
            more[byte] = more[byte].wrapping_add(1 + random.below(30) as u8);
            list.insert(at + 1, more);
        }
        8 => list.truncate(at),
        9 => *list.last_mut().expect("frames are there") = frames::end(random.below(100)),
        _ => return damage_text(random, frames::text(&list)),
    }
    if random.chance(50) && list.last().is_some_and(|f| f[0] == END) {
        list.pop();
        list = frames::ended(list);
    }
    frames::text(&list)
}

fn damage_text(random: &mut Random, mut text: Vec<u8>) -> Vec<u8> {
    let at = random.below(text.len());
    match random.below(6) {
        0 => text[at] = random.number() as u8,
        1 => text[at] = text[at].to_ascii_uppercase(),
        2 => text.insert(at, random.pick(b"\n\r 0f")),
        3 => drop(text.remove(at)),
        4 => text.truncate(at),
        _ => drop(text.pop()),
    }
    text
}

/// Damage to step records: dropped, doubled, swapped, one field changed.
pub fn damage_steps(random: &mut Random, steps: &[Step]) -> Vec<Step> {
    let mut steps = steps.to_vec();
    if steps.is_empty() {
        steps.push(Step::default());
    }
    let (at, other) = (random.below(steps.len()), random.below(steps.len()));
    match random.below(10) {
        0 => drop(steps.remove(at)),
        1 => steps.insert(at, steps[at]),
        2 => steps.swap(at, other),
        3 => steps[at].kind = random.pick(&[0x80, 0x81, 0x82, 0x83, 0x84, 0x85, 0, 0x8f]),
        4 => steps[at].role = random.pick(&[0, 1, 2, 3, 4, 31, 32, 254, 255]),
        5 => steps[at].uid = random.pick(&[0, 1, 4, 7, 1000, NOBODY - 1, NOBODY]),
        6 => steps[at].gid = random.pick(&[0, 1, 4, 7, 1000, NOBODY - 1, NOBODY]),
        7 => steps[at].object = random.pick(&[0, 1, 2, 3, 96, 255]),
        8 => steps[at].file = random.pick(&[0, 1, 2, 3, 96, 255]),
        _ => steps.push(LEAVE),
    }
    steps
}
