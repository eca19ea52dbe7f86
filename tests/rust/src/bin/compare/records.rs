//! Rows of step records: an ask's own steps, damaged ones, and walks through the policy.

use crate::asks::{drawn, told};
use crate::tally::Tally;
use crate::Difference;
use second::against::replay;
use second::ask::Question;
use second::generator::{damage_steps, row, Size};
use second::library::Library;
use second::policy::{load, Policy};
use second::random::Random;
use second::replay::{Replayed, Step};
use second::search::search;

/// The longest walk.
const WALK_MOST: usize = 160;
/// Of a thousand records in a walk so many are taken as drawn, step or not.
const BAD: usize = 12;

fn size(random: &mut Random) -> Size {
    match random.below(20) {
        0..=7 => Size::Small,
        8..=17 => Size::Usual,
        18 => Size::ManyRoles,
        _ => Size::ManyPaths,
    }
}

/// A row for a policy: the ask's own steps, with or without damage, or a walk.
fn records(random: &mut Random, policy: &Policy, question: &Question) -> Vec<Step> {
    let mut steps = match random.below(4) {
        0 => search(policy, question).steps,
        _ => {
            let len = random.below(WALK_MOST);
            row(random, policy, question, len, BAD)
        }
    };
    if random.chance(25) {
        steps = damage_steps(random, &steps);
    }
    steps
}

/// Counts a row; the records of it that were looked at.
fn count(tally: &mut Tally, replayed: Replayed, records: usize) -> u64 {
    tally.rows += 1;
    let (place, looked_at) = match replayed {
        Replayed::Holds(_) => (&mut tally.holds, records),
        Replayed::NoStep(first) => (&mut tally.no_step, first + 1),
        Replayed::NotGranted => (&mut tally.not_granted, records),
        Replayed::Refused(_) => (&mut tally.refused, 0),
    };
    *place += 1;
    tally.records += looked_at as u64;
    looked_at as u64
}

/// The records, one a line.
fn lines(steps: &[Step]) -> String {
    let mut lines = String::from("kind, role, UID, GID, object, file:\n");
    for s in steps {
        lines += &format!(
            "{:02x} {} {} {} {} {}\n",
            s.kind, s.role, s.uid, s.gid, s.object, s.file
        );
    }
    lines
}

/// The lane's rows, until so many records were looked at.
pub fn compare(
    library: &mut dyn Library,
    seed: u64,
    lane: u64,
    records: u64,
    tally: &mut Tally,
) -> Result<(), Difference> {
    let (mut left, mut n) = (records, 0);
    while left > 0 {
        let index = n * crate::LANES + lane;
        // Rows have other numbers than asks.
        let random = &mut Random::of(!seed, index);
        let size = size(random);
        let asked = drawn(random, size, 4, 2);
        let (text, question) = (&asked.text, asked.case.question());
        let steps = match load(text) {
            Ok(policy) if question.fault().is_none() => self::records(random, &policy, &question),
            _ => vec![Step::default()],
        };
        match replay(library, text, &question, asked.lengths.store, &steps) {
            Ok(replayed) => left = left.saturating_sub(count(tally, replayed, steps.len())),
            Err(fault) => {
                let name = format!("seed {seed}, row {index}: {fault}");
                let told = told(&name, text, &question);
                return Err(Difference(told + &lines(&steps)));
            }
        }
        n += 1;
    }
    Ok(())
}
