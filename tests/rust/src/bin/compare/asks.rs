//! Asks: random policies and questions, some damaged, in areas of many lengths.

use crate::tally::Tally;
use crate::Difference;
use second::against::{ask_weighed, Lengths, WORK_BYTES};
use second::ask::{weigh, Found, Outcome, Question, STORE_LEAST, TEXT_MOST};
use second::finite::fewest_steps;
use second::generator::{case, damage, Case, Size};
use second::library::Library;
use second::policy::{Policy, NOBODY};
use second::random::Random;

/// A text, a question and the areas' lengths.
pub struct Asked {
    pub case: Case,
    pub text: Vec<u8>,
    pub lengths: Lengths,
}

fn size(random: &mut Random) -> Size {
    match random.below(40) {
        0..=13 => Size::Small,
        14..=35 => Size::Usual,
        36 => Size::ManyRoles,
        _ => Size::ManyPaths,
    }
}

/// Puts one of the faults 1 to 6 into an ask.
fn spoil(random: &mut Random, asked: &mut Asked) {
    let bad: [&[u8]; 6] = [b"", b"/a", b"a/", b"/a//b/", b"/\0/", &[b'/'; 70]];
    let long = [b"/", &[b'a'; 63][..], b"/"].concat();
    match random.below(8) {
        0 => asked.text.resize(TEXT_MOST + 1 + random.below(99), b'\n'),
        1 => asked.lengths.store = random.below(STORE_LEAST),
        2 => asked.lengths.work = random.below(WORK_BYTES),
        3 => asked.case.start = random.pick(&bad).to_vec(),
        4 => asked.case.target = long,
        5 => asked.case.uid = NOBODY,
        6 => asked.case.gid = NOBODY,
        _ => asked.case.kind = 2 + random.below(254) as u8,
    }
}

/// An ask without its room: of a hundred texts `damaged` are damaged, and of a hundred asks `spoilt` get a fault
/// of 1 to 6.
pub fn drawn(random: &mut Random, size: Size, damaged: usize, spoilt: usize) -> Asked {
    let case = case(random, size);
    let text = match random.chance(damaged) {
        true => damage(random, &case.frames),
        false => case.text(),
    };
    let more = [0, 0, 0, 1, 2, 77, 1000];
    let lengths = Lengths {
        store: STORE_LEAST + random.pick(&more),
        work: WORK_BYTES + random.pick(&more),
        room: 0,
    };
    let mut asked = Asked {
        case,
        text,
        lengths,
    };
    // A second draw: a few get a fault by it alone, or two at once.
    for of in [spoilt, spoilt / 3] {
        if random.chance(of) {
            spoil(random, &mut asked);
        }
    }
    asked
}

/// A room's length for an answer: mostly enough, sometimes by a byte, or not.
fn room(random: &mut Random, needed: usize) -> usize {
    match random.below(16) {
        0 => needed - 1,
        1 => random.below(needed),
        2..=4 => needed,
        5 => needed + 1,
        _ => needed + random.below(500),
    }
}

/// What is read out of the library's answer must be what the second program found.
fn read_back(outcome: &Outcome, found: &Found) -> Result<(), String> {
    let read = Found::read(&outcome.answer);
    match read.as_ref() == Some(found) {
        true => Ok(()),
        false => Err(format!("the answer reads {read:?}")),
    }
}

/// Verdict and count of steps must be those of a search of real steps.
fn confirm(found: &Found, policy: &Policy, question: &Question) -> Result<(), String> {
    let fewest = fewest_steps(policy, question);
    match found.reached.then_some(found.steps.len()) == fewest {
        true => Ok(()),
        false => Err(format!("real steps say {fewest:?}")),
    }
}

fn one(
    library: &mut dyn Library,
    random: &mut Random,
    size: Size,
    asked: &mut Asked,
    tally: &mut Tally,
) -> Result<(), String> {
    let (text, question) = (&asked.text, asked.case.question());
    let weighed = weigh(text, asked.lengths.store, asked.lengths.work / 2, &question);
    asked.lengths.room = match &weighed {
        Ok(accepted) => room(random, accepted.found.bytes()),
        Err(_) => random.below(100),
    };
    let outcome = ask_weighed(library, text, &question, &asked.lengths, &weighed)?;
    tally.numbers[outcome.number as usize] += 1;
    if let (0, Ok(accepted)) = (outcome.number, &weighed) {
        read_back(&outcome, &accepted.found)?;
        match accepted.found.reached {
            true => tally.reached(accepted.found.steps.len()),
            false => tally.never += 1,
        }
        if size == Size::Small {
            confirm(&accepted.found, &accepted.policy, &question)?;
            tally.confirmed += 1;
        }
    }
    Ok(())
}

/// The lane's asks; each has random numbers of its own, so that one can be done again alone.
pub fn compare(
    library: &mut dyn Library,
    seed: u64,
    lane: u64,
    count: u64,
    tally: &mut Tally,
) -> Result<(), Difference> {
    for n in 0..count {
        let index = n * crate::LANES + lane;
        let random = &mut Random::of(seed, index);
        let size = size(random);
        let mut asked = drawn(random, size, 20, 6);
        if let Err(fault) = one(library, random, size, &mut asked, tally) {
            let name = format!("seed {seed}, ask {index}: {fault}");
            let told = told(&name, &asked.text, &asked.case.question());
            return Err(Difference(format!("{told}{:?}\n", asked.lengths)));
        }
    }
    Ok(())
}

/// A case as the program `pathcheck` reads it: the question's lines, then the policy text.
pub fn told(name: &str, text: &[u8], question: &Question) -> String {
    let hex = |bytes: &[u8]| bytes.iter().map(|b| format!("{b:02x}")).collect::<String>();
    // Bytes that no good text has are shown escaped.
    let lines = text.escape_ascii().to_string().replace("\\n", "\n");
    format!(
        "{name}\n60{:02x}{:08x}{:08x}\n61{}\n62{}\n{lines}\n",
        question.kind,
        question.uid,
        question.gid,
        hex(question.start),
        hex(question.target)
    )
}
