//! The library against the second program: numbers, values, answers and every lent byte.

use crate::ask::{answered, weigh, Accepted, Outcome, Question, EXECUTE, STORE_LEAST, WORK_LEAST};
use crate::layout::layout;
use crate::lent::Area;
use crate::library::{self, Library, Part, HOLDS, NOT_GRANTED, NO_STEP, OF_STORE};
use crate::policy::{load, Policy, Refusal};
use crate::replay::{self, Replayed, Step, NONE};

/// The bytes of a work area that an ask leaves zero.
pub const WORK_BYTES: usize = 2 * WORK_LEAST;

static ZEROS: [u8; WORK_BYTES] = [0; WORK_BYTES];

/// The lengths of the areas that an ask is lent, in bytes.
#[derive(Clone, Copy, Debug, PartialEq, Eq)]
pub struct Lengths {
    pub store: usize,
    pub work: usize,
    pub room: usize,
}

impl Lengths {
    /// The shortest store and work area that are not refused, and a room.
    pub fn least(room: usize) -> Lengths {
        Lengths {
            store: STORE_LEAST,
            work: WORK_BYTES,
            room,
        }
    }
}

/// Ok if a part is as it should be, else its name.
fn same(good: bool, part: &str) -> Result<(), String> {
    match good {
        true => Ok(()),
        false => Err(format!("the {part} is another")),
    }
}

/// What a call writes in front of a store: the policy; under refusals 1 to 6 nothing, under others zeros.
fn front(left: Result<&Policy, &Refusal>) -> Vec<u8> {
    match left {
        Ok(policy) => layout(policy),
        Err(refusal) if refusal.number <= 6 => Vec::new(),
        Err(_) => vec![0; STORE_LEAST],
    }
}

/// Asks both: the library's answer and all lent bytes must be the second program's.
pub fn ask(
    library: &mut dyn Library,
    text: &[u8],
    question: &Question,
    lengths: &Lengths,
) -> Result<Outcome, String> {
    let weighed = weigh(text, lengths.store, lengths.work / 2, question);
    ask_weighed(library, text, question, lengths, &weighed)
}

/// The same, where the second program has weighed the question with these lengths.
pub fn ask_weighed(
    library: &mut dyn Library,
    text: &[u8],
    question: &Question,
    lengths: &Lengths,
    weighed: &Result<Accepted, Refusal>,
) -> Result<Outcome, String> {
    let outcome = match weighed {
        Ok(accepted) => answered(&accepted.found, lengths.room),
        Err(refusal) => (*refusal).into(),
    };
    let mut store = Area::new(lengths.store);
    let mut work = Area::new(lengths.work);
    let mut room = Area::new(lengths.room);
    let answer = library.ask(text, &mut store, &mut work, &mut room, question);
    if (answer.number, answer.value) != (outcome.number.into(), outcome.value) {
        return Err(format!("the library says {answer:?}, not {outcome:?}"));
    }
    let left = weighed.as_ref().map(|accepted| &accepted.policy);
    let zeros = if left.is_ok() { &ZEROS[..] } else { &[] };
    same(store.holds(&front(left)), "store")?;
    same(work.holds(zeros), "work area")?;
    same(room.holds(&outcome.answer), "room")?;
    Ok(outcome)
}

/// What the library's replay returns for what the second program says.
fn returned(replayed: &Replayed) -> library::Replayed {
    let none = library::Replayed {
        number: 0,
        verdict: 0,
        file: NONE,
        line: 0,
        first: 0,
    };
    match *replayed {
        Replayed::Refused(refusal) => library::Replayed {
            number: refusal.number,
            line: refusal.line as usize,
            ..none
        },
        Replayed::Holds(file) => library::Replayed {
            verdict: HOLDS,
            file,
            ..none
        },
        Replayed::NoStep(first) => library::Replayed {
            verdict: NO_STEP,
            first,
            ..none
        },
        Replayed::NotGranted => library::Replayed {
            verdict: NOT_GRANTED,
            ..none
        },
    }
}

/// Lets both find the last file for each number: the library's parts must be the second program's.
pub fn last_files(
    library: &mut dyn Library,
    start: &[u8],
    store: &[u8],
    numbers: &[u8],
) -> Result<Vec<Part>, String> {
    let parts = library.last_files(start, store, numbers);
    for (number, part) in numbers.iter().zip(&parts) {
        let expected = replay::last_file(start, store, *number);
        if *part != expected {
            let said = format!("the library says {part:?}, not {expected:?}");
            return Err(format!("{said}, for number {number}"));
        }
    }
    same(parts.len() == numbers.len(), "count of parts")?;
    Ok(parts)
}

/// Where a row holds: the last file is that of its last exec, or the start.
fn last_of_row(
    library: &mut dyn Library,
    policy: &Policy,
    start: &[u8],
    store: &[u8],
    steps: &[Step],
    file: u8,
) -> Result<(), String> {
    let part = last_files(library, start, store, &[file])?[0];
    let good = match steps.iter().rfind(|step| step.kind == EXECUTE) {
        Some(step) => {
            let path = part.of(start, store);
            step.file == file && part.stored == OF_STORE && path == policy.path(file)
        }
        None => part == Part::start(start),
    };
    same(good, "last file")
}

/// Lets the library replay a row: its verdict and the store must be the second program's, which is handed back.
/// Where it holds, the last file must be the row's.
pub fn replay(
    library: &mut dyn Library,
    text: &[u8],
    question: &Question,
    store_len: usize,
    steps: &[Step],
) -> Result<Replayed, String> {
    let expected = replay::replay(text, store_len, question, steps);
    let mut store = Area::new(store_len);
    let got = library.replay(text, &mut store, question, steps);
    if got != returned(&expected) {
        return Err(format!("the library says {got:?}, not {expected:?}"));
    }
    let loaded = match expected {
        Replayed::Refused(refusal) => Err(refusal),
        _ => load(text),
    };
    let kept = front(loaded.as_ref());
    same(store.holds(&kept), "store")?;
    if let (Replayed::Holds(_), Ok(policy)) = (expected, &loaded) {
        let (start, store) = (question.start, store.lent());
        last_of_row(library, policy, start, store, steps, got.file)?;
    }
    Ok(expected)
}
