//! Random policies: the ask against replay, against the definitions and against a search of real steps.

use second::ask::{ask, Found, Question, STORE_LEAST, WORK_LEAST};
use second::finite::fewest_steps;
use second::generator::{case, damage, damage_steps, Case, Size};
use second::model;
use second::policy::{load, Kind, Policy, SET_GID, SET_UID};
use second::random::Random;
use second::replay::{replay, walk, Replayed, Step};
use second::search::search;
use second::{plain, tables::Tables};

const ROOM: usize = 200_000;

fn sizes(n: usize) -> Size {
    match n % 10 {
        0..=2 => Size::Small,
        3..=7 => Size::Usual,
        8 => Size::ManyRoles,
        _ => Size::ManyPaths,
    }
}

fn asked(case: &Case, room: usize) -> second::ask::Outcome {
    let (start, target) = (&case.start, &case.target);
    ask(
        &case.text(),
        STORE_LEAST,
        WORK_LEAST,
        room,
        case.uid,
        case.gid,
        start,
        target,
        case.kind,
    )
}

/// The ask's own steps hold in replay, the last file is the last one run, and the answer fits a room of its
/// length, but none that is a byte shorter.
#[test]
fn own_steps_hold() {
    let mut random = Random::new(1);
    let (mut accepted, mut reached, mut never) = (0, 0, 0);
    let mut lengths = [0; 64];
    let mut refused_with = [0; 17];
    let mut kinds = [0; 4];
    let mut opened = 0;
    let all = 20_000;
    for n in 0..all {
        let case = case(&mut random, sizes(n));
        let outcome = asked(&case, ROOM);
        if outcome.number != 0 {
            refused_with[outcome.number as usize] += 1;
            let refused = replay(&case.text(), STORE_LEAST, &case.question(), &[]);
            let expected = second::policy::Refusal {
                number: outcome.number,
                line: outcome.value,
            };
            assert_eq!(refused, Replayed::Refused(expected), "case {n}");
            continue;
        }
        accepted += 1;
        assert_eq!(outcome.value as usize, outcome.answer.len());
        let found = Found::read(&outcome.answer).unwrap();
        let steps = found.steps;
        opened += found.opened;
        if !found.reached {
            never += 1;
            assert_eq!(outcome.answer.len(), 13);
        } else {
            reached += 1;
            lengths[steps.len().min(63)] += 1;
            steps
                .iter()
                .for_each(|s| kinds[(s.kind - 0x81) as usize] += 1);
            let last = steps
                .iter()
                .rev()
                .find(|s| s.kind == 0x84)
                .map_or(255, |s| s.file);
            let replayed = replay(&case.text(), STORE_LEAST, &case.question(), &steps);
            assert_eq!(replayed, Replayed::Holds(last), "case {n}");
        }
        let short = asked(&case, outcome.answer.len() - 1);
        assert_eq!((short.number, short.value), (17, outcome.value));
        assert_eq!(asked(&case, outcome.answer.len()), outcome);
    }
    let longest = lengths.iter().rposition(|n| *n > 0).unwrap();
    println!("policies {all}, accepted {accepted}, reached {reached}, never {never}, longest run {longest}");
    println!("refused with 7 to 16: {:?}", &refused_with[7..]);
    println!("runs by length {:?}", &lengths[..=longest]);
    println!("steps 81 to 84: {kinds:?}, states opened {opened}");
    assert!(accepted * 10 >= all * 9);
    assert!(reached * 2 >= accepted);
    assert!(lengths[2..].iter().sum::<usize>() * 4 >= reached);
}

/// Verdict, count of states opened and steps are those of the definitions over first runs.
#[test]
fn agrees_with_the_definitions() {
    let mut random = Random::new(2);
    for n in 0..4_000 {
        let size = match n {
            n if n % 200 == 0 => Size::ManyRoles,
            n if n % 200 == 1 => Size::ManyPaths,
            n if n % 3 == 0 => Size::Usual,
            _ => Size::Small,
        };
        let case = case(&mut random, size);
        if let Ok(policy) = load(&case.text()) {
            let question = case.question();
            assert_eq!(
                search(&policy, &question),
                plain::search(&policy, &question),
                "case {n}"
            );
        }
    }
}

/// Verdict and least count of steps are those of a search of real steps.
#[test]
fn agrees_with_real_steps() {
    let mut random = Random::new(3);
    let (mut done, mut reached) = (0, 0);
    while done < 3_000 {
        let case = case(&mut random, Size::Small);
        let Ok(policy) = load(&case.text()) else {
            continue;
        };
        done += 1;
        let question = case.question();
        let found = search(&policy, &question);
        let fewest = fewest_steps(&policy, &question);
        assert_eq!(
            found.reached.then_some(found.steps.len()),
            fewest,
            "policy {done}"
        );
        reached += found.reached as usize;
    }
    println!("finite search: policies {done}, reached {reached}");
}

/// The tables say what the model says.
#[test]
fn tables_are_the_model() {
    let mut random = Random::new(4);
    for n in 0..600 {
        let case = case(&mut random, sizes(n));
        let Ok(policy) = load(&case.text()) else {
            continue;
        };
        let tables = Tables::new(&policy);
        for role in 0..policy.roles.len() as u8 {
            for (s, path) in tables.subjects.iter().enumerate() {
                let entry = model::entry_in_force(&policy, role, policy.path(*path));
                assert_eq!(tables.entry(role, s as u8), entry);
            }
        }
        for e in 0..policy.entries.len() {
            let located = tables.locate(&policy, &case.target);
            let place = model::object_for(&policy, e, &case.target);
            assert_eq!(
                tables.modes(&policy, e, located),
                policy.objects(e)[place].modes
            );
            let mut led = Vec::new();
            for exec in &tables.rows[e].execs {
                let place = policy
                    .objects(e)
                    .iter()
                    .position(|o| o.path == exec.object)
                    .unwrap();
                let mut image = model::image(&policy, e, place);
                image.retain(|s| !led.contains(s));
                led.extend(&image);
                let bits = (0..tables.subjects.len()).filter(|s| exec.leads >> s & 1 == 1);
                assert_eq!(bits.map(|s| tables.subjects[s]).collect::<Vec<_>>(), image);
            }
        }
    }
}

/// A second reading of "real step", record by record, without `model`.
fn walk_again(policy: &Policy, question: &Question, steps: &[Step]) -> Replayed {
    let role_of = |kind, id| {
        policy
            .roles
            .iter()
            .position(|r| r.kind == kind && r.id == id)
    };
    let default = policy
        .roles
        .iter()
        .position(|r| r.kind == Kind::Default)
        .unwrap();
    let longest = |list: &[(usize, Vec<u8>)], file: &[u8]| {
        let over = list
            .iter()
            .filter(|(_, p)| file.len() >= p.len() && file[..p.len()] == p[..]);
        over.max_by_key(|(_, p)| p.len()).unwrap().0
    };
    let entry_of = |role: usize, file: &[u8]| {
        let of_role =
            (0..policy.entries.len()).filter(|e| policy.entries[*e].role as usize == role);
        let list: Vec<_> = of_role
            .map(|e| (e, policy.path(policy.entries[e].subject).to_vec()))
            .collect();
        longest(&list, file)
    };
    let object_of = |entry: usize, file: &[u8]| {
        let list: Vec<_> = policy
            .objects(entry)
            .iter()
            .map(|o| policy.path(o.path).to_vec())
            .enumerate()
            .collect();
        policy.objects(entry)[longest(&list, file)]
    };
    let may = |ids: &second::policy::Ids, id: u32| match ids.mode {
        _ if id == u32::MAX => false,
        0 => true,
        1 => ids.listed().contains(&id),
        _ => !ids.listed().contains(&id),
    };
    let (mut special, mut uid, mut gid) = (None, question.uid, question.gid);
    let mut file = question.start.to_vec();
    let mut last = 255;
    let in_force = |special: Option<usize>, uid, gid| {
        let named = special
            .or(role_of(Kind::User, uid))
            .or(role_of(Kind::Group, gid));
        named.unwrap_or(default)
    };
    for (n, s) in steps.iter().enumerate() {
        let role = in_force(special, uid, gid);
        let e = entry_of(role, &file);
        let entry = &policy.entries[e];
        let good = match s.kind {
            0x81 => {
                let taken = (0..policy.roles.len()).find(|r| *r == s.role as usize);
                let good = match taken {
                    Some(r) => policy.roles[role].takes & 1 << r != 0,
                    None => s.role == 255,
                };
                special = taken;
                good && (s.uid, s.gid, s.object, s.file) == (0, 0, 0, 0)
            }
            0x82 => {
                let good = may(&entry.users, s.uid) && entry.caps & SET_UID == SET_UID;
                uid = s.uid;
                good && (s.role, s.gid, s.object, s.file) == (0, 0, 0, 0)
            }
            0x83 => {
                let good = may(&entry.groups, s.gid) && entry.caps & SET_GID == SET_GID;
                gid = s.gid;
                good && (s.role, s.uid, s.object, s.file) == (0, 0, 0, 0)
            }
            0x84 if (s.file as usize) < policy.paths.len() && s.role == 0 => {
                let path = policy.path(s.file).to_vec();
                let object = object_of(e, &path);
                let good = (s.uid == uid || may(&entry.users, s.uid))
                    && (s.gid == gid || may(&entry.groups, s.gid));
                (uid, gid, file, last) = (s.uid, s.gid, path, s.file);
                good && object.path == s.object && object.modes & 12 == 4
            }
            _ => false,
        };
        if !good {
            return Replayed::NoStep(n);
        }
    }
    let modes = object_of(
        entry_of(in_force(special, uid, gid), &file),
        question.target,
    )
    .modes;
    match modes & 8 == 0 && modes & (1 << question.kind) != 0 {
        true => Replayed::Holds(last),
        false => Replayed::NotGranted,
    }
}

/// Damaged step records: replay says what a second reading says.
#[test]
fn damaged_records() {
    let mut random = Random::new(5);
    let mut counts = [0; 3];
    for n in 0..12_000 {
        let case = case(&mut random, sizes(n));
        let Ok(policy) = load(&case.text()) else {
            continue;
        };
        let question = case.question();
        let mut steps = search(&policy, &question).steps;
        for _ in 0..1 + random.below(2) {
            steps = damage_steps(&mut random, &steps);
        }
        let replayed = walk(&policy, &question, &steps);
        assert_eq!(
            replayed,
            walk_again(&policy, &question, &steps),
            "case {n}: {steps:?}"
        );
        match replayed {
            Replayed::Holds(_) => counts[0] += 1,
            Replayed::NoStep(_) => counts[1] += 1,
            _ => counts[2] += 1,
        }
    }
    println!(
        "damaged records: holds {}, no step {}, not granted {}",
        counts[0], counts[1], counts[2]
    );
    assert!(counts.iter().all(|n| *n > 100));
}

/// Damaged texts: what stands before the first changed byte is never at fault.
#[test]
fn damaged_texts() {
    let mut random = Random::new(6);
    let mut counts = [0; 17];
    for n in 0..20_000 {
        let case = case(&mut random, sizes(n));
        let text = case.text();
        if load(&text).is_err() {
            continue;
        }
        let damaged = damage(&mut random, &case.frames);
        let same = text
            .iter()
            .zip(&damaged)
            .take_while(|(a, b)| a == b)
            .count();
        let first = text[..same].iter().filter(|b| **b == b'\n').count() as u32 + 1;
        match load(&damaged) {
            Ok(_) => counts[0] += 1,
            Err(refusal) => {
                counts[refusal.number as usize] += 1;
                assert_eq!(refusal.line == 0, refusal.number >= 14);
                assert!(refusal.line == 0 || refusal.line >= first, "case {n}");
            }
        }
    }
    println!(
        "damaged texts: accepted {}, refused with 7 to 16: {:?}",
        counts[0],
        &counts[7..]
    );
    assert!((7..=15).all(|n| counts[n] > 0 || n == 12));
}
