//! The whole listing, the small facts that are run, and the proved program.

use second::ask::{answered as in_room, ask, weigh, Found, Outcome, Question};
use second::ask::{STORE_LEAST, TEXT_MOST, WORK_LEAST};
use second::clock::clock;
use second::frames::text;
use second::large::{fullest, many_states};
use second::load_cases::LISTING;
use second::pathcheck::{pathcheck, INPUT_MOST};
use second::proved;
use second::replay::{replay, Replayed};
use second::samples::question;
use second::started::repository;
use std::path::Path;
use std::process::Command;

const QUESTION: &str = "6001000003e800000064\n612f\n622f6574632f6e74702f\n";
const ANSWER: &str = "800100020002\n8102\n840101000003e800000064\n";

fn asked(room: usize, uid: u32, kind: u8) -> Outcome {
    let text = LISTING.as_bytes();
    ask(
        text,
        STORE_LEAST,
        WORK_LEAST,
        room,
        uid,
        100,
        b"/",
        b"/etc/ntp/",
        kind,
    )
}

fn answered(answer: &str) -> Outcome {
    Outcome {
        number: 0,
        value: answer.len() as u32,
        answer: answer.as_bytes().to_vec(),
    }
}

fn refused(number: u8, value: u32) -> Outcome {
    Outcome {
        number,
        value,
        answer: Vec::new(),
    }
}

/// Runs the proved program on an input; the second program must say the same.
fn run(input: &[u8]) -> String {
    let printed = proved::pathcheck(input);
    assert_eq!(printed, pathcheck(input));
    String::from_utf8(printed).unwrap()
}

/// The two files that a program writes are a crate's stored input, of which its program reads all, and output.
fn as_stored(program: &str, name: &str) {
    let written = Path::new(env!("CARGO_TARGET_TMPDIR")).join(name);
    std::fs::create_dir_all(&written).unwrap();
    let places = ["stdin", "stdout"].map(|file| written.join(file));
    assert!(Command::new(program)
        .args(&places)
        .status()
        .unwrap()
        .success());
    let stored = repository().join("crates").join(name);
    let [input, output] = places.map(|place| std::fs::read(place).unwrap());
    assert!(input.len() <= 131_072);
    assert!(input == std::fs::read(stored.join("stdin")).unwrap());
    assert!(output == std::fs::read(stored.join("stdout")).unwrap());
}

fn run_with(question: &str, policy: &str) -> String {
    run(format!("{question}{policy}").as_bytes())
}

#[test]
fn the_listing() {
    assert_eq!(run_with(QUESTION, LISTING), ANSWER);
    assert_eq!(asked(41, 1000, 1), answered(ANSWER));
    assert_eq!(asked(40, 1000, 1), refused(17, 41));
    assert_eq!(asked(0, 1000, 1), refused(17, 41));
}

#[test]
fn the_listing_with_other_questions() {
    assert_eq!(asked(100, 1000, 0), answered("800100010001\n8102\n"));
    assert_eq!(asked(100, 1001, 1), answered("800000010000\n"));
    assert_eq!(asked(100, 1001, 0), answered("800000010000\n"));
    let kind_00 = QUESTION.replace("6001", "6000");
    assert_eq!(run_with(&kind_00, LISTING), "800100010001\n8102\n");
    let uid_1001 = QUESTION.replace("000003e8", "000003e9");
    assert_eq!(run_with(&uid_1001, LISTING), "800000010000\n");
    // A start that has the access: user role 1 reads `/`.
    let text = LISTING.as_bytes();
    let here = ask(text, STORE_LEAST, WORK_LEAST, 13, 1000, 0, b"/", b"/x/", 0);
    assert_eq!(here, answered("800100000000\n"));
}

#[test]
fn refusals_1_to_6_in_order() {
    let long = vec![b'x'; TEXT_MOST + 1];
    let bad = b"\n";
    let (store, work) = (STORE_LEAST, WORK_LEAST);
    let nobody = u32::MAX;
    assert_eq!(
        ask(&long, 0, 0, 0, nobody, nobody, b"", b"", 2),
        refused(1, 0)
    );
    assert_eq!(
        ask(bad, store - 1, 0, 0, nobody, nobody, b"", b"", 2),
        refused(2, 0)
    );
    assert_eq!(
        ask(bad, store, work - 1, 0, nobody, nobody, b"", b"", 2),
        refused(3, 0)
    );
    assert_eq!(
        ask(bad, store, work, 0, nobody, nobody, b"", b"/", 2),
        refused(4, 0)
    );
    assert_eq!(
        ask(bad, store, work, 0, nobody, nobody, b"/", b"/a", 2),
        refused(4, 0)
    );
    assert_eq!(
        ask(bad, store, work, 0, nobody, 0, b"/", b"/", 2),
        refused(5, 0)
    );
    assert_eq!(
        ask(bad, store, work, 0, 0, nobody, b"/", b"/", 2),
        refused(5, 0)
    );
    assert_eq!(ask(bad, store, work, 0, 0, 0, b"/", b"/", 2), refused(6, 0));
    assert_eq!(ask(bad, store, work, 0, 0, 0, b"/", b"/", 1), refused(7, 1));
    assert_eq!(
        ask(&long[1..], store, work, 0, 0, 0, b"/", b"/", 1),
        refused(7, 1)
    );
}

#[test]
fn starts_and_targets() {
    let asked = |start: &[u8], target: &[u8]| {
        let (store, work) = (STORE_LEAST, WORK_LEAST);
        ask(b"", store, work, 0, 0, 0, start, target, 0)
    };
    for path in [&b"a/"[..], b"/a", b"//", b"/a//b/", b"/\0/", b"/a/b"] {
        assert_eq!(asked(path, b"/"), refused(4, 0));
        assert_eq!(asked(b"/", path), refused(4, 0));
    }
    for path in [&b"/"[..], b"/*/", b"/?[/", b"/./../", b"/\n\xff/"] {
        assert_eq!(asked(path, path), refused(14, 0));
    }
    let of = |n: usize| [b"/", &vec![b'a'; n - 2][..], b"/"].concat();
    assert_eq!(asked(&of(64), &of(64)), refused(14, 0));
    assert_eq!(asked(&of(65), &of(64)), refused(4, 0));
    assert_eq!(asked(&of(64), &of(65)), refused(4, 0));
}

#[test]
fn states_and_paths() {
    let number = |text: &[u8]| ask(text, STORE_LEAST, WORK_LEAST, 13, 0, 0, b"/", b"/", 1).number;
    let states = |subjects| text(&second::frames::ended(many_states(subjects)));
    assert_eq!(number(&states(8)), 0);
    assert_eq!(number(&states(9)), 16);
    let named = |name: &str| {
        let mut cases = second::load_cases::cases().into_iter();
        cases.find(|c| c.name == name).unwrap().text
    };
    assert_eq!(number(&named("96 paths")), 0);
    assert_eq!(number(&named("97 paths")), 12);
    assert_eq!(fullest().len(), TEXT_MOST);
    assert_eq!(number(&fullest()), 0);
    let mut longer = fullest();
    longer.push(b'\n');
    assert_eq!(number(&longer), 1);
}

#[test]
fn load_cases_as_worked_out_by_hand() {
    for case in second::load_cases::cases() {
        let pair = second::policy::load(&case.text).map_or_else(|r| (r.number, r.line), |_| (0, 0));
        assert_eq!(pair, case.expected, "{}", case.name);
    }
}

/// The texts of the proved load, and their refusals.
#[test]
fn load_cases_as_stored() {
    as_stored(env!("CARGO_BIN_EXE_loads"), "load_table");
}

/// The inputs of the proved check, and what is printed for them.
#[test]
fn samples_as_stored() {
    as_stored(env!("CARGO_BIN_EXE_samples"), "sample");
}

#[test]
fn refusals_of_the_program() {
    let lines: Vec<&str> = QUESTION.lines().collect();
    for n in 0..3 {
        let expected = format!("8f12000{}\n", n + 1);
        // Missing, with nothing or the policy in its place.
        let kept: String = lines[..n].iter().map(|l| format!("{l}\n")).collect();
        assert_eq!(run_with(&kept, ""), expected);
        assert_eq!(run_with(&kept, LISTING), expected);
        // Of wrong form, type or length, before all other refusals.
        let odd = &lines[n][1..];
        let upper = lines[n].replace('6', "A");
        let long = format!("{}{}", &lines[n][..2], "2f".repeat(80));
        for bad in [
            "", "0", "0101", "60", "61", "62", "63", "6361", odd, &upper, &long, "61 2f", "602f",
        ] {
            assert_eq!(run_with(&format!("{kept}{bad}\n"), "x"), expected);
        }
        assert_eq!(run(format!("{kept}{}", lines[n]).as_bytes()), expected);
    }
    assert_eq!(run_with("60010000000000000000\n", ""), "8f120002\n");
    assert_eq!(run_with("600100000000000000\n", ""), "8f120001\n");
    assert_eq!(run_with("6001000000000000000000\n", ""), "8f120001\n");
    // Lines of 160 digits are good lines.
    let long = format!(
        "6001000003e800000064\n61{}\n62{}\n",
        "2f".repeat(79),
        "2f".repeat(79)
    );
    assert_eq!(run_with(&long, ""), "8f040000\n");
    assert_eq!(run_with(QUESTION, ""), "8f0e0000\n");
    assert_eq!(
        run_with(&QUESTION.replace("6001", "6002"), LISTING),
        "8f060000\n"
    );
    assert_eq!(
        run_with(&QUESTION.replace("000003e8", "ffffffff"), ""),
        "8f050000\n"
    );
    assert_eq!(
        run_with(&QUESTION.replace("612f", "6161"), ""),
        "8f040000\n"
    );
    assert_eq!(run_with(QUESTION, "0101\n\n"), "8f070002\n");
    assert_eq!(
        run_with(QUESTION, &LISTING.replace("7f0013", "7f0014")),
        "8f0d0014\n"
    );
}

#[test]
fn the_program_reads_no_more_than_it_needs() {
    let fit = String::from_utf8(fullest()).unwrap();
    // `/` may be run and read in each of the 56 entries, so all subjects are reached, and none may write.
    assert_eq!(run_with(QUESTION, &fit), "800000380000\n");
    assert_eq!(run_with(QUESTION, &format!("{fit}\n")), "8f010000\n");
    assert_eq!(
        run_with(&QUESTION.replace("612f", "6161"), &format!("{fit}\n")),
        "8f010000\n"
    );
    let endless = "x".repeat(1_000_000);
    assert_eq!(run_with(QUESTION, &endless), "8f010000\n");
    assert_eq!(run_with("", &endless), "8f120001\n");
    let longest = format!(
        "6001000003e800000064\n61{}\n62{}\n",
        "2f".repeat(79),
        "2f".repeat(79)
    );
    let all = format!("{longest}{}", "0".repeat(INPUT_MOST));
    assert_eq!(run(all.as_bytes()), "8f010000\n");
}

/// The clock's question.
const AT_A: Question = Question {
    uid: 1,
    gid: 0,
    start: b"/a/",
    target: b"/etc/",
    kind: 0,
};

/// A run of 2,407 steps: its answer does not fit the program's room, that of the hour before does.
#[test]
fn a_long_run() {
    // An hour: 12 users take the special role, run 22 files and leave it; 11 run the first file again; the last
    // sets its UID, and the group runs the first file, but not at the end.
    let hour = 12 * (5 + 22 * 23 + 5) + 11 * 23 + 11 + 23;
    let lines = question(AT_A.kind, AT_A.uid, AT_A.gid, AT_A.start, AT_A.target);
    for at in 1..=7 {
        let text = text(&clock(at));
        let found = weigh(&text, STORE_LEAST, WORK_LEAST, &AT_A).unwrap().found;
        let bytes = 13 + (at as usize + 1) * hour - 23;
        let outcome = in_room(&found, bytes);
        assert_eq!((outcome.number, outcome.value as usize), (0, bytes));
        assert_eq!(in_room(&found, bytes - 1), refused(17, bytes as u32));
        let steps = Found::read(&outcome.answer).unwrap().steps;
        assert_eq!(steps.len(), (at as usize + 1) * 301 - 1);
        let replayed = replay(&text, STORE_LEAST, &AT_A, &steps);
        assert_eq!(replayed, Replayed::Holds(23));
        let printed = run(&[lines.clone(), text].concat());
        match bytes > 49_152 {
            true => assert_eq!(printed, "8f110000\n"),
            false => assert_eq!(printed.as_bytes(), outcome.answer),
        }
        assert_eq!(bytes > 49_152, at == 7);
    }
}
