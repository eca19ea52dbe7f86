//! Texts for the load, each with the refusal it earns, worked out by hand (0, 0: accepted).

mod fields;
mod lines;
mod tables;
mod wholes;

use crate::frames::text;
use crate::large::{fullest, open_states};

pub struct LoadCase {
    pub name: String,
    pub text: Vec<u8>,
    /// Number and line.
    pub expected: (u8, u32),
}

/// The whole listing's policy.
pub const LISTING: &str = "\
0101
102d00000000
1075000003e8
107300000000
202f
202f62696e2f
202f6574632f
300102
400000000101
410008
400100000101
410001
410208
400200000101
410001
410105
400201000101
410001
410203
7f0013
";

/// The smallest policy that is accepted: six lines.
const SMALL: [&str; 6] = [
    "0101",
    "102d00000000",
    "202f",
    "400000000101",
    "410001",
    "7f0005",
];

/// A policy with every type: fourteen lines. Roles 0 default, 1 user, 2 group, 3 special; paths `/` and `/a/`.
const EVERY: [&str; 14] = [
    "0101",
    "102d00000000",
    "107500000001",
    "106700000001",
    "107300000000",
    "202f",
    "202f612f",
    "300003",
    "400000000101",
    "410001",
    "42000003e8",
    "4300000064",
    "400001000000",
    "7f000d",
];

fn lines(list: &[&str]) -> Vec<u8> {
    list.iter()
        .flat_map(|line| format!("{line}\n").into_bytes())
        .collect()
}

#[derive(Default)]
struct Cases(Vec<LoadCase>);

impl Cases {
    fn add(&mut self, name: &str, text: Vec<u8>, number: u8, line: u32) {
        self.0.push(LoadCase {
            name: name.to_string(),
            text,
            expected: (number, line),
        });
    }

    /// One line of a text replaced (lines count from 1).
    fn line(&mut self, of: &[&str], line: usize, new: &str, number: u8, at: u32) {
        let mut list = of.to_vec();
        let name = format!("line {line} {} becomes {new:.40}", list[line - 1]);
        list[line - 1] = new;
        self.add(&name, lines(&list), number, at);
    }

    /// The first lines of a text, then others.
    fn after(&mut self, of: &[&str], kept: usize, more: &[&str], number: u8, at: u32) {
        let name = format!("{kept} lines then {more:.40?}");
        self.add(&name, lines(&[&of[..kept], more].concat()), number, at);
    }
}

pub fn cases() -> Vec<LoadCase> {
    let mut c = Cases::default();
    c.add("the small policy", lines(&SMALL), 0, 0);
    c.add("the whole listing", LISTING.as_bytes().to_vec(), 0, 0);
    lines::form_of_lines(&mut c);
    lines::types_and_lengths(&mut c);
    lines::order(&mut c);
    fields::fields(&mut c);
    tables::seconds(&mut c);
    tables::tables(&mut c);
    wholes::wholes(&mut c);
    c.line(&SMALL, 4, "400000030000", 0, 0);
    c.line(&SMALL, 4, "400000030202", 0, 0);
    c.line(&SMALL, 5, "41001f", 0, 0);
    c.add("8,192 states, all reached", text(&open_states()), 0, 0);
    c.add("32,768 bytes", fullest(), 0, 0);
    c.0
}
