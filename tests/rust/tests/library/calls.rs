//! The library's calls, held against the second program; and alone, for what is known without it.

use crate::with_library;
use second::against::{self, Lengths};
use second::ask::{Outcome, Question};
use second::lent::Area;
use second::library::{self, Answer, Part};
use second::replay::{Replayed, Step};

pub fn ask(text: &[u8], question: &Question, lengths: &Lengths) -> Result<Outcome, String> {
    with_library(|library| against::ask(library, text, question, lengths))
}

pub fn replay(
    text: &[u8],
    question: &Question,
    store_len: usize,
    steps: &[Step],
) -> Result<Replayed, String> {
    with_library(|library| against::replay(library, text, question, store_len, steps))
}

/// The parts for these numbers.
pub fn last_files(start: &[u8], store: &[u8], numbers: &[u8]) -> Vec<Part> {
    let parts = with_library(|library| against::last_files(library, start, store, numbers));
    parts.unwrap_or_else(|fault| panic!("{fault}, in {} bytes", store.len()))
}

/// An ask alone, over areas: store, work area and room.
pub fn ask_alone(text: &[u8], areas: &mut [Area; 3], question: &Question) -> Answer {
    let [store, work, room] = areas;
    with_library(|library| library.ask(text, store, work, room, question))
}

/// A replay alone, in a store.
pub fn replay_alone(
    text: &[u8],
    store: &mut Area,
    question: &Question,
    steps: &[Step],
) -> library::Replayed {
    with_library(|library| library.replay(text, store, question, steps))
}
