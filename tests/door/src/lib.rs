//! The proved library's door for C, as safe calls over slices.

#[cfg(not(target_arch = "x86_64"))]
compile_error!(
    "the proved library is for x86-64: tests/rust calls it on other processors, through a process"
);

use second::ask::Question;
use second::lent::Area;
use second::library::{Answer, Library, Part, Replayed};
use second::replay::Step;

extern "C" {
    fn leveecrumb_ask(
        text: *const u8,
        text_len: usize,
        store: *mut u8,
        store_len: usize,
        work: *mut u8,
        work_len: usize,
        room: *mut u8,
        room_len: usize,
        uid: u32,
        gid: u32,
        start: *const u8,
        start_len: usize,
        target: *const u8,
        target_len: usize,
        kind: u8,
    ) -> u64;

    fn leveecrumb_replay(
        text: *const u8,
        text_len: usize,
        store: *mut u8,
        store_len: usize,
        uid: u32,
        gid: u32,
        start: *const u8,
        start_len: usize,
        target: *const u8,
        target_len: usize,
        kind: u8,
        steps: *const Step,
        count: usize,
    ) -> Replayed;

    fn leveecrumb_last_file(
        start: *const u8,
        start_len: usize,
        store: *const u8,
        store_len: usize,
        number: u8,
    ) -> Part;
}

/// The ask. The work area is lent as bytes, two a number.
#[allow(clippy::too_many_arguments)]
pub fn ask(
    text: &[u8],
    store: &mut [u8],
    work: &mut [u8],
    room: &mut [u8],
    uid: u32,
    gid: u32,
    start: &[u8],
    target: &[u8],
    kind: u8,
) -> Answer {
    // SAFETY: each pointer comes from a slice and goes with that slice's length, so it is not null and as many
    // bytes may be read there, and written where the slice is borrowed for writing. Those that are written
    // overlap nothing else, being borrowed for writing. The library keeps no pointer after the call.
    let result = unsafe {
        leveecrumb_ask(
            text.as_ptr(),
            text.len(),
            store.as_mut_ptr(),
            store.len(),
            work.as_mut_ptr(),
            work.len(),
            room.as_mut_ptr(),
            room.len(),
            uid,
            gid,
            start.as_ptr(),
            start.len(),
            target.as_ptr(),
            target.len(),
            kind,
        )
    };
    result.into()
}

/// The replay of a row of step records.
#[allow(clippy::too_many_arguments)]
pub fn replay(
    text: &[u8],
    store: &mut [u8],
    uid: u32,
    gid: u32,
    start: &[u8],
    target: &[u8],
    kind: u8,
    steps: &[Step],
) -> Replayed {
    // SAFETY: as in `ask`; a step record lies in memory as C lays it, and any bytes are values of its fields.
    unsafe {
        leveecrumb_replay(
            text.as_ptr(),
            text.len(),
            store.as_mut_ptr(),
            store.len(),
            uid,
            gid,
            start.as_ptr(),
            start.len(),
            target.as_ptr(),
            target.len(),
            kind,
            steps.as_ptr(),
            steps.len(),
        )
    }
}

/// Where the last file's path stands.
fn part(start: &[u8], store: &[u8], number: u8) -> Part {
    // SAFETY: as in `ask`; nothing is written.
    unsafe {
        leveecrumb_last_file(
            start.as_ptr(),
            start.len(),
            store.as_ptr(),
            store.len(),
            number,
        )
    }
}

/// The last file's path: a part of the start or of the store.
pub fn last_file<'a>(start: &'a [u8], store: &'a [u8], number: u8) -> &'a [u8] {
    part(start, store, number).of(start, store)
}

/// The library in this process, for the tests that it shares with the one in another.
pub struct Door;

impl Library for Door {
    fn ask(
        &mut self,
        text: &[u8],
        store: &mut Area,
        work: &mut Area,
        room: &mut Area,
        question: &Question,
    ) -> Answer {
        let (s, w, r, q) = (store.lent(), work.lent(), room.lent(), question);
        ask(text, s, w, r, q.uid, q.gid, q.start, q.target, q.kind)
    }

    fn replay(
        &mut self,
        text: &[u8],
        store: &mut Area,
        question: &Question,
        steps: &[Step],
    ) -> Replayed {
        let (s, q) = (store.lent(), question);
        replay(text, s, q.uid, q.gid, q.start, q.target, q.kind, steps)
    }

    fn last_files(&mut self, start: &[u8], store: &[u8], numbers: &[u8]) -> Vec<Part> {
        let part = |number: &u8| part(start, store, *number);
        numbers.iter().map(part).collect()
    }
}
