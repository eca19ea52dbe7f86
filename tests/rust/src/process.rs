//! The library in another process, tests/c/bridge.c, which says how a call is written. What goes there comes back
//! whole, guards included: areas that are only read must be unchanged, lent ones are looked at by the caller.

use crate::ask::Question;
use crate::lent::{guard, Area, GUARD};
use crate::library::{Answer, Library, Part, Replayed};
use crate::replay::Step;
use crate::started;
use std::io::{Read, Result, Write};
use std::path::Path;
use std::process::{Child, ChildStdin, ChildStdout, Command};

/// Bytes of a step record, and what stands between its fields, which must not matter.
const STEP: usize = 16;
const BETWEEN: u8 = 0xa5;
/// Bytes of what a replay returns, and of a part.
const REPLAYED: usize = 19;
const PART: usize = 17;

/// The program that makes the calls.
pub fn bridge() -> Command {
    started::command(Path::new(env!("LEVEECRUMB_BRIDGE")))
}

/// An area of a call: one that is only read, with its name, or a lent one.
enum Sent<'a> {
    ReadOnly(&'static str, &'a [u8]),
    Lent(&'a mut Area),
}

use Sent::{Lent, ReadOnly};

impl Sent<'_> {
    /// The length of the area itself.
    fn len(&self) -> usize {
        match self {
            ReadOnly(_, bytes) => bytes.len(),
            Lent(area) => area.whole().len() - 2 * GUARD,
        }
    }

    /// Writes the whole buffer.
    fn write(&self, request: &mut Vec<u8>) {
        match self {
            ReadOnly(_, bytes) => {
                request.extend_from_slice(guard());
                request.extend_from_slice(bytes);
                request.extend_from_slice(guard());
            }
            Lent(area) => request.extend_from_slice(area.whole()),
        }
    }

    /// Takes the whole buffer back.
    fn take(&mut self, sent: &[u8], back: &[u8]) {
        match self {
            ReadOnly(name, _) => assert!(
                sent == back,
                "the library changes the {name}, or bytes around it"
            ),
            Lent(area) => area.put_back(back),
        }
    }
}

/// A process that makes calls until it is dropped.
pub struct Process {
    child: Child,
    /// None once it has failed, or is to end.
    pipes: Option<(ChildStdin, ChildStdout)>,
    /// The last call and what came back, kept for their room.
    request: Vec<u8>,
    reply: Vec<u8>,
}

impl Process {
    pub fn start() -> Process {
        let mut child = bridge().spawn().expect("bin/run can be started");
        let pipes = child.stdin.take().zip(child.stdout.take());
        Process {
            child,
            pipes,
            request: Vec::new(),
            reply: Vec::new(),
        }
    }

    /// Writes the request, and reads a reply of this length.
    fn exchange(&mut self, len: usize) -> Result<()> {
        self.reply.resize(len, 0);
        let (input, output) = self.pipes.as_mut().expect("it has not failed");
        input.write_all(&self.request)?;
        output.read_exact(&mut self.reply)
    }

    /// Makes a call: its result, of this length, with the areas as they came back.
    fn call(&mut self, call: u8, numbers: [u32; 3], areas: &mut [Sent], len: usize) -> &[u8] {
        let request = &mut self.request;
        request.clear();
        request.push(call);
        let lengths = areas.iter().map(|area| area.len() as u32);
        for number in numbers.into_iter().chain(lengths) {
            request.extend_from_slice(&number.to_be_bytes());
        }
        let mut at = request.len();
        areas.iter().for_each(|area| area.write(request));
        let whole = len + request.len() - at;
        if let Err(fault) = self.exchange(whole) {
            self.pipes = None;
            let ended = self.child.wait().expect("it can be waited for");
            panic!("the library's process fails in a call: {fault}; {ended}");
        }
        let (result, mut back) = self.reply.split_at(len);
        for area in areas {
            let (own, rest) = back.split_at(area.len() + 2 * GUARD);
            area.take(&self.request[at..][..own.len()], own);
            at += own.len();
            back = rest;
        }
        result
    }
}

impl Drop for Process {
    fn drop(&mut self) {
        let failed = self.pipes.take().is_none();
        let ended = self.child.wait().expect("it can be waited for");
        if !failed && !std::thread::panicking() {
            assert!(ended.success(), "the library's process ends with {ended}");
        }
    }
}

/// The record as C lays it on x86-64.
fn record(step: &Step) -> [u8; STEP] {
    let mut bytes = [BETWEEN; STEP];
    bytes[..2].copy_from_slice(&[step.kind, step.role]);
    bytes[4..8].copy_from_slice(&step.uid.to_le_bytes());
    bytes[8..12].copy_from_slice(&step.gid.to_le_bytes());
    bytes[12..14].copy_from_slice(&[step.object, step.file]);
    bytes
}

/// A number of 8 bytes of a result.
fn number(bytes: &[u8]) -> u64 {
    u64::from_be_bytes(bytes.try_into().expect("a number has 8 bytes"))
}

fn numbers(question: &Question) -> [u32; 3] {
    [question.uid, question.gid, question.kind.into()]
}

impl Library for Process {
    fn ask(
        &mut self,
        text: &[u8],
        store: &mut Area,
        work: &mut Area,
        room: &mut Area,
        question: &Question,
    ) -> Answer {
        let areas = &mut [
            ReadOnly("text", text),
            ReadOnly("start", question.start),
            ReadOnly("target", question.target),
            Lent(store),
            Lent(work),
            Lent(room),
        ];
        number(self.call(b'a', numbers(question), areas, 8)).into()
    }

    fn replay(
        &mut self,
        text: &[u8],
        store: &mut Area,
        question: &Question,
        steps: &[Step],
    ) -> Replayed {
        let records: Vec<u8> = steps.iter().flat_map(record).collect();
        let areas = &mut [
            ReadOnly("text", text),
            ReadOnly("start", question.start),
            ReadOnly("target", question.target),
            Lent(store),
            ReadOnly("row of steps", &records),
        ];
        let said = self.call(b'r', numbers(question), areas, REPLAYED);
        Replayed {
            number: said[0],
            verdict: said[1],
            file: said[2],
            line: number(&said[3..11]) as usize,
            first: number(&said[11..]) as usize,
        }
    }

    fn last_files(&mut self, start: &[u8], store: &[u8], numbers: &[u8]) -> Vec<Part> {
        let areas = &mut [
            ReadOnly("start", start),
            ReadOnly("store", store),
            ReadOnly("row of numbers", numbers),
        ];
        let parts = self.call(b'l', [0; 3], areas, PART * numbers.len());
        let part = |part: &[u8]| Part {
            stored: part[0],
            from: number(&part[1..9]) as usize,
            size: number(&part[9..]) as usize,
        };
        parts.chunks_exact(PART).map(part).collect()
    }
}
