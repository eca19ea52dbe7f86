//! Frames and texts.

use crate::lines::write_line;
use crate::policy;

pub type Frame = Vec<u8>;

pub fn form() -> Frame {
    vec![policy::FORM, 1]
}

/// Kind is one of b'u', b'g', b's', b'-'.
pub fn role(kind: u8, id: u32) -> Frame {
    [&[policy::ROLE, kind][..], &id.to_be_bytes()].concat()
}

pub fn path(bytes: &[u8]) -> Frame {
    [&[policy::PATH], bytes].concat()
}

pub fn takes(role: u8, special: u8) -> Frame {
    vec![policy::TAKES, role, special]
}

pub fn entry(role: u8, subject: u8, caps: u8, users: u8, groups: u8) -> Frame {
    vec![policy::ENTRY, role, subject, caps, users, groups]
}

pub fn object(path: u8, modes: u8) -> Frame {
    vec![policy::OBJECT, path, modes]
}

pub fn uid(id: u32) -> Frame {
    [&[policy::UID][..], &id.to_be_bytes()].concat()
}

pub fn gid(id: u32) -> Frame {
    [&[policy::GID][..], &id.to_be_bytes()].concat()
}

pub fn end(count: usize) -> Frame {
    [&[policy::END][..], &(count as u16).to_be_bytes()].concat()
}

/// Adds the closing frame with the right count.
pub fn ended(mut frames: Vec<Frame>) -> Vec<Frame> {
    frames.push(end(frames.len()));
    frames
}

/// The lines of frames.
pub fn text(frames: &[Frame]) -> Vec<u8> {
    let mut lines = Vec::new();
    for frame in frames {
        write_line(&mut lines, &[frame]);
    }
    lines
}
