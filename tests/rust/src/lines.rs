//! Hexadecimal lines, read and written.

pub const DIGITS_MOST: usize = 160;

const DIGITS: &[u8; 16] = b"0123456789abcdef";
const NO_DIGIT: u8 = 255;

/// The value of each byte as a digit.
const VALUES: [u8; 256] = {
    let mut values = [NO_DIGIT; 256];
    let mut n = 0;
    while n < DIGITS.len() {
        values[DIGITS[n] as usize] = n as u8;
        n += 1;
    }
    values
};

/// The bytes of a line; they stand in front.
pub struct Line {
    bytes: [u8; DIGITS_MOST / 2],
    len: usize,
}

impl Line {
    pub fn bytes(&self) -> &[u8] {
        &self.bytes[..self.len]
    }
}

/// Takes the first line off a text: its bytes and what follows. None: the line's form is bad (empty, odd, too
/// long, another byte, no LF).
pub fn take_line(text: &[u8]) -> Option<(Line, &[u8])> {
    let mut line = Line {
        bytes: [0; DIGITS_MOST / 2],
        len: 0,
    };
    loop {
        let at = 2 * line.len;
        let first = *text.get(at)?;
        if first == b'\n' {
            return (at > 0).then(|| (line, &text[at + 1..]));
        }
        let high = VALUES[first as usize];
        let low = VALUES[*text.get(at + 1)? as usize];
        if high == NO_DIGIT || low == NO_DIGIT || at == DIGITS_MOST {
            return None;
        }
        line.bytes[line.len] = high << 4 | low;
        line.len += 1;
    }
}

/// Writes one line: the digits of the parts, and LF.
pub fn write_line(lines: &mut Vec<u8>, parts: &[&[u8]]) {
    for byte in parts.iter().copied().flatten() {
        lines.push(DIGITS[(byte >> 4) as usize]);
        lines.push(DIGITS[(byte & 15) as usize]);
    }
    lines.push(b'\n');
}

/// A number of 2 or 4 bytes, the first the highest.
pub fn number(bytes: &[u8]) -> u32 {
    bytes.iter().fold(0, |n, b| n << 8 | *b as u32)
}
