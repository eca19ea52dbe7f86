//! Lent areas, each in the middle of a larger buffer: every byte that may not change can be looked at.

use std::sync::LazyLock;

/// Bytes before and behind an area.
pub const GUARD: usize = 64;
/// The longest area.
pub const AREA_MOST: usize = 1 << 18;

/// What a buffer holds before the call: no byte is 0, and no two neighbours are the same.
static BEFORE: LazyLock<Vec<u8>> = LazyLock::new(|| {
    let byte = |at: usize| (at % 251) as u8 + 1;
    (0..AREA_MOST + 2 * GUARD).map(byte).collect()
});

/// What stands before and behind an area that is only read.
pub fn guard() -> &'static [u8] {
    &BEFORE[..GUARD]
}

pub struct Area {
    bytes: Vec<u8>,
    len: usize,
}

impl Area {
    pub fn new(len: usize) -> Area {
        assert!(len <= AREA_MOST);
        Area {
            bytes: BEFORE[..len + 2 * GUARD].to_vec(),
            len,
        }
    }

    /// An area with these bytes.
    pub fn with(bytes: &[u8]) -> Area {
        let mut area = Area::new(bytes.len());
        area.lent().copy_from_slice(bytes);
        area
    }

    /// The area itself.
    pub fn lent(&mut self) -> &mut [u8] {
        &mut self.bytes[GUARD..GUARD + self.len]
    }

    /// The area with what is around it.
    pub fn whole(&self) -> &[u8] {
        &self.bytes
    }

    /// Puts the whole there as it came back from another process.
    pub fn put_back(&mut self, whole: &[u8]) {
        self.bytes.copy_from_slice(whole);
    }

    /// Whether the area has these bytes in front, and every byte beyond them, before and behind the area is as
    /// it was.
    pub fn holds(&self, front: &[u8]) -> bool {
        let own = GUARD..GUARD + front.len();
        front.len() <= self.len
            && self.bytes[own.clone()] == *front
            && self.bytes[..GUARD] == BEFORE[..GUARD]
            && self.bytes[own.end..] == BEFORE[own.end..self.bytes.len()]
    }
}
