//! Where a game keeps its records.

use crate::raw::RECORD_BYTES;

/// The bytes in which a game records its boards, 100 for each. A `Vec<u8>` grows as the game does; a lent slice, an array or a box has the length that it has,
/// and a stone for which no room is left is refused with [`HistoryFull`](crate::Refusal::HistoryFull).
pub trait History {
    /// All of its bytes.
    fn bytes(&self) -> &[u8];

    /// All of its bytes, to be written.
    fn bytes_mut(&mut self) -> &mut [u8];

    /// Adds room for at least one record behind its bytes, or answers no. The bytes that are there must stay.
    fn grow(&mut self) -> bool {
        false
    }
}

impl History for Vec<u8> {
    fn bytes(&self) -> &[u8] {
        self
    }

    fn bytes_mut(&mut self) -> &mut [u8] {
        self
    }

    /// By half, so that a game seldom asks for more.
    fn grow(&mut self) -> bool {
        let records = self.len() / RECORD_BYTES;
        let length = (records + records / 2 + 8) * RECORD_BYTES;
        self.reserve_exact(length - self.len());
        self.resize(length, 0);
        true
    }
}

impl History for &mut [u8] {
    fn bytes(&self) -> &[u8] {
        self
    }

    fn bytes_mut(&mut self) -> &mut [u8] {
        self
    }
}

impl History for Box<[u8]> {
    fn bytes(&self) -> &[u8] {
        self
    }

    fn bytes_mut(&mut self) -> &mut [u8] {
        self
    }
}

impl<const LENGTH: usize> History for [u8; LENGTH] {
    fn bytes(&self) -> &[u8] {
        self
    }

    fn bytes_mut(&mut self) -> &mut [u8] {
        self
    }
}
