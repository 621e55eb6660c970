//! What a game forbids.

use crate::raw::flags;
use std::ops::BitOr;

/// What a game forbids, put together with `|`.
///
/// ```
/// use samtrekhu::Flags;
///
/// let flags = Flags::KO | Flags::SUICIDE;
/// assert!(flags.contains(Flags::KO) && !flags.contains(Flags::SUPERKO));
/// assert_eq!(flags.byte(), 3);
/// ```
#[derive(Clone, Copy, Debug, PartialEq, Eq, Hash)]
pub struct Flags(u8);

impl Flags {
    /// Nothing is forbidden.
    pub const NONE: Flags = Flags(0);
    /// To take a stone back at once.
    pub const KO: Flags = Flags(flags::KO);
    /// To take one's own last liberty.
    pub const SUICIDE: Flags = Flags(flags::SUICIDE);
    /// To fill an eye of one's own.
    pub const FILLEYE: Flags = Flags(flags::FILLEYE);
    /// To bring back a recorded board by a capture.
    pub const SUPERKO: Flags = Flags(flags::SUPERKO);
    /// All four.
    pub const ALL: Flags = Flags(flags::MAX);

    /// Any byte, as a stranger may send it; the referee refuses those above 15.
    pub const fn from_byte(byte: u8) -> Flags {
        Flags(byte)
    }

    /// The byte.
    pub const fn byte(self) -> u8 {
        self.0
    }

    /// Whether all of the others are among these.
    pub const fn contains(self, others: Flags) -> bool {
        self.0 & others.0 == others.0
    }
}

impl BitOr for Flags {
    type Output = Flags;

    fn bitor(self, others: Flags) -> Flags {
        Flags(self.0 | others.0)
    }
}
