//! Stands in for the crate nonmax: a u16 that is never 65535.

#[derive(Debug, Clone, Copy, PartialEq, Eq, Hash)]
pub struct NonMaxU16(u16);

impl NonMaxU16 {
    pub fn new(value: u16) -> Option<Self> {
        (value != u16::MAX).then_some(Self(value))
    }

    pub fn get(self) -> u16 {
        self.0
    }
}
