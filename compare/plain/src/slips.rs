//! Ways to be wrong in one line, to see that the comparison notices.

#[derive(Clone, Copy, PartialEq, Eq, Debug)]
pub enum Slip {
    None,
    /// One's own stones are cleared before the enemy's.
    OwnFirst,
    /// A ko point also where two chains were taken.
    KoAfterTwoChains,
    /// Superko asked with two records already.
    AtLeastTwoRecords,
    /// Prisoners counted for the other side.
    PrisonersSwapped,
    /// A stone leaves the passes as they are.
    PassesStay,
    /// Boards with one hash are taken for one board. No random game shows it; the sample has one that does.
    HashAlone,
}

pub const SLIPS: [Slip; 7] =
    [Slip::None, Slip::OwnFirst, Slip::KoAfterTwoChains, Slip::AtLeastTwoRecords, Slip::PrisonersSwapped, Slip::PassesStay, Slip::HashAlone];
