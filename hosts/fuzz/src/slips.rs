//! Faults that can be planted in the calls, to see that the checks notice.

macro_rules! slips {
    ($($(#[$told:meta])* $slip:ident [$($check:literal),*];)*) => {
        #[derive(Clone, Copy, PartialEq, Eq, Debug)]
        pub enum Slip { None, $($(#[$told])* $slip),* }

        pub const SLIPS: &[Slip] = &[$(Slip::$slip),*];

        impl Slip {
            /// The checks of which one must complain, whichever comes first. A crash is told by a signal; so is a write to an unreadable page.
            pub fn checks(self) -> &'static [&'static str] {
                match self { Slip::None => &[], $(Slip::$slip => &[$($check),*]),* }
            }
        }
    };
}

slips! {
    /// `get_stones` writes one place behind the buffer.
    BehindTheBuffer ["guard", "signal"];
    /// `to_vec` writes one byte before the buffer.
    BeforeTheBuffer ["guard", "signal"];
    /// `stone_in_place` writes one byte behind the game.
    BehindTheGame ["guard", "signal"];
    /// `pass` writes one byte behind its result.
    BehindTheResult ["guard", "signal"];
    /// `stone_in_place` writes one byte behind the history.
    BehindTheHistory ["guard", "signal"];
    /// A stone touches the byte behind the last whole record.
    BeyondTheCapacity ["history"];
    /// A refused stone changes the turn.
    RefusedChanges ["refused"];
    /// A refused list writes its first place.
    RefusedWrites ["buffer"];
    /// `resume` answers 4.
    WrongNumber ["order"];
    /// A stone on a taken point is off the board.
    WrongRefusal ["answer"];
    /// A replay leaves the history as it was.
    ReplayDropsHistory ["replay"];
    /// A replay does not count its last entry.
    ReplayMiscounts ["replay"];
    /// `legals_by` leaves its last point out.
    LegalIsMissing ["legals"];
    /// A pass keeps the ko point.
    KoStays ["referee"];
    /// A stone that captures forgets one prisoner.
    PrisonerIsLost ["true"];
    /// `resign_in_place` leaves the mark of a begun game out.
    FormsDiffer ["forms"];
    /// `is_true_game` says yes to all.
    AllIsTrue ["answer"];
    /// `is_ko_at` says yes by 2.
    TwoIsTrue ["bool"];
    /// `chain_at` counts one liberty more.
    OneLibertyMore ["chain"];
    /// `facts_of` names the other player.
    OtherTurn ["facts"];
    /// `has_liberties` goes 300 KiB down the stack.
    DeepStack ["signal"];
    /// `size` writes where nothing is.
    WildWrite ["signal"];
}

pub fn named(name: &str) -> Option<Slip> {
    SLIPS.iter().copied().find(|slip| format!("{slip:?}") == name)
}
