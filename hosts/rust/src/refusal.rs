//! Why a call was refused.

use crate::raw::answers;
use std::error::Error;
use std::fmt;

/// Why a call was refused. `{:?}` writes its name, `{}` a sentence for a player.
///
/// A refused call has changed nothing; a replay alone keeps the moves that it had accepted.
///
/// ```
/// use samtrekhu::{Flags, Game, Refusal};
///
/// let refusal = Game::new(0, 9, Flags::NONE).unwrap_err();
/// assert_eq!(refusal, Refusal::BadSize);
/// assert_eq!(refusal.number(), 1);
/// assert_eq!(refusal.to_string(), "A board has 1 to 19 rows and 1 to 19 columns.");
/// ```
#[non_exhaustive]
#[derive(Clone, Copy, Debug, PartialEq, Eq, Hash, PartialOrd, Ord)]
pub enum Refusal {
    /// 1: height or width outside 1 to 19.
    BadSize,
    /// 2: a flag byte above 15.
    BadFlags,
    /// 3: the state is not a true one, or its history is not all there.
    Damaged,
    /// 4: two passes stand.
    GamePaused,
    /// 5: a row or a column beyond the board.
    OffBoard,
    /// 6: a stone is there.
    PointNotEmpty,
    /// 7: a suicide, where that is forbidden.
    Suicide,
    /// 8: a ko or a superko, where that is forbidden.
    Ko,
    /// 9: a stone in one's own eye, where that is forbidden.
    FillEye,
    /// 10: 65,535 stones are accepted already.
    MoveLimit,
    /// 11: the present board is not recorded and the history has no room left.
    HistoryFull,
    /// 12: a handicap in a game that has begun.
    NotAtStart,
    /// 13: the placement has a chain without liberty.
    NoLiberty,
    /// 14: not as many colours as points, or a buffer too short.
    BadLength,
    /// 15: a colour byte above 2.
    BadColour,
    /// 18: a move's kind above 4.
    BadKind,
    /// A number that this crate does not know, from a later library.
    Other(u8),
}

impl Refusal {
    /// Every refusal that has a name.
    pub const ALL: [Refusal; 16] = [
        Refusal::BadSize,
        Refusal::BadFlags,
        Refusal::Damaged,
        Refusal::GamePaused,
        Refusal::OffBoard,
        Refusal::PointNotEmpty,
        Refusal::Suicide,
        Refusal::Ko,
        Refusal::FillEye,
        Refusal::MoveLimit,
        Refusal::HistoryFull,
        Refusal::NotAtStart,
        Refusal::NoLiberty,
        Refusal::BadLength,
        Refusal::BadColour,
        Refusal::BadKind,
    ];

    /// The refusal that a number means, none for 0.
    pub fn from_number(number: u8) -> Option<Refusal> {
        if number == answers::ACCEPTED {
            return None;
        }
        Some(Refusal::ALL.into_iter().find(|refusal| refusal.number() == number).unwrap_or(Refusal::Other(number)))
    }

    /// Its number in the referee's table.
    pub fn number(self) -> u8 {
        match self {
            Refusal::BadSize => answers::BAD_SIZE,
            Refusal::BadFlags => answers::BAD_FLAGS,
            Refusal::Damaged => answers::DAMAGED,
            Refusal::GamePaused => answers::GAME_PAUSED,
            Refusal::OffBoard => answers::OFF_BOARD,
            Refusal::PointNotEmpty => answers::POINT_NOT_EMPTY,
            Refusal::Suicide => answers::SUICIDE,
            Refusal::Ko => answers::KO,
            Refusal::FillEye => answers::FILL_EYE,
            Refusal::MoveLimit => answers::MOVE_LIMIT,
            Refusal::HistoryFull => answers::HISTORY_FULL,
            Refusal::NotAtStart => answers::NOT_AT_START,
            Refusal::NoLiberty => answers::NO_LIBERTY,
            Refusal::BadLength => answers::BAD_LENGTH,
            Refusal::BadColour => answers::BAD_COLOUR,
            Refusal::BadKind => answers::BAD_KIND,
            Refusal::Other(number) => number,
        }
    }
}

impl fmt::Display for Refusal {
    fn fmt(&self, out: &mut fmt::Formatter<'_>) -> fmt::Result {
        out.write_str(match self {
            Refusal::BadSize => "A board has 1 to 19 rows and 1 to 19 columns.",
            Refusal::BadFlags => "The flag byte of a game is 15 at most.",
            Refusal::Damaged => "This is not the state of any game, or its history is not all there.",
            Refusal::GamePaused => "Two passes stand; the game must be resumed first.",
            Refusal::OffBoard => "There is no such point on this board.",
            Refusal::PointNotEmpty => "A stone is there already.",
            Refusal::Suicide => "The stone would have no liberty, and suicide is forbidden in this game.",
            Refusal::Ko => "It is a ko: a stone was just taken there, or an earlier board would come back.",
            Refusal::FillEye => "The point is an eye of the player's own, and filling one is forbidden in this game.",
            Refusal::MoveLimit => "The game has 65,535 stones, and takes no more.",
            Refusal::HistoryFull => "There is no room left to record the board.",
            Refusal::NotAtStart => "A handicap is laid before the game begins.",
            Refusal::NoLiberty => "One of the chains would have no liberty.",
            Refusal::BadLength => "The length does not fit the board's number of points.",
            Refusal::BadColour => "A point is empty, Black or White.",
            Refusal::BadKind => "There is no such kind of move.",
            Refusal::Other(number) => return write!(out, "The referee refused, with the unknown number {number}."),
        })
    }
}

impl Error for Refusal {}

/// What a number means for the caller.
pub(crate) fn accepted(number: u8) -> Result<(), Refusal> {
    match Refusal::from_number(number) {
        None => Ok(()),
        Some(refusal) => Err(refusal),
    }
}
