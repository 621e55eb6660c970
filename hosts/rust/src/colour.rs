//! Colours of points, and players.

use crate::raw::colours;
use crate::Refusal;
use std::fmt;

/// One of the two players.
#[derive(Clone, Copy, Debug, PartialEq, Eq, Hash)]
pub enum Player {
    /// Moves first, unless there is a handicap.
    Black,
    /// The other.
    White,
}

impl Player {
    /// The opponent.
    pub fn other(self) -> Player {
        match self {
            Player::Black => Player::White,
            Player::White => Player::Black,
        }
    }

    /// The number of the player's colour.
    pub fn number(self) -> u8 {
        Colour::from(self).number()
    }

    /// The player whose colour has this number, if it is a player's.
    pub fn from_number(number: u8) -> Option<Player> {
        match number {
            colours::BLACK => Some(Player::Black),
            colours::WHITE => Some(Player::White),
            _ => None,
        }
    }
}

impl fmt::Display for Player {
    fn fmt(&self, out: &mut fmt::Formatter<'_>) -> fmt::Result {
        fmt::Debug::fmt(self, out)
    }
}

/// What is on a point.
#[derive(Clone, Copy, Debug, PartialEq, Eq, Hash)]
pub enum Colour {
    /// No stone.
    Empty,
    /// A Black stone.
    Black,
    /// A White stone.
    White,
}

impl Colour {
    /// 0, 1 or 2.
    pub fn number(self) -> u8 {
        match self {
            Colour::Empty => colours::EMPTY,
            Colour::Black => colours::BLACK,
            Colour::White => colours::WHITE,
        }
    }
}

impl From<Player> for Colour {
    fn from(player: Player) -> Colour {
        match player {
            Player::Black => Colour::Black,
            Player::White => Colour::White,
        }
    }
}

impl TryFrom<u8> for Colour {
    type Error = Refusal;

    fn try_from(number: u8) -> Result<Colour, Refusal> {
        match number {
            colours::EMPTY => Ok(Colour::Empty),
            colours::BLACK => Ok(Colour::Black),
            colours::WHITE => Ok(Colour::White),
            _ => Err(Refusal::BadColour),
        }
    }
}
