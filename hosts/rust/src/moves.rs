//! Moves as a row of them is replayed.

use crate::raw::{self, kinds};
use crate::{Player, Point, Refusal};
use std::error::Error;
use std::fmt;

/// A move of a game.
#[derive(Clone, Copy, Debug, PartialEq, Eq, Hash)]
pub enum Move {
    /// The player to move lays a stone.
    Stone(Point),
    /// The player to move passes.
    Pass,
    /// A resignation, with the player whom it names as the outcome.
    Resign(Player),
    /// The game goes on after two passes.
    Resume,
}

impl Move {
    /// A stone in this row and column.
    pub const fn stone(row: u8, column: u8) -> Move {
        Move::Stone(Point::new(row, column))
    }
}

impl fmt::Display for Move {
    fn fmt(&self, out: &mut fmt::Formatter<'_>) -> fmt::Result {
        match self {
            Move::Stone(point) => write!(out, "stone {point}"),
            Move::Pass => write!(out, "pass"),
            Move::Resign(player) => write!(out, "resign {player}"),
            Move::Resume => write!(out, "resume"),
        }
    }
}

impl From<Move> for raw::Move {
    fn from(play: Move) -> raw::Move {
        let plain = |kind| raw::Move { kind, row: 0, column: 0 };
        match play {
            Move::Stone(Point { row, column }) => raw::Move { kind: kinds::STONE, row, column },
            Move::Pass => plain(kinds::PASS),
            Move::Resign(Player::Black) => plain(kinds::RESIGN_BLACK),
            Move::Resign(Player::White) => plain(kinds::RESIGN_WHITE),
            Move::Resume => plain(kinds::RESUME),
        }
    }
}

impl TryFrom<raw::Move> for Move {
    type Error = Refusal;

    fn try_from(raw::Move { kind, row, column }: raw::Move) -> Result<Move, Refusal> {
        match kind {
            kinds::STONE => Ok(Move::stone(row, column)),
            kinds::PASS => Ok(Move::Pass),
            kinds::RESIGN_BLACK => Ok(Move::Resign(Player::Black)),
            kinds::RESIGN_WHITE => Ok(Move::Resign(Player::White)),
            kinds::RESUME => Ok(Move::Resume),
            _ => Err(Refusal::BadKind),
        }
    }
}

/// A replay that met a refusal: the moves before it are played.
#[derive(Clone, Copy, Debug, PartialEq, Eq)]
pub struct Stopped {
    /// How many moves were accepted; so the refused one is the move with this index.
    pub accepted: usize,
    /// Why the next one was refused.
    pub refusal: Refusal,
}

impl fmt::Display for Stopped {
    fn fmt(&self, out: &mut fmt::Formatter<'_>) -> fmt::Result {
        write!(out, "Refused after {} moves. {}", self.accepted, self.refusal)
    }
}

impl Error for Stopped {
    fn source(&self) -> Option<&(dyn Error + 'static)> {
        Some(&self.refusal)
    }
}
