//! Stands where the crate builds games: from here what a game keeps to itself can be read.

use super::game::Game;
use super::EndGame;
use crate::pieces::stones::Color;
use crate::pieces::util::coord::Coord;

pub fn ko_point(game: &Game) -> Option<Coord> {
    game.ko_point
}

pub fn passes(game: &Game) -> u32 {
    game.passes
}

pub fn records(game: &Game) -> usize {
    game.history.len()
}

/// The player that a resignation named.
pub fn resigned(game: &Game) -> Option<Color> {
    match game.outcome {
        Some(EndGame::WinnerByResign(player)) => Some(player),
        _ => None,
    }
}
