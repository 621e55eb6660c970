//! A call of the protocol: the line that asks it, and what it does to the model that steers a random game.

use plain::{Game, Reason};
use std::fmt;

#[derive(Clone, Debug, PartialEq, Eq)]
pub enum Call {
    New(u128, u128, u128, Option<u128>),
    Handicap(Vec<(u128, u128)>),
    Stone(u128, u128),
    Pass,
    ResignBlack,
    ResignWhite,
    Resume,
    Check(u128, u128, u128),
    Legals(u128),
    Render,
}

impl fmt::Display for Call {
    fn fmt(&self, line: &mut fmt::Formatter) -> fmt::Result {
        match self {
            Call::New(height, width, flags, None) => write!(line, "new {height} {width} {flags}"),
            Call::New(height, width, flags, Some(bytes)) => write!(line, "new {height} {width} {flags} {bytes}"),
            Call::Handicap(points) => {
                write!(line, "handicap")?;
                points.iter().try_for_each(|(row, column)| write!(line, " {row} {column}"))
            }
            Call::Stone(row, column) => write!(line, "stone {row} {column}"),
            Call::Pass => write!(line, "pass"),
            Call::ResignBlack => write!(line, "resign b"),
            Call::ResignWhite => write!(line, "resign w"),
            Call::Resume => write!(line, "resume"),
            Call::Check(row, column, flags) => write!(line, "check {row} {column} {flags}"),
            Call::Legals(flags) => write!(line, "legals {flags}"),
            Call::Render => write!(line, "render"),
        }
    }
}

fn narrow(number: u128) -> u64 {
    number.min(u64::MAX.into()) as u64
}

pub fn narrow_points(points: &[(u128, u128)]) -> Vec<(u64, u64)> {
    points.iter().map(|&(row, column)| (narrow(row), narrow(column))).collect()
}

/// Plays the call in the model. A legal list is not worked out: it changes nothing.
pub fn follow(model: &mut Game, call: &Call) -> Reason {
    match call {
        &Call::New(height, width, flags, bytes) => {
            let lent = bytes.map_or(lines::LENT, narrow);
            let (reason, game) = Game::new_game(narrow(height), narrow(width), narrow(flags), lent, model.slip);
            *model = game;
            reason
        }
        Call::Handicap(points) => model.handicap(&narrow_points(points)),
        &Call::Stone(row, column) => model.stone(narrow(row), narrow(column)),
        Call::Pass => model.pass(),
        Call::ResignBlack => model.resign(lines::BLACK),
        Call::ResignWhite => model.resign(lines::WHITE),
        Call::Resume => model.resume(),
        &Call::Check(row, column, flags) => model.check(narrow(row), narrow(column), narrow(flags)),
        &Call::Legals(flags) if flags > 15 => Reason::BadFlags,
        Call::Legals(_) | Call::Render => Reason::Accepted,
    }
}
