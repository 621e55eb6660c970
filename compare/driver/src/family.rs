//! The families of games: which sizes, and which calls.

use crate::generate::{self, Scope, Step};
use crate::{limit, words};
use random::Random;

#[derive(Clone, Copy, PartialEq, Eq)]
pub enum Family {
    /// Square boards, within what the crate checks.
    Square,
    /// Boards whose width divides their height, within what the crate checks and without legal lists.
    Tall,
    /// All 361 sizes in turn, with every refusal.
    All,
    /// The 65,535 stones of a game.
    Limit,
    /// Lines that are no calls.
    Words,
    /// One size, within what the crate checks and without legal lists.
    Size(usize, usize),
}

/// A family by its name; a size is written as 3x2.
pub fn named(name: &str) -> Option<Family> {
    Some(match name {
        "square" => Family::Square,
        "tall" => Family::Tall,
        "all" => Family::All,
        "limit" => Family::Limit,
        "words" => Family::Words,
        _ => {
            let (height, width) = name.split_once('x')?;
            let side = |word: &str| word.parse().ok().filter(|side| (1..=SIDE).contains(side));
            Family::Size(side(height)?, side(width)?)
        }
    })
}

pub struct Play {
    pub lines: Vec<String>,
    pub steps: Vec<Step>,
}

const SIDE: usize = 19;

impl Family {
    /// The most games that the family has.
    pub fn most(self) -> usize {
        match self {
            Family::Limit => limit::games().len(),
            _ => usize::MAX,
        }
    }

    /// Whether a legal list is asked for after every call: not where the crate has other ones, nor 590,000 times on boards of one row.
    pub fn lists(self) -> bool {
        matches!(self, Family::Square | Family::All)
    }

    pub fn game(self, seed: u64, number: usize) -> Play {
        let mut random = Random::new(seed, number as u64);
        let (height, width) = match self {
            Family::Square => square(&mut random),
            Family::Tall => *random.of(&tall_sizes()),
            Family::All => (1 + number % SIDE, 1 + number / SIDE % SIDE),
            Family::Size(height, width) => (height, width),
            Family::Limit => return Play { lines: limit::games().swap_remove(number), steps: Vec::new() },
            Family::Words => return Play { lines: words::lines(&mut random), steps: Vec::new() },
        };
        let scope = Scope { beyond_the_crate: self == Family::All, legal_lists: self.lists(), flags: None };
        play(&mut random, scope, height, width)
    }
}

pub fn play(random: &mut Random, scope: Scope, height: usize, width: usize) -> Play {
    let steps = generate::game(random, scope, height, width);
    Play { lines: steps.iter().map(|step| step.call.to_string()).collect(), steps }
}

/// Small boards half of the time: there everything happens soon.
fn square(random: &mut Random) -> (usize, usize) {
    let side = match random.below(100) {
        0..=54 => random.between(1, 5),
        55..=74 => random.between(6, 9),
        75..=84 => random.between(10, 18),
        _ => SIDE,
    };
    (side, side)
}

fn tall_sizes() -> Vec<(usize, usize)> {
    let sizes = (1..=SIDE).flat_map(|height| (1..height).map(move |width| (height, width)));
    sizes.filter(|(height, width)| height % width == 0).collect()
}
