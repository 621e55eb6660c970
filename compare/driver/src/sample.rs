//! A small fixed sample: of many random games those are kept, cut down, that show something the others did not.

use crate::call::{follow, Call};
use crate::generate::{self, Scope, Step};
use crate::kinds::kinds;
use plain::slips::Slip;
use plain::{Game, Reason};
use random::Random;
use std::collections::{BTreeMap, BTreeSet};

/// How many games are looked at, and how far into each.
const LOOKED_AT: u64 = 40_000;
const LONGEST: usize = 60;
/// The most rows and columns, but for one game of real length.
const SIDE: usize = 6;

/// A game that was kept: its number, its calls, and whether the crate can be asked.
pub struct Kept {
    pub number: u64,
    pub calls: Vec<Call>,
    pub beyond_the_crate: bool,
}

/// How often each kind is shown by the games that were kept.
pub type Shown = BTreeMap<String, usize>;

/// Of so many games, on boards up to so many rows and columns, those that show something new.
pub fn keep(seed: u64, games: u64, side: usize) -> (Vec<Kept>, Shown) {
    let mut shown = Shown::new();
    let mut kept = Vec::new();
    for number in 0..games {
        let mut random = Random::new(seed, number);
        let (height, width) = (random.between(1, side), random.between(1, side));
        let beyond_the_crate = random.percent(30);
        let scope = Scope { beyond_the_crate, legal_lists: true, flags: None };
        // The crate answers on square boards; the others are left to the plain referee.
        let width = if beyond_the_crate { width } else { height };
        let game: Vec<Call> = generate::game(&mut random, scope, height, width).into_iter().map(|step| step.call).take(LONGEST).collect();
        let wanted: BTreeSet<String> = shows(&game).into_iter().filter(|kind| !shown.contains_key(kind)).collect();
        if wanted.is_empty() {
            continue;
        }
        let calls = cut_down(game, &wanted);
        shows(&calls).into_iter().for_each(|kind| *shown.entry(kind).or_default() += 1);
        kept.push(Kept { number, calls, beyond_the_crate });
    }
    (kept, shown)
}

/// Prints the lines of the sample, a state after each call, and on standard error what it shows.
pub fn print(seed: u64, full: bool) {
    let (kept, shown) = keep(seed, LOOKED_AT, SIDE);
    let calls: usize = kept.iter().map(|game| game.calls.len()).sum();
    for game in &kept {
        println!("# {}", game.number);
        game.calls.iter().for_each(|call| println!("{call}\nstate"));
    }
    let long = real_game(seed);
    println!("# a game of real length");
    for (place, call) in long.iter().enumerate() {
        println!("{call}");
        if place % 10 == 9 || place + 1 == long.len() {
            println!("state");
        }
    }
    eprintln!("{} calls show {} kinds", calls + long.len(), shown.len());
    if full {
        shown.iter().for_each(|(kind, count)| eprintln!("{count:6} {kind}"));
    }
}

/// The first game on 19 × 19 with many stones.
fn real_game(seed: u64) -> Vec<Call> {
    let scope = Scope { beyond_the_crate: false, legal_lists: true, flags: None };
    let mut games = (0..).map(|number| generate::game(&mut Random::new(seed, number), scope, 19, 19));
    let stones = |game: &Vec<Step>| game.iter().filter(|step| matches!(step.call, Call::Stone(..)) && step.reason == Reason::Accepted).count();
    let game = games.find(|game| stones(game) >= 250).expect("there is always another game");
    game.into_iter().map(|step| step.call).collect()
}

/// All kinds that the game shows.
fn shows(game: &[Call]) -> BTreeSet<String> {
    let mut model = Game::empty(1, 1, 0, lines::LENT, Slip::None);
    let mut shown = BTreeSet::new();
    for call in game {
        let before = model.clone();
        let reason = follow(&mut model, call);
        shown.extend(kinds(&before, call, reason, &model));
    }
    shown
}

/// The game without calls that the wanted kinds do not need; the first call stays.
fn cut_down(mut game: Vec<Call>, wanted: &BTreeSet<String>) -> Vec<Call> {
    let mut size = game.len() / 2;
    while size > 0 {
        let mut from = 1;
        while from < game.len() {
            let to = (from + size).min(game.len());
            let shorter = [&game[..from], &game[to..]].concat();
            if wanted.is_subset(&shows(&shorter)) {
                game = shorter;
            } else {
                from += size;
            }
        }
        size /= 2;
    }
    game
}
