//! Which sizes two referees play alike: every size gets some games within what the crate checks.

use crate::compare::Pair;
use crate::family::play;
use crate::generate::Scope;
use random::Random;

pub fn tell(pair: &Pair, seed: u64, games: usize) {
    let mut alike = Vec::new();
    let mut but_lists = Vec::new();
    let mut not = Vec::new();
    for height in 1..=19 {
        for width in 1..=19 {
            let agree = |legal_lists: bool| {
                let scope = Scope { beyond_the_crate: false, legal_lists, flags: None };
                (0..games as u64).all(|number| {
                    let game = play(&mut Random::new(seed, number), scope, height, width);
                    pair.difference(&game.lines, legal_lists).is_none()
                })
            };
            let size = format!("{height}x{width}");
            if agree(true) {
                alike.push(size);
            } else if agree(false) {
                but_lists.push(size);
            } else {
                not.push(size);
            }
        }
    }
    for (title, sizes) in [("alike", alike), ("alike but for legal lists", but_lists), ("not alike", not)] {
        println!("{title} ({}): {}", sizes.len(), sizes.join(" "));
    }
}
