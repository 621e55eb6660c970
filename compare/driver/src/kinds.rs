//! What a call shows of the rules: each test by the way it went, each capture by its shape, each refusal.

use crate::call::Call;
use plain::board::{BLACK, EMPTY, WHITE};
use plain::{Game, Reason};

/// The kinds that a call shows, from the game before it and after it.
pub fn kinds(before: &Game, call: &Call, reason: Reason, after: &Game) -> Vec<String> {
    let mut kinds = vec![format!("{} {reason:?}", call.to_string().split(' ').next().unwrap_or(""))];
    match *call {
        Call::Stone(row, column) => {
            tests(&mut kinds, before, row, column, before.flags);
            if reason == Reason::Accepted {
                laid(&mut kinds, before, after);
            }
        }
        Call::Check(row, column, flags) => tests(&mut kinds, before, row, column, flags as u64),
        Call::Pass => kinds.push(format!("pass with {} passes, ko point {}", before.passes, before.ko.is_some())),
        Call::Resume => kinds.push(format!("resume with {} passes, ko point {}", before.passes, before.ko.is_some())),
        Call::ResignBlack | Call::ResignWhite => {
            kinds.push(format!("resign {} over {} with {} passes", after.outcome, before.outcome, before.passes))
        }
        Call::Legals(flags) if flags < 16 => {
            kinds.push(format!("legals by {flags}"));
            kinds.push(format!("legals with {} passes", before.passes));
        }
        _ => {}
    }
    kinds
}

fn tests(kinds: &mut Vec<String>, game: &Game, row: u128, column: u128, flags: u64) {
    if row > 18 || column > 18 || flags > 15 {
        return;
    }
    let Some(point) = game.board.point(row as u64, column as u64).filter(|&point| game.board.colours[point] == EMPTY) else {
        return;
    };
    // Which tests hold, with the flags that ask them: the order of the answers.
    let holds = [game.suicide(point), game.ko_holds(point), game.eye(point) != Reason::Accepted, game.superko(point) != Reason::Accepted];
    kinds.push(format!("tests {holds:?} by {flags}"));
    kinds.push(suicide(game, point));
    kinds.push(eye(game, point));
    kinds.push(format!("tests with {} passes", game.passes));
    if game.ko == Some(point) {
        kinds.push(ko(game, point));
    }
    let recorded = game.is_recorded(&game.laid(point).0);
    let captures = beside(game, point, game.enemy()).iter().any(|&(_, liberties)| liberties == 1);
    kinds.push(format!("superko: {} records, captures {captures}, ko {}, recorded {recorded}", game.records.len().min(4), game.ko_holds(point)));
}

/// The neighbouring chains of a colour, each once: stones and liberties.
fn beside(game: &Game, point: usize, colour: u8) -> Vec<(usize, usize)> {
    let mut seen = Vec::new();
    let mut chains = Vec::new();
    for next in game.board.neighbours(point).filter(|&next| game.board.colours[next] == colour && colour != EMPTY) {
        let chain = game.board.chain(next);
        let least = *chain.stones.iter().min().expect("a stone");
        if !seen.contains(&least) {
            seen.push(least);
            chains.push((chain.stones.len(), chain.liberties.len()));
        }
    }
    chains
}

fn suicide(game: &Game, point: usize) -> String {
    let empty = game.board.neighbours(point).filter(|&next| game.board.colours[next] == EMPTY).count();
    let liberties = |colour| {
        let mut few: Vec<usize> = beside(game, point, colour).iter().map(|&(_, liberties)| liberties.min(2)).collect();
        few.sort();
        few
    };
    format!("suicide: empty {}, own {:?}, enemy {:?}", empty.min(1), liberties(game.turn), liberties(game.enemy()))
}

/// At the ko point: which chains beside it keep the test from holding.
fn ko(game: &Game, point: usize) -> String {
    let large = |colour| beside(game, point, colour).iter().any(|&(stones, liberties)| liberties == 1 && stones > 1);
    format!("ko: large own chain in atari {}, large enemy chain in atari {}", large(game.turn), large(game.enemy()))
}

/// The way through the eye test: own or off-board corners, then what each empty diagonal said, then where another order would tell another.
fn eye(game: &Game, point: usize) -> String {
    let board = &game.board;
    if board.neighbours(point).any(|next| board.colours[next] != game.turn) {
        let colours = [EMPTY, BLACK, WHITE].map(|colour| board.neighbours(point).any(|next| board.colours[next] == colour));
        return format!("eye: no cross {}", colours.iter().filter(|&&there| there).count());
    }
    let count = board.own_or_off_corners(point, game.turn);
    let mut way = format!("eye: {count}");
    if count != 2 && count != 3 {
        return way;
    }
    let mut decided = None;
    for (place, corner) in board.corners(point).into_iter().enumerate() {
        let Some(corner) = corner.filter(|&corner| board.colours[corner] == EMPTY) else {
            continue;
        };
        let its = board.own_or_off_corners(corner, game.turn);
        let says = if board.neighbours(corner).any(|next| board.colours[next] == game.enemy()) {
            Some(false)
        } else {
            (its == 2 || its == 3).then_some(true)
        };
        match (decided, says) {
            (None, Some(false)) => way = format!("{way}, {place} enemy"),
            (None, _) => way = format!("{way}, {place} has {its}"),
            (Some(first), Some(later)) if first != later => way = format!("{way}, before {place}"),
            _ => {}
        }
        decided = decided.or(says);
    }
    way
}

fn laid(kinds: &mut Vec<String>, before: &Game, after: &Game) {
    let sizes = |chains: &[Vec<usize>]| {
        let mut few: Vec<usize> = chains.iter().map(|chain| chain.len().min(3)).collect();
        few.sort();
        few
    };
    let (enemy, own) = (sizes(&after.taken.enemy), sizes(&after.taken.own));
    kinds.push(format!("laid by {}: took {enemy:?}, own {own:?}, ko point {}", before.turn, after.ko.is_some()));
    kinds.push(format!(
        "laid: new record {}, ko point before {}, {} passes",
        after.records.len() > before.records.len(),
        before.ko.is_some(),
        before.passes
    ));
    kinds.push(format!("laid with flags {}, took {}", before.flags, !enemy.is_empty()));
    kinds.push(format!("laid: room left {}", (after.capacity as usize - after.records.len()).min(2)));
}
