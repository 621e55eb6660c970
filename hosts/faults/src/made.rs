//! States made by hand: slots that hold given points, boards from colours (a chain without liberty is not refused), sums that hold.

use crate::judge::{neighbours, stone_hash};
use random::Random;
use samtrekhu::raw::colours::{BLACK, WHITE};
use samtrekhu::raw::{Board, Chain, Game, Tally, LIBERTY_BYTES, MAX_AREA, NO_CHAIN, NO_POINT, SLOTS};

pub const FREE: Chain = Chain { liberties: [0; LIBERTY_BYTES], colour: 0, origin: 0, last: 0, count: 0 };

/// A game on the heap of which every number is 0.
pub fn nothing() -> Box<Game> {
    // all fields are whole numbers, so zero bytes are a value
    unsafe { Box::<Game>::new_zeroed().assume_init() }
}

/// The on-board points, as far as the arrays reach.
pub fn area(board: &Board) -> usize {
    (usize::from(board.height) * usize::from(board.width)).min(MAX_AREA)
}

/// The neighbours of a point, on a board whose sizes may be out of range.
pub fn beside(board: &Board, point: usize) -> Vec<usize> {
    let all = area(board);
    if point >= all {
        return Vec::new();
    }
    neighbours(board.height.into(), board.width.into(), point).filter(|&other| other < all).collect()
}

pub fn stones(board: &Board, slot: usize) -> Vec<usize> {
    (0..area(board)).filter(|&point| usize::from(board.owners[point]) == slot).collect()
}

pub fn colour_at(board: &Board, point: usize) -> u8 {
    board.chains.get(usize::from(board.owners[point])).map_or(0, |chain| if chain.count == 0 { 0 } else { chain.colour })
}

pub fn colours(board: &Board) -> Vec<u8> {
    (0..area(board)).map(|point| colour_at(board, point)).collect()
}

pub fn hash(board: &Board) -> u64 {
    let colours = colours(board);
    colours.iter().enumerate().filter(|(_, &colour)| colour != 0).fold(0, |sum, (point, &colour)| sum ^ stone_hash(point, colour))
}

/// The empty points beside these.
pub fn liberties(board: &Board, points: &[usize]) -> [u8; LIBERTY_BYTES] {
    let mut set = [0; LIBERTY_BYTES];
    for &point in points {
        for other in beside(board, point).into_iter().filter(|&other| board.owners[other] == NO_CHAIN) {
            set[other / 8] |= 1 << (other % 8);
        }
    }
    set
}

/// Makes a slot own these points, with links in any order from the least one, and count, origin and last to fit. The liberties come later.
pub fn hold(board: &mut Board, slot: usize, colour: u8, points: &[usize], random: &mut Random) {
    let mut ring = points.to_vec();
    ring.sort_unstable();
    random.shuffle(&mut ring[1..]);
    for (at, &point) in ring.iter().enumerate() {
        board.owners[point] = slot as u16;
        board.next[point] = ring[(at + 1) % ring.len()] as u16;
    }
    let (origin, last, count) = (ring[0] as u16, ring[ring.len() - 1] as u16, ring.len() as u16);
    board.chains[slot] = Chain { liberties: [0; LIBERTY_BYTES], colour, origin, last, count };
}

pub fn refresh_liberties(board: &mut Board) {
    for slot in 0..SLOTS {
        if board.chains[slot].count != 0 {
            board.chains[slot].liberties = liberties(board, &stones(board, slot));
        }
    }
}

/// The points of the same number in `values` that are joined to this one.
pub fn joined<T: PartialEq>(board: &Board, values: &[T], point: usize) -> Vec<usize> {
    let mut seen = vec![false; MAX_AREA];
    seen[point] = true;
    let mut set = vec![point];
    let mut at = 0;
    while at < set.len() {
        for other in beside(board, set[at]) {
            if values[other] == values[point] && !seen[other] {
                seen[other] = true;
                set.push(other);
            }
        }
        at += 1;
    }
    set
}

/// Lays these colours, one a point, on a board whose sizes are in range. False if the table is too short, which only chains without liberty bring about.
pub fn lay_out(board: &mut Board, colours: &[u8], random: &mut Random) -> bool {
    board.owners = [NO_CHAIN; MAX_AREA];
    board.chains = [FREE; SLOTS];
    let mut slots: Vec<usize> = (0..SLOTS).collect();
    if random.one_in(2) {
        random.shuffle(&mut slots);
    }
    for point in 0..area(board) {
        if colours[point] != 0 && board.owners[point] == NO_CHAIN {
            let Some(slot) = slots.pop() else { return false };
            let set = joined(board, colours, point);
            hold(board, slot, colours[point], &set, random);
        }
    }
    refresh_liberties(board);
    board.hash = hash(board);
    true
}

pub fn on_board(board: &Board) -> Tally {
    let colours = colours(board);
    let count = |colour: u8| colours.iter().filter(|&&c| c == colour).count() as u32;
    Tally { black: count(BLACK), white: count(WHITE) }
}

/// Makes a begun game's sums fit its board: stones put, and handicap and accepted stones.
pub fn settle(game: &mut Game) {
    let stones = on_board(&game.board);
    if u64::from(game.held.black) + u64::from(game.held.white) > 60_000 {
        game.held = Tally { black: 0, white: 0 };
    }
    game.put = Tally { black: stones.black + game.held.black, white: stones.white + game.held.white };
    let put = game.put.black + game.put.white;
    game.handicap = u32::from(game.handicap).min(put).min(MAX_AREA as u32) as u16;
    game.accepted = (put - u32::from(game.handicap)) as u16;
    game.begun = game.begun.max(1);
}

/// Makes this the game that has not begun, of the same sizes and flags.
pub fn clear(game: &mut Game) {
    game.board.hash = 0;
    game.board.owners = [NO_CHAIN; MAX_AREA];
    game.board.chains = [FREE; SLOTS];
    let none = Tally { black: 0, white: 0 };
    (game.passes, game.outcome, game.begun, game.ko, game.handicap, game.accepted, game.records) = (0, 0, 0, NO_POINT, 0, 0, 0);
    (game.held, game.put) = (none, none);
}
