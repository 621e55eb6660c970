//! Two boards with one hash: a game whose last stone captures and makes a board that only a comparison of hashes takes for an old one.

use plain::board::{Board, BLACK, WHITE};

const SIDE: usize = 19;
/// How many choices of colours are tried for a short game.
const TRIES: u64 = 20_000;

/// A stone as point and colour.
type Stone = (usize, u8);

/// Prints the game: stones around a point, their board recorded, then stones whose entries cancel, the last of them a capture.
pub fn print() {
    let at = |row: usize, column: usize| row * SIDE + column;
    let (around, victim, last) = ([at(0, 0), at(1, 1)], at(0, 1), (at(0, 2), BLACK));
    let rest = (0..TRIES).filter_map(|tries| cancelling(last, &around, tries)).min_by_key(Vec::len).expect("more points than bits");
    println!("# A hash that was there before, with other colours: the last stone is no superko.");
    println!("new {SIDE} {SIDE} 8");
    let stones = |colour| rest.iter().filter(move |stone| stone.1 == colour).map(|stone| stone.0);
    let black: Vec<usize> = around.into_iter().chain(stones(BLACK)).collect();
    // White waits until the first stones stand, so that their board has its record.
    let white: Vec<usize> = stones(WHITE).chain([victim]).collect();
    for turn in 0..black.len().max(white.len() + around.len() - 1) {
        play(black.get(turn).copied());
        play((turn + 1).checked_sub(around.len()).and_then(|turn| white.get(turn).copied()));
    }
    println!("state");
    let (row, column) = (last.0 / SIDE, last.0 % SIDE);
    println!("check {row} {column} 8\nstone {row} {column}\nstate\nstone {} {}\nstate", SIDE - 1, SIDE - 2);
}

fn play(point: Option<usize>) {
    match point {
        Some(point) => println!("stone {} {}", point / SIDE, point % SIDE),
        None => println!("pass"),
    }
}

fn entry(stone: Stone) -> u64 {
    let mut board = Board::empty(SIDE, SIDE);
    board.colours[stone.0] = stone.1;
    board.hash()
}

/// Stones on points that are no neighbours of each other, whose entries give that of the last stone, by Gaussian elimination.
fn cancelling(last: Stone, taken: &[usize], tries: u64) -> Option<Vec<Stone>> {
    let mut random = random::Random::new(tries, 0);
    let mut stones: Vec<Stone> = (0..SIDE * SIDE)
        .filter(|point| (point / SIDE).is_multiple_of(2) && (point % SIDE).is_multiple_of(2) && *point != last.0 && !taken.contains(point))
        .map(|point| (point, *random.of(&[BLACK, WHITE])))
        .collect();
    for place in 0..stones.len() {
        let other = random.between(place, stones.len() - 1);
        stones.swap(place, other);
    }
    // Each row: a value with its highest bit, and which stones give it.
    let mut rows: Vec<(u64, u128)> = Vec::new();
    let reduce = |rows: &[(u64, u128)], mut value: u64, mut which: u128| {
        for &(row, stones) in rows {
            if value & (1 << row.ilog2()) != 0 {
                (value, which) = (value ^ row, which ^ stones);
            }
        }
        (value, which)
    };
    for (place, &stone) in stones.iter().enumerate() {
        let (value, which) = reduce(&rows, entry(stone), 1 << place);
        if value != 0 {
            rows.push((value, which));
        }
    }
    let (value, which) = reduce(&rows, entry(last), 0);
    (value == 0).then(|| stones.iter().enumerate().filter(|(place, _)| which >> place & 1 == 1).map(|(_, &stone)| stone).collect())
}
