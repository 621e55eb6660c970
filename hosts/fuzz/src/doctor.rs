//! States and histories changed by hand. Some of the changes leave a true state, so that calls go far; most do not.

use crate::input::Cell;
use crate::meaning;
use crate::memory::boxed;
use crate::model;
use plain::board::{BLACK, EMPTY, WHITE};
use samtrekhu::raw::{self, Board, Game, RECORD_BYTES, SLOTS};

/// A number that may be a near miss of what is there.
fn number(now: u64, choice: u8, wide: u64) -> u64 {
    match choice % 8 {
        0 => now.wrapping_add(1),
        1 => now.wrapping_sub(1),
        2 => 0,
        3 => wide & 3,
        4 => u64::MAX,
        5 => now ^ (1 << (wide & 63)),
        6 => wide & 0xff,
        _ => wide,
    }
}

fn wide(cell: &Cell) -> u64 {
    u64::from_le_bytes(std::array::from_fn(|at| cell.at(4 + at)))
}

/// A point of the board, or one of the few behind it.
fn point(board: &Board, byte: u8, more: u8) -> usize {
    let area = (board.height as usize * board.width as usize).clamp(1, raw::MAX_AREA);
    let wide = byte as usize + 256 * more as usize;
    if more >= 250 {
        wide % raw::MAX_AREA
    } else {
        wide % area
    }
}

/// A ko point where it may matter, if there is such a place.
fn ko(board: &Board, byte: u8, more: u8) -> u16 {
    let aims = meaning::aims(board, raw::NO_POINT);
    if aims.is_empty() || more >= 200 {
        point(board, byte, more) as u16
    } else {
        aims[byte as usize % aims.len()]
    }
}

pub fn board(board: &mut Board, cell: &Cell) {
    let (choice, wide) = (cell.at(3), wide(cell));
    let at = point(board, cell.at(0), cell.at(1));
    let used = || (0..SLOTS).filter(|&slot| board.chains[slot].count > 0);
    let count = used().count();
    // mostly a used slot
    let slot = if count > 0 && cell.at(2) < 224 { used().nth(cell.at(0) as usize % count).unwrap_or(0) } else { (wide % SLOTS as u64) as usize };
    match cell.extra % 12 {
        0 => edit_byte(board, cell),
        1 => board.height = number(board.height as u64, choice, wide) as u8,
        2 => board.width = number(board.width as u64, choice, wide) as u8,
        3 => board.hash = number(board.hash, choice, wide),
        4 => {
            board.owners[at] = match choice % 4 {
                0 => slot as u16,
                1 => raw::NO_CHAIN,
                2 => raw::NO_CHAIN + 1 + (wide & 1) as u16,
                _ => number(board.owners[at] as u64, choice / 4, wide) as u16,
            }
        }
        5 => {
            let from = match choice % 3 {
                0 => at,
                1 => board.chains[slot].origin as usize,
                _ => board.chains[slot].last as usize,
            };
            let from = from.min(raw::MAX_AREA - 1);
            board.next[from] = match choice / 3 % 4 {
                0 => at as u16,
                1 => point(board, cell.at(2), cell.at(4)) as u16,
                2 => raw::MAX_AREA as u16 + (wide & 1) as u16,
                _ => number(board.next[from] as u64, choice / 12, wide) as u16,
            }
        }
        6 if choice & 1 == 0 => board.chains[slot].colour ^= BLACK ^ WHITE,
        6 => board.chains[slot].colour = number(board.chains[slot].colour as u64, choice / 2, wide) as u8,
        7 => board.chains[slot].origin = number(board.chains[slot].origin as u64, choice, wide) as u16,
        8 => board.chains[slot].last = number(board.chains[slot].last as u64, choice, wide) as u16,
        9 => board.chains[slot].count = number(board.chains[slot].count as u64, choice, wide) as u16,
        10 => board.chains[slot].liberties[at / 8] ^= 1 << (at % 8),
        _ => change_slot(board, slot, (wide % SLOTS as u64) as usize),
    }
}

/// Two slots change places, owners and all: the board stays true.
fn change_slot(board: &mut Board, one: usize, other: usize) {
    board.chains.swap(one, other);
    for owner in &mut board.owners {
        if *owner as usize == one {
            *owner = other as u16;
        } else if *owner as usize == other {
            *owner = one as u16;
        }
    }
}

fn edit_byte<T: Copy>(state: &mut T, cell: &Cell) {
    // states are numbers throughout, so that any byte may hold anything
    let bytes = unsafe { std::slice::from_raw_parts_mut(state as *mut T as *mut u8, size_of::<T>()) };
    let at = (cell.at(0) as usize + 256 * cell.at(1) as usize) % bytes.len();
    bytes[at] = number(bytes[at] as u64, cell.at(3), wide(cell)) as u8;
}

pub fn game(game: &mut Game, length: usize, cell: &Cell) {
    let (choice, wide) = (cell.at(3), wide(cell));
    match cell.extra % 24 {
        0 => edit_byte(game, cell),
        1 => game.flags = number(game.flags as u64, choice, wide) as u8,
        2 => game.flags = (wide & 15) as u8,
        3 => game.turn = number(game.turn as u64, choice, wide) as u8,
        4 => game.passes = number(game.passes as u64, choice, wide) as u8,
        5 => game.outcome = number(game.outcome as u64, choice, wide) as u8,
        6 => game.begun = number(game.begun as u64, choice, wide) as u8,
        7 => game.ko = number(game.ko as u64, choice, wide) as u16,
        8 => game.ko = ko(&game.board, cell.at(0), cell.at(1)),
        9 => game.handicap = number(game.handicap as u64, choice, wide) as u16,
        10 => game.accepted = number(game.accepted as u64, choice, wide) as u16,
        11 => game.held.black = number(game.held.black as u64, choice, wide) as u32,
        12 => game.held.white = number(game.held.white as u64, choice, wide) as u32,
        13 => game.put.black = number(game.put.black as u64, choice, wide) as u32,
        14 => game.put.white = number(game.put.white as u64, choice, wide) as u32,
        15 => game.records = number(game.records as u64, choice, wide) as usize,
        16 => {
            // as many records as there is room for, or one more; only a begun game may have some
            game.records = (length / RECORD_BYTES + 1).saturating_sub(cell.at(0) as usize % 4);
            game.begun = 1;
        }
        17 | 18 => age(game, cell),
        _ => board(&mut game.board, cell),
    }
}

/// Stones of former days, all taken: the state stays true, and comes near the limit of stones.
fn age(game: &mut Game, cell: &Cell) {
    let room = u16::MAX - game.accepted;
    let more = if cell.at(0) < 128 { room.saturating_sub(cell.at(0) as u16 % 4) } else { room.min(cell.at(1) as u16) };
    let black = more as u32 / 2;
    let white = more as u32 - black;
    game.accepted += more;
    for tally in [&mut game.held, &mut game.put] {
        tally.black = tally.black.wrapping_add(black);
        tally.white = tally.white.wrapping_add(white);
    }
    game.begun = 1;
}

/// A game in full swing on a board: true if the board is.
pub fn found(fresh: &Game, board: &Board, cell: &Cell) -> Box<Game> {
    let mut game = boxed(fresh);
    unsafe { std::ptr::copy_nonoverlapping(board, &mut game.board, 1) };
    let area = board.height as usize * board.width as usize;
    if (1..=raw::MAX_AREA).contains(&area) {
        let colours = model::colours(board);
        game.put.black = model::stones(&colours, BLACK) as u32;
        game.put.white = model::stones(&colours, WHITE) as u32;
    }
    game.accepted = (game.put.black + game.put.white) as u16;
    game.flags = cell.value % 16;
    game.turn = 1 + cell.extra % 2;
    game.ko = if cell.extra & 2 == 0 { raw::NO_POINT } else { ko(board, cell.row, cell.column) };
    game.begun = 1;
    game
}

pub fn history(history: &mut [u8], present: &Board, cell: &Cell) {
    if history.is_empty() {
        return;
    }
    let records = history.len() / RECORD_BYTES;
    let at = (cell.at(0) as usize + 256 * cell.at(1) as usize) % history.len();
    let area = present.height as usize * present.width as usize;
    match cell.extra % 4 {
        0 if records > 0 && (1..=raw::MAX_AREA).contains(&area) => {
            // the present board's record somewhere, or all but its hash
            let mut record = model::colours(present).record();
            if cell.extra & 4 != 0 {
                record[cell.at(2) as usize % RECORD_BYTES] ^= 1;
            }
            history[at / RECORD_BYTES % records * RECORD_BYTES..][..RECORD_BYTES].copy_from_slice(&record);
        }
        1 => history[at] = cell.at(3),
        2 => history.fill(cell.at(3)),
        _ if records > 1 => {
            let to = (at / RECORD_BYTES + 1) % records;
            history.copy_within(0..RECORD_BYTES, to * RECORD_BYTES);
        }
        _ => history[at] = EMPTY,
    }
}
