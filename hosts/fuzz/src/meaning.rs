//! What the bytes of a cell mean: mostly something that goes far, at times anything at all.

use crate::desk::Asked;
use crate::input::Cell;
use crate::world::SEATS;
use plain::board::{Board as Colours, BLACK, EMPTY, WHITE};
use samtrekhu::raw::{kinds, Board, Chain, Move, MAX_AREA, MAX_SIDE, NO_POINT};

/// Mostly a game's own history.
pub fn history_of(cell: &Cell) -> usize {
    let other = if cell.seat & 0x18 == 0x18 { 1 } else { 0 };
    (cell.seat as usize % SEATS + other) % SEATS
}

/// The side of a board: mostly small, at times any byte.
fn side(byte: u8) -> u8 {
    match byte {
        0..150 => 1 + byte % 5,
        150..225 => 1 + byte % 9,
        225..244 => byte - 224,
        244 => 0,
        245 => 20,
        _ => byte,
    }
}

/// Each side by itself, or the square boards up to the largest, or the very small ones, where boards come back.
pub fn sizes(cell: &Cell) -> (u8, u8) {
    match cell.extra {
        0..8 => (MAX_SIDE, MAX_SIDE),
        8..28 => (cell.extra - 8 + cell.length % 2, cell.extra - 8),
        28..52 => (1 + cell.length % 2, 1 + cell.extra % 3),
        _ => (side(cell.row), side(cell.column)),
    }
}

pub fn flags(byte: u8) -> u8 {
    if byte < 248 {
        byte % 16
    } else {
        byte
    }
}

/// Where something may happen: the ko point, and the last liberty of each chain in atari.
pub fn aims(board: &Board, ko: u16) -> Vec<u16> {
    let last_liberty = |chain: &Chain| {
        let one = chain.count > 0 && chain.liberties.iter().map(|byte| byte.count_ones()).sum::<u32>() == 1;
        let byte = chain.liberties.iter().position(|&byte| byte != 0).filter(|_| one)?;
        Some((8 * byte) as u16 + chain.liberties[byte].trailing_zeros() as u16)
    };
    let known = (ko != NO_POINT).then_some(ko);
    known.into_iter().chain(board.chains.iter().filter_map(last_liberty)).collect()
}

/// A point: every other is one of those where something may happen.
pub fn aimed(cell: &Cell, board: &Board, ko: u16) -> (u8, u8) {
    let aims = if cell.side & 8 == 8 { aims(board, ko) } else { Vec::new() };
    if aims.is_empty() || board.width == 0 {
        return (on(cell.row, board.height), on(cell.column, board.width));
    }
    let (point, width) = (aims[cell.row as usize % aims.len()], u16::from(board.width));
    ((point / width) as u8, (point % width) as u8)
}

/// A row or column: mostly on the board.
fn on(byte: u8, side: u8) -> u8 {
    match byte {
        0..240 if side > 0 => byte % side,
        240..248 => side.wrapping_add(byte - 240),
        _ => byte,
    }
}

pub fn asked(cell: &Cell, board: &Board, ko: u16) -> Asked {
    let (row, column) = aimed(cell, board, ko);
    // a second point that may be a neighbour
    let (other_row, other_column) = match cell.extra {
        0..40 => (row.wrapping_add(1), column),
        40..80 => (row.wrapping_sub(1), column),
        80..120 => (row, column.wrapping_add(1)),
        120..160 => (row, column.wrapping_sub(1)),
        _ => (on(cell.extra - 160, board.height), on(cell.length, board.width)),
    };
    let colour = if cell.value < 240 { cell.value % 3 } else { cell.value };
    Asked { row, column, other_row, other_column, colour, flags: flags(cell.value) }
}

/// A length around what is needed.
pub fn near(needed: usize, byte: u8, most: usize) -> usize {
    let length = match byte {
        0..100 => needed,
        100..130 => needed.saturating_sub(1),
        130..150 => needed + 1,
        150..165 => needed.saturating_sub(2),
        165..180 => needed + byte as usize - 165,
        180..210 => 0,
        _ => byte as usize - 210,
    };
    length.min(most)
}

/// A buffer of points before the call: numbers that are no points.
pub fn places(length: usize, cell: &Cell) -> Vec<u16> {
    (0..length).map(|at| 0x8000 | (at as u16).wrapping_mul(257) ^ cell.extra as u16).collect()
}

/// The colour bytes of a board. A crowded one is given air, so that many of its chains are in atari.
pub fn colours(cell: &Cell, height: u8, width: u8, length: usize) -> Vec<u8> {
    let colours: Vec<u8> = (0..length).map(|at| colour(cell, at)).collect();
    let mut board = Colours { height: height.into(), width: width.into(), colours };
    if cell.value & 1 == 0 || board.area() != length || length > MAX_AREA {
        return board.colours;
    }
    while let Some(chain) = [BLACK, WHITE].into_iter().flat_map(|colour| board.chains(colour)).find(|chain| chain.liberties.is_empty()) {
        board.colours[chain.stones[cell.row as usize % chain.stones.len()]] = EMPTY;
    }
    board.colours
}

fn colour(cell: &Cell, at: usize) -> u8 {
    if cell.rest.is_empty() {
        return EMPTY;
    }
    let byte = cell.rest[at % cell.rest.len()];
    // the second time round the colours differ, so that a short pattern makes no stripes
    let byte = byte.wrapping_add((at / cell.rest.len()) as u8);
    match cell.value {
        250.. => byte,
        _ if cell.value & 1 == 0 => [EMPTY, BLACK, WHITE, EMPTY, BLACK, WHITE, EMPTY, EMPTY][byte as usize % 8],
        _ => [BLACK, WHITE, BLACK, WHITE, BLACK, WHITE, BLACK, EMPTY][byte as usize % 8],
    }
}

pub fn spots(cell: &Cell, board: &Board) -> Vec<u16> {
    let spot = |pair: &[u8]| u16::from(on(pair[0], board.height)) * 256 + u16::from(on(pair.get(1).copied().unwrap_or(0), board.width));
    // now and then the whole board
    if cell.extra > 250 {
        let (height, width) = (board.height.min(19), board.width.min(19));
        return (0..height).flat_map(|row| (0..width).map(move |column| u16::from(row) * 256 + u16::from(column))).collect();
    }
    cell.rest.chunks(2).map(spot).collect()
}

pub fn moves(cell: &Cell, board: &Board) -> Vec<Move> {
    cell.rest
        .chunks(2)
        .map(|pair| {
            let (first, second) = (pair[0], pair.get(1).copied().unwrap_or(0));
            // two thirds are stones
            let kind = match first {
                0..170 => kinds::STONE,
                170..215 => kinds::PASS,
                215..222 => kinds::RESIGN_BLACK,
                222..229 => kinds::RESIGN_WHITE,
                229..252 => kinds::RESUME,
                _ => first,
            };
            let width = board.width.max(1);
            Move { kind, row: on(second / width, board.height), column: on(first.wrapping_add(second) % 240, width) }
        })
        .collect()
}
