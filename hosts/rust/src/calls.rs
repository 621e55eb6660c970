//! The calls that lend a slice: the only unsafe code of this crate.
//!
//! Each is sound for one reason: the pointer and the length that it hands over are those of a slice that it borrows for as long as the call runs, and the
//! library reads and writes nothing beyond a length. What the numbers say is the library's to judge.

use crate::raw::{self, Board, Game, Listed, Move, Placed, ReplayedInPlace, TestAnswer};

pub fn from_colours(height: u8, width: u8, colours: &[u8]) -> Placed {
    unsafe { raw::samtrekhu_from_colours(height, width, colours.as_ptr(), colours.len()) }
}

pub fn get_stones(board: &Board, buffer: &mut [u16]) -> Listed {
    unsafe { raw::samtrekhu_get_stones(*board, buffer.as_mut_ptr(), buffer.len()) }
}

pub fn get_coords_by_color(board: &Board, colour: u8, buffer: &mut [u16]) -> Listed {
    unsafe { raw::samtrekhu_get_coords_by_color(*board, colour, buffer.as_mut_ptr(), buffer.len()) }
}

pub fn get_empty_coords(board: &Board, buffer: &mut [u16]) -> Listed {
    unsafe { raw::samtrekhu_get_empty_coords(*board, buffer.as_mut_ptr(), buffer.len()) }
}

pub fn chain_stones(board: &Board, row: u8, column: u8, buffer: &mut [u16]) -> Listed {
    unsafe { raw::samtrekhu_chain_stones(*board, row, column, buffer.as_mut_ptr(), buffer.len()) }
}

pub fn chain_liberties(board: &Board, row: u8, column: u8, buffer: &mut [u16]) -> Listed {
    unsafe { raw::samtrekhu_chain_liberties(*board, row, column, buffer.as_mut_ptr(), buffer.len()) }
}

pub fn get_connected_points(board: &Board, row: u8, column: u8, buffer: &mut [u16]) -> Listed {
    unsafe { raw::samtrekhu_get_connected_points(*board, row, column, buffer.as_mut_ptr(), buffer.len()) }
}

pub fn get_connected_stones(board: &Board, row: u8, column: u8, buffer: &mut [u16]) -> Listed {
    unsafe { raw::samtrekhu_get_connected_stones(*board, row, column, buffer.as_mut_ptr(), buffer.len()) }
}

pub fn get_liberties(board: &Board, row: u8, column: u8, buffer: &mut [u16]) -> Listed {
    unsafe { raw::samtrekhu_get_liberties(*board, row, column, buffer.as_mut_ptr(), buffer.len()) }
}

pub fn get_connected_groups(board: &Board, row: u8, column: u8, buffer: &mut [u16]) -> Listed {
    unsafe { raw::samtrekhu_get_connected_groups(*board, row, column, buffer.as_mut_ptr(), buffer.len()) }
}

pub fn to_vec(board: &Board, buffer: &mut [u8]) -> Listed {
    unsafe { raw::samtrekhu_to_vec(*board, buffer.as_mut_ptr(), buffer.len()) }
}

pub fn pretty_string(board: &Board, buffer: &mut [u8]) -> Listed {
    unsafe { raw::samtrekhu_pretty_string(*board, buffer.as_mut_ptr(), buffer.len()) }
}

pub fn check_point(game: &Game, history: &[u8], row: u8, column: u8) -> u8 {
    unsafe { raw::samtrekhu_check_point(*game, history.as_ptr(), history.len(), row, column) }
}

pub fn check_point_by(game: &Game, history: &[u8], flags: u8, row: u8, column: u8) -> u8 {
    unsafe { raw::samtrekhu_check_point_by(*game, history.as_ptr(), history.len(), flags, row, column) }
}

pub fn legals(game: &Game, history: &[u8], buffer: &mut [u16]) -> Listed {
    unsafe { raw::samtrekhu_legals(*game, history.as_ptr(), history.len(), buffer.as_mut_ptr(), buffer.len()) }
}

pub fn legals_by(game: &Game, history: &[u8], flags: u8, buffer: &mut [u16]) -> Listed {
    unsafe { raw::samtrekhu_legals_by(*game, history.as_ptr(), history.len(), flags, buffer.as_mut_ptr(), buffer.len()) }
}

pub fn empty_points(game: &Game, buffer: &mut [u16]) -> Listed {
    unsafe { raw::samtrekhu_empty_points(*game, buffer.as_mut_ptr(), buffer.len()) }
}

pub fn is_superko_at(game: &Game, history: &[u8], row: u8, column: u8) -> TestAnswer {
    unsafe { raw::samtrekhu_is_superko_at(*game, history.as_ptr(), history.len(), row, column) }
}

pub fn stone_in_place(game: &mut Game, history: &mut [u8], row: u8, column: u8) -> u8 {
    unsafe { raw::samtrekhu_stone_in_place(game, history.as_mut_ptr(), history.len(), row, column) }
}

pub fn handicap_in_place(game: &mut Game, spots: &[u16]) -> u8 {
    unsafe { raw::samtrekhu_handicap_in_place(game, spots.as_ptr(), spots.len()) }
}

pub fn replay_in_place(game: &mut Game, history: &mut [u8], moves: &[Move]) -> ReplayedInPlace {
    unsafe { raw::samtrekhu_replay_in_place(game, history.as_mut_ptr(), history.len(), moves.as_ptr(), moves.len()) }
}
