//! Whole boards.

use super::{kinds, Kind};
use crate::made::{area, beside, colours, liberties, settle, stones};
use samtrekhu::raw::colours::{BLACK, WHITE};
use samtrekhu::raw::NO_POINT;

kinds! {
    "board of another game": |s| {
        s.game.board = s.other.board;
        Some(())
    },
    "board of another game, sums to fit": |s| {
        s.game.board = s.other.board;
        s.game.ko = NO_POINT;
        settle(s.game);
        Some(())
    },
    "chains of another game": |s| {
        s.game.board.chains = s.other.board.chains;
        Some(())
    },
    "owners of another game": |s| {
        s.game.board.owners = s.other.board.owners;
        Some(())
    },
    "links of another game": |s| {
        s.game.board.next = s.other.board.next;
        Some(())
    },
    "sums of another game": |s| {
        (s.game.held, s.game.put, s.game.accepted, s.game.handicap) = (s.other.held, s.other.put, s.other.accepted, s.other.handicap);
        Some(())
    },
    "board from random colours, sums to fit": |s| {
        let empty = s.random.below(9);
        s.lay_colours(|_, random| if random.below(8) < empty { 0 } else { 1 + random.byte() % 2 })
    },
    "board full but for one point": |s| {
        let point = s.board_point()?;
        s.lay_colours(|at, random| if at == point { 0 } else { 1 + random.byte() % 2 })
    },
    "board of one colour": |s| {
        let (colour, empty) = (s.colour(), s.random.below(3));
        s.lay_colours(|_, random| if random.below(40) < empty { 0 } else { colour })
    },
    "most chains": |s| {
        // a checkered board with a hole beside each stone
        let board = &s.game.board;
        let (width, hole) = (usize::from(board.width).max(1), s.random.below(5));
        let is_hole = |at: usize| (at / width * 2 + at % width) % 5 == hole;
        let holes: Vec<bool> = (0..area(board)).map(|at| is_hole(at) || !beside(board, at).into_iter().any(is_hole)).collect();
        s.lay_colours(|at, _| if holes[at] { 0 } else { 1 + ((at / width + at % width) % 2) as u8 })
    },
    "a chain smothered": |s| {
        // its liberties are taken by the enemy, the board laid out again
        let slot = s.slot()?;
        let before = colours(&s.game.board);
        let near = liberties(&s.game.board, &stones(&s.game.board, slot));
        let enemy = 3u8.wrapping_sub(s.game.board.chains[slot].colour).clamp(BLACK, WHITE);
        s.lay_colours(|at, _| if near[at / 8] >> (at % 8) & 1 == 1 { enemy } else { before[at].min(WHITE) })
    },
    "a lone stone without liberty": |s| {
        let point = s.board_point()?;
        let (before, near, colour) = (colours(&s.game.board), beside(&s.game.board, point), s.colour());
        s.lay_colours(|at, _| if at == point { colour } else if near.contains(&at) { 3 - colour } else { before[at].min(WHITE) })
    },
}
