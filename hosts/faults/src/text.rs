//! A state as text, for a report.

use crate::made::{area, colour_at, stones};
use samtrekhu::raw::{Game, MAX_AREA, NO_CHAIN, SLOTS};
use std::fmt::Write;

pub fn state(game: &Game) -> String {
    let board = &game.board;
    let mut text = format!("height {} width {} hash {:#018x}\n", board.height, board.width, board.hash);
    let width = usize::from(board.width).max(1);
    for row in 0..area(board).div_ceil(width) {
        let signs = (row * width..((row + 1) * width).min(area(board))).map(|point| match (colour_at(board, point), board.owners[point]) {
            (1, _) => '●',
            (2, _) => '○',
            (0, NO_CHAIN) => '·',
            _ => '?',
        });
        let _ = writeln!(text, "  {}", signs.collect::<String>());
    }
    for slot in (0..SLOTS).filter(|&slot| board.chains[slot].count != 0) {
        let chain = &board.chains[slot];
        let liberties: Vec<usize> = (0..8 * chain.liberties.len()).filter(|point| chain.liberties[point / 8] >> (point % 8) & 1 == 1).collect();
        let _ = writeln!(
            text,
            "slot {slot}: colour {} origin {} last {} count {} liberties {liberties:?} owns {:?}",
            chain.colour,
            chain.origin,
            chain.last,
            chain.count,
            stones(board, slot)
        );
    }
    for point in 0..MAX_AREA {
        let (owner, on_board) = (board.owners[point], point < area(board));
        if owner != NO_CHAIN {
            let place = if on_board { "" } else { ", beyond the area" };
            let _ = writeln!(text, "point {point}: owner {owner}, link {}{place}", board.next[point]);
        }
    }
    let _ =
        writeln!(text, "flags {} turn {} passes {} outcome {} begun {} ko {}", game.flags, game.turn, game.passes, game.outcome, game.begun, game.ko);
    let _ = writeln!(text, "handicap {} accepted {} held {:?} put {:?} records {}", game.handicap, game.accepted, game.held, game.put, game.records);
    text
}
