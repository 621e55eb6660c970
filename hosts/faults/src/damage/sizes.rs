//! Sizes that do not fit.

use super::{kinds, Kind};
use crate::made::{area, clear};
use samtrekhu::raw::MAX_SIDE;

kinds! {
    "sizes swapped": |s| {
        let board = &mut s.game.board;
        std::mem::swap(&mut board.height, &mut board.width);
        Some(())
    },
    "a size out of range": |s| {
        let size = s.random.pick(&[0, 20, 21, 128, 255])?;
        let board = &mut s.game.board;
        *(if s.random.one_in(2) { &mut board.height } else { &mut board.width }) = size;
        Some(())
    },
    "a size out of range on an empty board": |s| {
        clear(s.game);
        let short = 1 + s.random.below(18) as u8;
        let size = s.random.pick(&[0, 20, 24, 40, 255])?;
        let sides = if s.random.one_in(2) { (size, short) } else { (short, size) };
        (s.game.board.height, s.game.board.width) = sides;
        Some(())
    },
    "other sizes of the same area": |s| {
        let all = area(&s.game.board);
        let sides: Vec<usize> = (1..=MAX_SIDE.into()).filter(|&side| all.is_multiple_of(side) && all / side <= MAX_SIDE.into()).collect();
        let side = s.random.pick(&sides)?;
        (s.game.board.height, s.game.board.width) = (side as u8, (all / side) as u8);
        Some(())
    },
    "one row or column more or less": |s| {
        let add = s.random.pick(&[1, u8::MAX])?;
        let board = &mut s.game.board;
        let side = if s.random.one_in(2) { &mut board.height } else { &mut board.width };
        *side = side.wrapping_add(add);
        Some(())
    },
}
