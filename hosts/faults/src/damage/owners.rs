//! Owners of points.

use super::{kinds, Kind};
use crate::made::area;
use samtrekhu::raw::{MAX_AREA, NO_CHAIN};

kinds! {
    "owner beyond the area": |s| {
        let all = area(&s.game.board);
        if all == MAX_AREA {
            return None;
        }
        let point = all + s.random.below(MAX_AREA - all);
        let used = s.any_slot() as u16;
        s.game.board.owners[point] = s.random.pick(&[0, used, 288, 290, u16::MAX])?;
        Some(())
    },
    "owner an unused slot": |s| {
        let (point, slot) = (s.board_point()?, s.free_slot()?);
        s.game.board.owners[point] = slot as u16;
        Some(())
    },
    "owner beyond the slots": |s| {
        let point = s.board_point()?;
        s.game.board.owners[point] = s.random.pick(&[290, 291, 361, 0x7FFF, 0x8000, 65534, 65535])?;
        Some(())
    },
    "owner of an empty point a used slot": |s| {
        let (point, slot) = (s.empty_point()?, s.slot()?);
        s.game.board.owners[point] = slot as u16;
        Some(())
    },
    "owner of a stone no chain": |s| {
        let point = s.stone()?;
        s.game.board.owners[point] = NO_CHAIN;
        Some(())
    },
    "owner of a stone another used slot": |s| {
        let (point, slot) = (s.stone()?, s.slot()?);
        s.game.board.owners[point] = slot as u16;
        Some(())
    },
    "owners of two points swapped": |s| {
        let (one, other) = (s.board_point()?, s.board_point()?);
        s.game.board.owners.swap(one, other);
        Some(())
    },
}
