//! Changes that leave a true state true.

use super::{kinds, Kind};
use crate::made::{hold, stones};
use samtrekhu::raw::colours::WHITE;
use samtrekhu::raw::{Chain, MAX_AREA, NO_CHAIN, SLOTS};

kinds! {
    "slots renumbered": |s| {
        let mut to: Vec<usize> = (0..SLOTS).collect();
        s.random.shuffle(&mut to);
        let board = &mut s.game.board;
        let before = board.chains;
        for (slot, &place) in to.iter().enumerate() {
            board.chains[place] = before[slot];
        }
        for owner in &mut board.owners {
            *owner = to.get(usize::from(*owner)).map_or(*owner, |&place| place as u16);
        }
        Some(())
    },
    "links in another order": |s| {
        let slot = s.long_slot(2)?;
        let (points, chain) = (stones(&s.game.board, slot), s.game.board.chains[slot]);
        hold(&mut s.game.board, slot, chain.colour, &points, s.random);
        s.game.board.chains[slot].liberties = chain.liberties;
        Some(())
    },
    "turn by another byte": |s| {
        if s.game.turn == WHITE {
            return None;
        }
        s.game.turn = s.random.pick(&[0, 1, 3, 4, 130, 255])?;
        Some(())
    },
    "outcome none by another byte": |s| {
        s.game.outcome = s.random.pick(&[0, 3, 129, 255])?;
        Some(())
    },
    "begun by another byte": |s| {
        if s.game.begun == 0 {
            return None;
        }
        s.game.begun = s.random.pick(&[1, 2, 3, 128, 255])?;
        Some(())
    },
    "unused slots random but for their counts": |s| {
        for slot in 0..SLOTS {
            if s.game.board.chains[slot].count == 0 && s.random.one_in(2) {
                s.game.board.chains[slot] = s.random_chain();
            }
        }
        Some(())
    },
    "an unused slot like a used one": |s| {
        let (slot, free) = (s.slot()?, s.free_slot()?);
        s.game.board.chains[free] = Chain { count: 0, ..s.game.board.chains[slot] };
        Some(())
    },
    "links of empty points and beyond random": |s| {
        for point in 0..MAX_AREA {
            if s.game.board.owners[point] == NO_CHAIN {
                s.game.board.next[point] = if s.random.one_in(2) { s.random.next() as u16 } else { s.random.below(MAX_AREA) as u16 };
            }
        }
        Some(())
    },
    "nothing": |_| { Some(()) },
}
