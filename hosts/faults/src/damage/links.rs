//! Links, and where a chain's ring begins and ends.

use super::{kinds, Kind};
use crate::made::{area, stones};
use samtrekhu::raw::MAX_AREA;

kinds! {
    "links of two stones swapped": |s| {
        let (one, other) = (s.stone()?, s.stone()?);
        s.game.board.next.swap(one, other);
        Some(())
    },
    "ring made two rings": |s| {
        // swapping what two stones of a ring lead to cuts it in two
        let ring = s.long_chain(2)?;
        let (one, other) = (s.random.pick(&ring)?, s.random.pick(&ring)?);
        s.game.board.next.swap(one, other);
        Some(())
    },
    "ring made too short": |s| {
        let ring = s.long_chain(2)?;
        let at = s.random.pick(&ring)?;
        let board = &mut s.game.board;
        let after = usize::from(board.next[at]);
        board.next[at] = *board.next.get(after)?;
        Some(())
    },
    "ring too short with last to fit": |s| {
        // the stone that is passed over was the last one
        let slot = s.long_slot(3)?;
        let board = &mut s.game.board;
        let chain = &mut board.chains[slot];
        let before = board.next.iter().position(|&next| next == chain.last)?;
        board.next[before] = chain.origin;
        chain.last = before as u16;
        Some(())
    },
    "ring that leaves out its origin": |s| {
        let slot = s.long_slot(2)?;
        let board = &mut s.game.board;
        let chain = board.chains[slot];
        *board.next.get_mut(usize::from(chain.last))? = *board.next.get(usize::from(chain.origin))?;
        Some(())
    },
    "link to itself": |s| {
        let at = s.stone()?;
        s.game.board.next[at] = at as u16;
        Some(())
    },
    "link to an empty point": |s| {
        let (at, to) = (s.stone()?, s.empty_point()?);
        s.game.board.next[at] = to as u16;
        Some(())
    },
    "link by way of an empty point": |s| {
        let (at, by) = (s.stone()?, s.empty_point()?);
        let board = &mut s.game.board;
        board.next[by] = board.next[at];
        board.next[at] = by as u16;
        Some(())
    },
    "link off the board": |s| {
        let at = s.stone()?;
        let all = area(&s.game.board) as u16;
        s.game.board.next[at] = s.random.pick(&[all, 360, 361, 362, 65535])?;
        Some(())
    },
    "rings of two chains made one": |s| {
        // each chain's last leads to the other's origin
        let (one, other) = (s.slot()?, s.slot()?);
        let board = &mut s.game.board;
        let (a, b) = (usize::from(board.chains[one].last), usize::from(board.chains[other].last));
        if a >= MAX_AREA || b >= MAX_AREA {
            return None;
        }
        board.next.swap(a, b);
        Some(())
    },
    "rings of two chains exchanged": |s| {
        let (one, other) = (s.slot()?, s.slot()?);
        let chains = &mut s.game.board.chains;
        let (a, b) = (chains[one], chains[other]);
        (chains[one].origin, chains[one].last) = (b.origin, b.last);
        (chains[other].origin, chains[other].last) = (a.origin, a.last);
        Some(())
    },
    "origin not the least, ring right": |s| {
        let slot = s.long_slot(2)?;
        let steps = 1 + s.random.below(4);
        let board = &mut s.game.board;
        for _ in 0..steps {
            let after = *board.next.get(usize::from(board.chains[slot].origin))?;
            board.chains[slot].last = board.chains[slot].origin;
            board.chains[slot].origin = after;
        }
        Some(())
    },
    "origin another stone": |s| {
        let slot = s.long_slot(2)?;
        let points = stones(&s.game.board, slot);
        s.game.board.chains[slot].origin = s.random.pick(&points)? as u16;
        Some(())
    },
    "last another stone": |s| {
        let slot = s.long_slot(2)?;
        let points = stones(&s.game.board, slot);
        s.game.board.chains[slot].last = s.random.pick(&points)? as u16;
        Some(())
    },
    "last an empty point that leads to origin": |s| {
        let (slot, point) = (s.slot()?, s.empty_point()?);
        let board = &mut s.game.board;
        board.next[point] = board.chains[slot].origin;
        board.chains[slot].last = point as u16;
        Some(())
    },
    "origin and last swapped": |s| {
        let slot = s.long_slot(2)?;
        let chain = &mut s.game.board.chains[slot];
        std::mem::swap(&mut chain.origin, &mut chain.last);
        Some(())
    },
    "ring the other way round": |s| {
        // true if last becomes the stone that now leads to origin
        let slot = s.long_slot(2)?;
        let board = &mut s.game.board;
        let first = usize::from(board.chains[slot].origin);
        let points = stones(board, slot);
        let back: Vec<(usize, usize)> = points.iter().map(|&point| (usize::from(board.next[point]), point)).collect();
        for (from, to) in back {
            *board.next.get_mut(from)? = to as u16;
        }
        if s.random.one_in(2) {
            let last = points.iter().find(|&&point| usize::from(board.next[point]) == first)?;
            board.chains[slot].last = *last as u16;
        }
        Some(())
    },
}
