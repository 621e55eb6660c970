//! What slots hold, their liberties, and the hash.

use super::{kinds, Kind};
use crate::judge::stone_hash;
use crate::made::{area, colour_at, hash, hold, liberties, settle, stones};
use samtrekhu::raw::colours::{BLACK, WHITE};
use samtrekhu::raw::{Chain, LIBERTY_BYTES, MAX_AREA, NO_CHAIN};

kinds! {
    // slots and what they hold
    "chain split, each part exact": |s| {
        let (parts, slot) = s.cut()?;
        s.split(slot, &parts)
    },
    "chain split, stones at random": |s| {
        let slot = s.long_slot(2)?;
        let points = stones(&s.game.board, slot);
        let from = s.free_slot()?;
        let random = &mut *s.random;
        let (mut one, mut other): (Vec<usize>, Vec<usize>) = points.iter().partition(|_| random.one_in(2));
        if one.is_empty() || other.is_empty() {
            return None;
        }
        std::mem::swap(&mut one, &mut other);
        let colour = s.game.board.chains[slot].colour;
        hold(&mut s.game.board, slot, colour, &one, s.random);
        hold(&mut s.game.board, from, colour, &other, s.random);
        s.exact(&[slot, from]);
        Some(())
    },
    "two chains of one colour in one slot": |s| { s.unite(true, true, false) },
    "two chains of one colour in one slot, corners touching": |s| { s.unite(true, true, true) },
    "two chains of two colours in one slot": |s| { s.unite(false, false, false) },
    "two chains of two colours in one slot, hash to fit": |s| { s.unite(false, true, false) },
    "slot's colour turned": |s| {
        let slot = s.slot()?;
        let chain = &mut s.game.board.chains[slot];
        chain.colour = 3u8.wrapping_sub(chain.colour);
        Some(())
    },
    "slot's colour turned, hash to fit": |s| { s.turn_slot() },
    "slot's colour turned, hash and sums to fit": |s| {
        s.turn_slot()?;
        settle(s.game);
        Some(())
    },
    "colour no colour": |s| {
        let slot = s.slot()?;
        s.game.board.chains[slot].colour = s.random.pick(&[0, 3, 4, 129, 130, 255])?;
        Some(())
    },
    "a chain in two slots": |s| {
        let (slot, free) = (s.slot()?, s.free_slot()?);
        s.game.board.chains[free] = s.game.board.chains[slot];
        Some(())
    },
    "a chain in two slots, its points shared": |s| {
        let (slot, free) = (s.long_slot(2)?, s.free_slot()?);
        s.game.board.chains[free] = s.game.board.chains[slot];
        for point in stones(&s.game.board, slot) {
            if s.random.one_in(2) {
                s.game.board.owners[point] = free as u16;
            }
        }
        Some(())
    },
    "a used slot without a stone": |s| {
        let (slot, point) = (s.free_slot()?, s.board_point()? as u16);
        let count = s.random.pick(&[1, 2, 361, u16::MAX])?;
        let board = &mut s.game.board;
        board.chains[slot] = Chain { liberties: [0; LIBERTY_BYTES], colour: BLACK, origin: point, last: point, count };
        board.chains[slot].liberties = liberties(board, &[point.into()]);
        Some(())
    },
    "a used slot's count 0": |s| {
        let slot = s.slot()?;
        s.game.board.chains[slot].count = 0;
        Some(())
    },
    "two slots swapped": |s| {
        let (one, other) = (s.any_slot(), s.any_slot());
        s.game.board.chains.swap(one, other);
        Some(())
    },
    "count one too many or too few": |s| {
        let (slot, add) = (s.slot()?, s.random.pick(&[1, u16::MAX])?);
        let chain = &mut s.game.board.chains[slot];
        chain.count = chain.count.wrapping_add(add);
        Some(())
    },
    "a stone moved from one chain's count to another's": |s| {
        let (one, other) = (s.slot()?, s.slot()?);
        let chains = &mut s.game.board.chains;
        chains[one].count = chains[one].count.wrapping_add(1);
        chains[other].count = chains[other].count.wrapping_sub(1);
        Some(())
    },
    "counts that go over": |s| {
        // right modulo a power of 2, or right in sum
        let (one, other) = (s.slot()?, s.slot()?);
        let more = s.random.pick(&[0x100, 0x8000])?;
        let chains = &mut s.game.board.chains;
        chains[one].count = chains[one].count.wrapping_add(more);
        if one != other {
            chains[other].count = chains[other].count.wrapping_sub(more);
        }
        Some(())
    },
    "a chain that goes on beyond the area": |s| {
        let (slot, all) = (s.slot()?, area(&s.game.board));
        let width = usize::from(s.game.board.width);
        let point = s.random.pick(&[all, all + width / 2, MAX_AREA - 1])?;
        if point < all || point >= MAX_AREA {
            return None;
        }
        let board = &mut s.game.board;
        let chain = &mut board.chains[slot];
        *board.next.get_mut(usize::from(chain.last))? = point as u16;
        board.next[point] = chain.origin;
        board.owners[point] = slot as u16;
        (chain.last, chain.count) = (point as u16, chain.count.wrapping_add(1));
        if s.random.one_in(2) {
            board.hash ^= stone_hash(point, chain.colour);
        }
        Some(())
    },
    "a stone laid, the neighbours' liberties old": |s| {
        let (point, slot) = (s.empty_point()?, s.free_slot()?);
        let colour = s.colour();
        hold(&mut s.game.board, slot, colour, &[point], s.random);
        s.exact(&[slot]);
        s.game.board.hash ^= stone_hash(point, colour);
        settle(s.game);
        Some(())
    },
    "a chain lifted, the neighbours' liberties old": |s| {
        let slot = s.slot()?;
        let board = &mut s.game.board;
        for point in stones(board, slot) {
            board.owners[point] = NO_CHAIN;
        }
        board.chains[slot].count = 0;
        board.hash = hash(board);
        settle(s.game);
        Some(())
    },

    // liberties
    "a liberty too many, an empty point": |s| {
        let (slot, point) = (s.slot()?, s.empty_point()?);
        s.set_liberty(slot, point)
    },
    "a liberty too many, a stone": |s| {
        let (slot, point) = (s.slot()?, s.stone()?);
        s.set_liberty(slot, point)
    },
    "a liberty too few": |s| {
        let slot = s.slot()?;
        let point = s.liberty(slot)?;
        s.game.board.chains[slot].liberties[point / 8] &= !(1 << (point % 8));
        Some(())
    },
    "no liberty": |s| {
        let slot = s.slot()?;
        s.game.board.chains[slot].liberties = [0; LIBERTY_BYTES];
        Some(())
    },
    "a liberty moved": |s| {
        let slot = s.slot()?;
        let point = s.liberty(slot)?;
        let to = if s.random.one_in(2) { point + 1 } else { point.checked_sub(1)? };
        s.game.board.chains[slot].liberties[point / 8] &= !(1 << (point % 8));
        s.set_liberty(slot, to)
    },
    "liberties moved by one": |s| {
        let slot = s.slot()?;
        let set = &mut s.game.board.chains[slot].liberties;
        let mut over = 0;
        for byte in set {
            (*byte, over) = (*byte << 1 | over, *byte >> 7);
        }
        Some(())
    },
    "liberties of two chains swapped": |s| {
        let (one, other) = (s.slot()?, s.slot()?);
        let chains = &mut s.game.board.chains;
        (chains[one].liberties, chains[other].liberties) = (chains[other].liberties, chains[one].liberties);
        Some(())
    },
    "a liberty beyond the area": |s| {
        let (slot, all) = (s.slot()?, area(&s.game.board));
        let point = if s.random.one_in(2) { all } else { all + s.random.below(8 * LIBERTY_BYTES - all) };
        s.set_liberty(slot, point)
    },
    "a liberty in the last byte's unused bits": |s| {
        let (slot, point) = (s.slot()?, MAX_AREA + s.random.below(8 * LIBERTY_BYTES - MAX_AREA));
        s.set_liberty(slot, point)
    },

    // hash
    "hash with a stone's colour turned": |s| {
        let point = s.stone()?;
        s.game.board.hash ^= stone_hash(point, BLACK) ^ stone_hash(point, WHITE);
        Some(())
    },
    "hash with a stone more or less": |s| {
        let (point, colour) = (s.any_point(), s.colour());
        s.game.board.hash ^= stone_hash(point, colour);
        Some(())
    },
    "hash of a stone elsewhere": |s| {
        let (from, to) = (s.stone()?, s.board_point()?);
        let colour = colour_at(&s.game.board, from);
        s.game.board.hash ^= stone_hash(from, colour) ^ stone_hash(to, colour);
        Some(())
    },
    "hash 0": |s| {
        s.game.board.hash = 0;
        Some(())
    },
}
