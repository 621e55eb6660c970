//! The named ways of damage. Each takes any state at all, since others may have damaged it before, and says whether it found what it needs.
//! Some leave a true state true on purpose.

mod boards;
mod fields;
pub mod free;
mod links;
mod owners;
mod sizes;
mod slots;
mod sums;

use crate::made::{area, beside, hash, hold, joined, lay_out, liberties, settle, stones, FREE};
use random::Random;
use samtrekhu::raw::{Chain, Game, LIBERTY_BYTES, MAX_AREA, NO_CHAIN, SLOTS};
use std::sync::LazyLock;

/// A state to damage, and what it is damaged with.
pub struct Scene<'a> {
    pub game: &'a mut Game,
    /// a true state of another game
    pub other: &'a Game,
    /// bytes of history lent to it
    pub lent: usize,
    pub random: &'a mut Random,
}

pub struct Kind {
    pub name: &'static str,
    pub damage: fn(&mut Scene) -> Option<()>,
}

/// The kinds of one subject, each with a name.
macro_rules! kinds {
    ($($name:literal: $damage:expr),* $(,)?) => {
        pub const KINDS: &[Kind] = &[$(Kind { name: $name, damage: $damage }),*];
    };
}
use kinds;

/// All kinds, by subject.
pub static KINDS: LazyLock<Vec<&Kind>> = LazyLock::new(|| {
    let subjects = [fields::KINDS, sizes::KINDS, owners::KINDS, links::KINDS, slots::KINDS, sums::KINDS, boards::KINDS, free::KINDS];
    subjects.into_iter().flatten().collect()
});

impl Scene<'_> {
    fn wild(&mut self, value: u64, most: u64) -> u64 {
        let random = &mut *self.random;
        let wild = match random.below(8) {
            0 => random.next(),
            1 => value.wrapping_add(1),
            2 => value.wrapping_sub(1),
            3 => 0,
            4 => most,
            5 => value ^ 1 << random.below(64),
            6 => most - random.below(3) as u64,
            _ => random.below(400) as u64,
        };
        wild & most
    }

    fn turn_bits(&mut self, bits: usize) -> Option<()> {
        for _ in 0..bits {
            let (at, bit) = (self.random.below(size_of::<Game>()), self.random.below(8));
            fields::bytes(self.game)[at] ^= 1 << bit;
        }
        Some(())
    }

    fn colour(&mut self) -> u8 {
        1 + self.random.byte() % 2
    }

    fn any_point(&mut self) -> usize {
        let all = area(&self.game.board);
        if all == 0 || self.random.one_in(4) {
            self.random.below(MAX_AREA)
        } else {
            self.random.below(all)
        }
    }

    fn board_point(&mut self) -> Option<usize> {
        let all = area(&self.game.board);
        (all != 0).then(|| self.random.below(all))
    }

    fn empty_point(&mut self) -> Option<usize> {
        let board = &self.game.board;
        let points: Vec<usize> = (0..area(board)).filter(|&point| board.owners[point] == NO_CHAIN).collect();
        self.random.pick(&points)
    }

    fn stone(&mut self) -> Option<usize> {
        let board = &self.game.board;
        let points: Vec<usize> = (0..area(board)).filter(|&point| board.owners[point] < NO_CHAIN).collect();
        self.random.pick(&points)
    }

    fn slots(&self, least: u16) -> Vec<usize> {
        (0..SLOTS).filter(|&slot| self.game.board.chains[slot].count >= least).collect()
    }

    fn slot(&mut self) -> Option<usize> {
        let slots = self.slots(1);
        self.random.pick(&slots)
    }

    /// A slot whose chain has at least so many stones.
    fn long_slot(&mut self, least: u16) -> Option<usize> {
        let mut slots = self.slots(least);
        slots.retain(|&slot| stones(&self.game.board, slot).len() >= least.into());
        self.random.pick(&slots)
    }

    fn long_chain(&mut self, least: u16) -> Option<Vec<usize>> {
        let slot = self.long_slot(least)?;
        Some(stones(&self.game.board, slot))
    }

    fn free_slot(&mut self) -> Option<usize> {
        let slots: Vec<usize> = (0..SLOTS).filter(|&slot| self.game.board.chains[slot].count == 0).collect();
        self.random.pick(&slots)
    }

    fn any_slot(&mut self) -> usize {
        if self.random.one_in(6) {
            return self.random.below(SLOTS);
        }
        self.slot().unwrap_or(0)
    }

    fn random_chain(&mut self) -> Chain {
        let mut chain = FREE;
        chain.liberties.iter_mut().for_each(|byte| *byte = self.random.byte());
        (chain.colour, chain.origin, chain.last) = (self.random.byte(), self.random.next() as u16, self.random.next() as u16);
        chain
    }

    fn liberty(&mut self, slot: usize) -> Option<usize> {
        let set = &self.game.board.chains[slot].liberties;
        let points: Vec<usize> = (0..8 * LIBERTY_BYTES).filter(|point| set[point / 8] >> (point % 8) & 1 == 1).collect();
        self.random.pick(&points)
    }

    fn set_liberty(&mut self, slot: usize, point: usize) -> Option<()> {
        *self.game.board.chains[slot].liberties.get_mut(point / 8)? |= 1 << (point % 8);
        Some(())
    }

    /// Gives these slots the liberties of what they own.
    fn exact(&mut self, slots: &[usize]) {
        for &slot in slots {
            let board = &mut self.game.board;
            board.chains[slot].liberties = liberties(board, &stones(board, slot));
        }
    }

    /// A chain cut in two parts that are each connected: what grows from one stone, and the rest if it holds together.
    fn cut(&mut self) -> Option<([Vec<usize>; 2], usize)> {
        let slot = self.long_slot(2)?;
        let board = &self.game.board;
        let points = stones(board, slot);
        let mut part = vec![MAX_AREA; MAX_AREA];
        points.iter().for_each(|&point| part[point] = 0);
        let mut one = vec![self.random.pick(&points)?];
        part[one[0]] = 1;
        for _ in 1..1 + self.random.below(points.len() - 1) {
            let from = self.random.pick(&one)?;
            let near: Vec<usize> = beside(board, from).into_iter().filter(|&point| part[point] == 0).collect();
            if let Some(point) = self.random.pick(&near) {
                part[point] = 1;
                one.push(point);
            }
        }
        let rest: Vec<usize> = points.into_iter().filter(|&point| part[point] == 0).collect();
        (joined(board, &part, *rest.first()?).len() == rest.len()).then_some(([one, rest], slot))
    }

    fn split(&mut self, slot: usize, [one, rest]: &[Vec<usize>; 2]) -> Option<()> {
        let (free, colour) = (self.free_slot()?, self.game.board.chains[slot].colour);
        hold(&mut self.game.board, slot, colour, one, self.random);
        hold(&mut self.game.board, free, colour, rest, self.random);
        self.exact(&[slot, free]);
        Some(())
    }

    /// Two chains become one slot's, with links, count and liberties to fit; with `hash_fits` the hash and the sums too.
    fn unite(&mut self, one_colour: bool, hash_fits: bool, corners: bool) -> Option<()> {
        let slot = self.slot()?;
        let board = &self.game.board;
        let (colour, points) = (board.chains[slot].colour, stones(board, slot));
        let corner = |one: usize, other: usize| {
            let width = usize::from(board.width).max(1);
            (one / width).abs_diff(other / width) == 1 && (one % width).abs_diff(other % width) == 1
        };
        let meets = |other: usize| stones(board, other).iter().any(|&b| points.iter().any(|&a| corner(a, b)));
        let mut slots = self.slots(1);
        slots.retain(|&other| other != slot && (board.chains[other].colour == colour) == one_colour && (!corners || meets(other)));
        let other = self.random.pick(&slots)?;
        let mut all = points;
        all.extend(stones(&self.game.board, other));
        if all.is_empty() {
            return None;
        }
        self.game.board.chains[other].count = 0;
        hold(&mut self.game.board, slot, colour, &all, self.random);
        self.exact(&[slot]);
        if hash_fits {
            self.game.board.hash = hash(&self.game.board);
            settle(self.game);
        }
        Some(())
    }

    fn turn_slot(&mut self) -> Option<()> {
        let slot = self.slot()?;
        let board = &mut self.game.board;
        board.chains[slot].colour = 3u8.wrapping_sub(board.chains[slot].colour);
        board.hash = hash(board);
        Some(())
    }

    fn more(&mut self, more: u32) -> Option<()> {
        let game = &mut *self.game;
        let (held, put) =
            if self.random.one_in(2) { (&mut game.held.black, &mut game.put.black) } else { (&mut game.held.white, &mut game.put.white) };
        (*held, *put) = (held.wrapping_add(more), put.wrapping_add(more));
        game.accepted = game.accepted.wrapping_add(more as u16);
        Some(())
    }

    fn lay_colours(&mut self, mut colour: impl FnMut(usize, &mut Random) -> u8) -> Option<()> {
        let all = area(&self.game.board);
        let colours: Vec<u8> = (0..all).map(|point| colour(point, self.random)).collect();
        lay_out(&mut self.game.board, &colours, self.random).then_some(())?;
        settle(self.game);
        Some(())
    }
}
