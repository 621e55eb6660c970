//! Single fields and bytes, whatever they mean.

use super::{kinds, Kind};
use samtrekhu::raw::{Game, LIBERTY_BYTES};

/// Sets a field to a random, neighbouring or extreme value of its type.
macro_rules! wild {
    ($field:ident $(. $more:ident)*: $type:ty) => {
        |s| {
            let value = s.game.$field$(.$more)* as u64;
            s.game.$field$(.$more)* = s.wild(value, <$type>::MAX as u64) as $type;
            Some(())
        }
    };
}

/// The same for a field of a chain: mostly of a used slot.
macro_rules! wild_chain {
    ($field:ident: $type:ty) => {
        |s| {
            let slot = s.any_slot();
            let value = s.game.board.chains[slot].$field as u64;
            s.game.board.chains[slot].$field = s.wild(value, <$type>::MAX as u64) as $type;
            Some(())
        }
    };
}

kinds! {
    // every field
    "height": wild!(board.height: u8),
    "width": wild!(board.width: u8),
    "hash": wild!(board.hash: u64),
    "owner of a point": |s| {
        let point = s.any_point();
        s.game.board.owners[point] = s.wild(s.game.board.owners[point].into(), u16::MAX.into()) as u16;
        Some(())
    },
    "link of a point": |s| {
        let point = s.any_point();
        s.game.board.next[point] = s.wild(s.game.board.next[point].into(), u16::MAX.into()) as u16;
        Some(())
    },
    "liberty byte": |s| {
        let (slot, at) = (s.any_slot(), s.random.below(LIBERTY_BYTES));
        let value = s.game.board.chains[slot].liberties[at];
        s.game.board.chains[slot].liberties[at] = s.wild(value.into(), u8::MAX.into()) as u8;
        Some(())
    },
    "chain's colour": wild_chain!(colour: u8),
    "chain's origin": wild_chain!(origin: u16),
    "chain's last": wild_chain!(last: u16),
    "chain's count": wild_chain!(count: u16),
    "flags": wild!(flags: u8),
    "turn": wild!(turn: u8),
    "passes": wild!(passes: u8),
    "outcome": wild!(outcome: u8),
    "begun": wild!(begun: u8),
    "ko": wild!(ko: u16),
    "handicap": wild!(handicap: u16),
    "accepted": wild!(accepted: u16),
    "held Black": wild!(held.black: u32),
    "held White": wild!(held.white: u32),
    "put Black": wild!(put.black: u32),
    "put White": wild!(put.white: u32),
    "records": wild!(records: usize),

    // bytes
    "a bit turned": |s| { s.turn_bits(1) },
    "some bits turned": |s| { let bits = 2 + s.random.below(7); s.turn_bits(bits) },
    "a stretch of random bytes": |s| {
        let (from, many) = (s.random.below(size_of::<Game>()), 1 + s.random.below(64));
        let random = &mut *s.random;
        bytes(s.game)[from..].iter_mut().take(many).for_each(|byte| *byte = random.byte());
        Some(())
    },
    "all bytes random": |s| {
        let random = &mut *s.random;
        bytes(s.game).chunks_mut(8).for_each(|eight| eight.copy_from_slice(&random.next().to_le_bytes()[..eight.len()]));
        Some(())
    },
    "all bytes random, size and flags right": |s| {
        let (height, width) = (s.game.board.height, s.game.board.width);
        let random = &mut *s.random;
        bytes(s.game).chunks_mut(8).for_each(|eight| eight.copy_from_slice(&random.next().to_le_bytes()[..eight.len()]));
        (s.game.board.height, s.game.board.width) = (height, width);
        s.game.flags &= 15;
        Some(())
    },
    "all bytes one byte": |s| {
        let byte = s.random.pick(&[0, 1, 2, 0x7F, 0x80, 0xFE, 0xFF])?;
        bytes(s.game).fill(byte);
        Some(())
    },
}

/// Every byte of a game, those between fields too. Any bytes are a game.
pub fn bytes(game: &mut Game) -> &mut [u8] {
    unsafe { std::slice::from_raw_parts_mut((game as *mut Game).cast(), size_of::<Game>()) }
}
