//! Sums and the other small numbers of a game.

use super::{kinds, Kind};
use crate::made::{area, clear, on_board, settle};
use samtrekhu::raw::{Tally, NO_POINT, RECORD_BYTES};

kinds! {
    // sums
    "held and put more, accepted to fit": |s| {
        let more = 1 + s.random.below(70_000) as u32;
        s.more(more)
    },
    "held and put more, accepted to fit up to the limit": |s| {
        let room = u16::MAX - s.game.accepted;
        let more = s.random.pick(&[room.into(), u32::from(room) + 1, u32::from(room).saturating_sub(1)])?;
        s.more(more)
    },
    "held and put more, accepted as it was": |s| {
        let more = 1 + s.random.below(9) as u32;
        let accepted = s.game.accepted;
        s.more(more)?;
        s.game.accepted = accepted;
        Some(())
    },
    "a stone put moved to the other colour": |s| {
        let put = &mut s.game.put;
        (put.black, put.white) = (put.black.wrapping_add(1), put.white.wrapping_sub(1));
        if s.random.one_in(2) {
            // still true where a White stone is held
            let held = &mut s.game.held;
            (held.black, held.white) = (held.black.wrapping_add(1), held.white.wrapping_sub(1));
        }
        Some(())
    },
    "handicap for accepted stones": |s| {
        let most = u32::from(s.game.accepted) + u32::from(s.game.handicap);
        let all = u32::from(s.game.handicap);
        let handicap = s.random.pick(&[all.wrapping_add(1), all.wrapping_sub(1), most, 0, 361, 362])?;
        if handicap > most {
            return None;
        }
        (s.game.handicap, s.game.accepted) = (handicap as u16, (most - handicap) as u16);
        Some(())
    },
    "handicap about its limit, sums to fit": |s| {
        s.game.held = Tally { black: 362 + s.random.below(9) as u32, white: s.random.below(9) as u32 };
        s.game.handicap = 0;
        settle(s.game);
        let all = s.game.accepted;
        let handicap = s.random.pick(&[360, 361, 362, 363, all])?;
        (s.game.handicap, s.game.accepted) = (handicap, all - handicap);
        Some(())
    },
    "sums that hold only by going over": |s| {
        // put = stones + held holds modulo 2^32 alone, or both puts together do
        let stones = on_board(&s.game.board);
        settle(s.game);
        match s.random.below(4) {
            0 => {
                let less = 1 + s.random.below(9) as u32;
                (s.game.held.black, s.game.put.black) = (0u32.wrapping_sub(less), stones.black.wrapping_sub(less));
            }
            1 => {
                let less = 1 + s.random.below(9) as u32;
                (s.game.held.white, s.game.put.white) = (0u32.wrapping_sub(less), stones.white.wrapping_sub(less));
            }
            2 => {
                let half = 1 << 31;
                let (held, put) = (&mut s.game.held, &mut s.game.put);
                (held.black, held.white) = (held.black.wrapping_add(half), held.white.wrapping_add(half));
                (put.black, put.white) = (put.black.wrapping_add(half), put.white.wrapping_add(half));
            }
            _ => {
                // accepted stones alone go over
                let (held, put) = (&mut s.game.held, &mut s.game.put);
                (held.black, put.black) = (held.black.wrapping_add(1 << 16), put.black.wrapping_add(1 << 16));
            }
        }
        if s.random.one_in(2) {
            s.game.accepted = s.game.put.black.wrapping_add(s.game.put.white).wrapping_sub(s.game.handicap.into()) as u16;
        }
        Some(())
    },
    "stones held of the wrong colour": |s| {
        let held = &mut s.game.held;
        std::mem::swap(&mut held.black, &mut held.white);
        Some(())
    },
    "held stones forgotten": |s| {
        s.game.held = Tally { black: 0, white: 0 };
        Some(())
    },

    // the small numbers of a game
    "flags about their limit": |s| {
        s.game.flags = s.random.pick(&[0, 14, 15, 16, 17, 31, 32, 128, 255])?;
        Some(())
    },
    "passes about their limit": |s| {
        s.game.passes = s.random.pick(&[0, 1, 2, 3, 4, 255])?;
        Some(())
    },
    "ko about the area": |s| {
        let all = area(&s.game.board) as u16;
        s.game.ko = s.random.pick(&[0, all.wrapping_sub(1), all, all.wrapping_add(1), 360, 361, 0x7FFF, 65534, NO_POINT])?;
        Some(())
    },
    "records about the capacity": |s| {
        let capacity = s.lent / RECORD_BYTES;
        s.game.records = s.random.pick(&[0, capacity.wrapping_sub(1), capacity, capacity + 1, usize::MAX, usize::MAX / 100, 1 << 32])?;
        Some(())
    },
    "not begun though it is": |s| {
        s.game.begun = 0;
        Some(())
    },
    "not begun, one thing set": |s| {
        clear(s.game);
        let one = 1 + s.random.byte() % 3;
        match s.random.below(9) {
            0 => s.game.passes = one,
            1 => s.game.outcome = one,
            2 => s.game.records = one.into(),
            3 => s.game.turn = one,
            4 => s.game.ko = s.board_point()? as u16,
            5 => {
                (s.game.held.black, s.game.put.black, s.game.accepted) = (one.into(), one.into(), one.into());
            }
            6 => {
                (s.game.held.white, s.game.put.white, s.game.handicap) = (one.into(), one.into(), one.into());
            }
            7 => s.game.begun = one,
            _ => {}
        }
        Some(())
    },
    "not begun, with stones and their sums": |s| {
        (s.game.begun, s.game.records, s.game.passes, s.game.outcome) = (0, 0, 0, 0);
        Some(())
    },
    "not begun, sums 0 over a board with stones": |s| {
        (s.game.begun, s.game.records, s.game.passes, s.game.outcome, s.game.handicap, s.game.accepted) = (0, 0, 0, 0, 0, 0);
        (s.game.held, s.game.put) = (Tally { black: 0, white: 0 }, Tally { black: 0, white: 0 });
        Some(())
    },
}
