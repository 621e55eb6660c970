//! Histories that are lent and histories that grow.

use samtrekhu::raw::RECORD_BYTES;
use samtrekhu::{Flags, Game, History, Move, Refusal, Stopped};

/// Stones that never meet, each on a board that is not recorded yet.
const STONES: [Move; 4] = [Move::stone(0, 0), Move::stone(8, 8), Move::stone(0, 8), Move::stone(8, 0)];
const FILL: u8 = 0xA5;

/// Plays the stones and answers how many were accepted.
fn played<H: History>(game: &mut Game<H>) -> usize {
    match game.replay(&STONES) {
        Ok(()) => STONES.len(),
        Err(Stopped { accepted, refusal }) => {
            assert_eq!(refusal, Refusal::HistoryFull);
            accepted
        }
    }
}

#[test]
fn lent_bytes_of_every_length() {
    for length in 0..=3 * RECORD_BYTES + 1 {
        let room = length / RECORD_BYTES;
        let mut bytes = vec![FILL; length];
        let mut game = Game::with_history(9, 9, Flags::NONE, &mut bytes[..]).unwrap();
        assert_eq!(played(&mut game), room, "{length} bytes");
        let facts = game.facts().unwrap();
        assert_eq!((facts.records, usize::from(facts.accepted)), (room, room));
        assert_eq!(game.stone((4, 4)), Err(Refusal::HistoryFull));
        assert_eq!(game.check_point((4, 4)), Ok(()), "a check needs no room");
        assert!(game.is_true());
        // each record ends in a zero byte, and what is beyond the capacity is as it was
        assert!((1..=room).all(|record| bytes[record * RECORD_BYTES - 1] == 0));
        assert!(bytes[room * RECORD_BYTES..].iter().all(|&byte| byte == FILL));
    }
}

#[test]
fn every_kind_of_history_serves() {
    let mut slice = [FILL; 250];
    assert_eq!(played(&mut Game::with_history(9, 9, Flags::NONE, &mut slice[..]).unwrap()), 2);
    assert_eq!(played(&mut Game::with_history(9, 9, Flags::NONE, [FILL; 250]).unwrap()), 2);
    assert_eq!(played(&mut Game::with_history(9, 9, Flags::NONE, vec![FILL; 250].into_boxed_slice()).unwrap()), 2);
    let mut growing = Game::with_history(9, 9, Flags::NONE, vec![FILL; 250]).unwrap();
    assert_eq!(played(&mut growing), STONES.len());
    assert_eq!(growing.history()[..200], slice[..200]);
    assert_eq!(played(&mut Game::with_history(9, 9, Flags::NONE, &mut [][..]).unwrap()), 0);
}

/// A history that grows on the way gives what one gives that was long enough from the start, by calls and by a replay.
#[test]
fn growing_is_not_seen() {
    let mut moves = Vec::new();
    for round in 0..6 {
        moves.extend((0..19 * 19u16).filter(|point| point % 7 == round).map(|point| Move::stone((point / 19) as u8, (point % 19) as u8)));
        moves.push(Move::Pass);
    }
    let flags = Flags::KO | Flags::SUPERKO;
    let mut ample = Game::with_history(19, 19, flags, vec![0; 1_000 * RECORD_BYTES]).unwrap();
    let mut by_calls = Game::new(19, 19, flags).unwrap();
    let mut by_replay = Game::new(19, 19, flags).unwrap();
    let mut at = 0;
    while let Err(Stopped { accepted, .. }) = ample.replay(&moves[at..]) {
        // the refused move is left out
        moves.remove(at + accepted);
        at += accepted;
    }
    assert_eq!(by_replay.replay(&moves), Ok(()));
    moves.iter().for_each(|&play| assert_eq!(by_calls.play(play), Ok(())));
    let records = ample.facts().unwrap().records;
    assert!(records > 250, "a long game has {records} records");
    for game in [&by_calls, &by_replay] {
        assert!(game.raw() == ample.raw());
        assert_eq!(game.history()[..records * RECORD_BYTES], ample.history()[..records * RECORD_BYTES]);
        assert!(game.history().len() < 2 * records * RECORD_BYTES, "it grows by half at most");
    }
}

#[test]
fn a_state_and_its_history_come_out_and_go_in_again() {
    let mut game = Game::new(9, 9, Flags::SUPERKO).unwrap();
    game.replay(&STONES).unwrap();
    let (state, history) = game.clone().into_raw();
    let mut again = Game::from_raw(state, history);
    assert_eq!((game.stone((4, 4)), again.stone((4, 4))), (Ok(()), Ok(())));
    assert!(game.raw() == again.raw() && game.history() == again.history());
}
