//! Every refusal is reached, and has changed nothing.

mod common;

use common::{after, game};
use samtrekhu::raw::{self, answers, MAX_STONES};
use samtrekhu::{Board, Flags, Game, Move, Player, Point, Refusal, Stopped};
use std::error::Error;

fn damaged() -> Game {
    let (mut state, history) = game(9, 9, Flags::NONE).into_raw();
    state.board.hash ^= 1;
    Game::from_raw(state, history)
}

/// The refusal of a call, after which the game is as before, number for number and byte for byte.
fn refusal(mut game: Game, call: impl FnOnce(&mut Game) -> Result<(), Refusal>) -> Refusal {
    let before = game.clone();
    let refusal = call(&mut game).expect_err("a refusal");
    assert!(game.raw() == before.raw(), "{refusal:?} has changed the state");
    assert!(game.history() == before.history(), "{refusal:?} has changed the history");
    refusal
}

fn replayed(game: Game, moves: &[raw::Move]) -> Refusal {
    refusal(game, |game| game.replay_raw(moves).map_err(|stopped| stopped.refusal))
}

/// All stones that a game takes, one after the other off the one point of the board.
fn endless() -> Game {
    let mut game = game(1, 1, Flags::NONE);
    game.replay(&vec![Move::stone(0, 0); MAX_STONES.into()]).expect("as many stones as a game takes");
    game
}

fn paused() -> Game {
    let mut game = game(9, 9, Flags::NONE);
    game.replay(&[Move::Pass, Move::Pass]).expect("two passes");
    game
}

fn full() -> Refusal {
    let mut bytes = [7; 199];
    let mut game = Game::with_history(9, 9, Flags::NONE, &mut bytes[..]).unwrap();
    game.stone((0, 0)).unwrap();
    let (state, before) = (*game.raw(), game.history().to_vec());
    let refusal = game.stone((0, 1)).unwrap_err();
    assert!(*game.raw() == state && game.history() == before);
    refusal
}

#[test]
fn every_refusal_is_reached() {
    let unknown = raw::Move { kind: 5, row: 0, column: 0 };
    let reached = [
        Game::new(20, 9, Flags::NONE).unwrap_err(),
        Game::new(9, 9, Flags::from_byte(16)).unwrap_err(),
        refusal(damaged(), |game| game.stone((0, 0))),
        refusal(paused(), |game| game.stone((0, 0))),
        refusal(game(9, 9, Flags::ALL), |game| game.stone((9, 0))),
        refusal(after(9, 9, Flags::ALL, &[(0, 0)]), |game| game.stone((0, 0))),
        refusal(game(1, 1, Flags::ALL), |game| game.stone((0, 0))),
        refusal(after(1, 2, Flags::KO, &[(0, 0), (0, 1)]), |game| game.stone((0, 0))),
        refusal(game(1, 1, Flags::FILLEYE), |game| game.stone((0, 0))),
        refusal(endless(), |game| game.stone((0, 0))),
        full(),
        refusal(after(9, 9, Flags::NONE, &[(0, 0)]), |game| game.handicap(&[Point::new(4, 4)])),
        Board::from_bytes(1, 1, &[1]).unwrap_err(),
        Board::from_bytes(2, 2, &[0, 0, 0]).unwrap_err(),
        Board::from_bytes(2, 2, &[0, 0, 0, 3]).unwrap_err(),
        replayed(game(9, 9, Flags::NONE), &[unknown]),
    ];
    assert_eq!(reached, Refusal::ALL);
}

#[test]
fn every_call_refuses_a_damaged_state() {
    let mut game = damaged();
    let before = game.clone();
    let no = Refusal::Damaged;
    assert!(!game.is_true());
    assert_eq!(game.stone((0, 0)), Err(no));
    assert_eq!(game.pass(), Err(no));
    assert_eq!(game.resign(Player::Black), Err(no));
    assert_eq!(game.resume(), Err(no));
    assert_eq!(game.handicap(&[]), Err(no));
    assert_eq!(game.replay(&[]), Err(Stopped { accepted: 0, refusal: no }));
    assert_eq!(game.check_point((0, 0)), Err(no));
    assert_eq!(game.check_point_by(Flags::from_byte(255), (0, 0)), Err(no));
    assert_eq!(game.legals().unwrap_err(), no);
    assert_eq!(game.legals_by(Flags::from_byte(255)).unwrap_err(), no);
    assert_eq!(game.empty_points().unwrap_err(), no);
    assert_eq!(game.facts(), Err(no));
    assert_eq!(game.board().unwrap_err(), no);
    assert_eq!(game.will_capture((0, 0)), Err(no));
    assert_eq!(game.is_suicide_at((0, 0)), Err(no));
    assert_eq!(game.is_ko_at((0, 0)), Err(no));
    assert_eq!(game.is_eye_at((0, 0)), Err(no));
    assert_eq!(game.is_superko_at((0, 0)), Err(no));
    assert!(game.raw() == before.raw() && game.history() == before.history());

    let board = Board::from_raw(game.raw().board);
    assert!(!board.is_true());
    assert_eq!(board.size(), Err(no));
    assert_eq!(board.zobrist_hash(), Err(no));
    assert_eq!(board.number_of_stones(), Err(no));
    assert_eq!(board.number_of_chains(), Err(no));
    assert_eq!(board.get_color((0, 0)), Err(no));
    assert_eq!(board.has_liberties((0, 0)), Err(no));
    assert_eq!(board.chain_at((0, 0)), Err(no));
    assert_eq!(board.contains_liberty((0, 0), (0, 1)), Err(no));
    assert_eq!(board.get_stones().unwrap_err(), no);
    assert_eq!(board.get_coords_by_color(samtrekhu::Colour::Black).unwrap_err(), no);
    assert_eq!(board.get_empty_coords().unwrap_err(), no);
    assert_eq!(board.chain_stones((0, 0)).unwrap_err(), no);
    assert_eq!(board.chain_liberties((0, 0)).unwrap_err(), no);
    assert_eq!(board.get_connected_points((0, 0)).unwrap_err(), no);
    assert_eq!(board.get_connected_stones((0, 0)).unwrap_err(), no);
    assert_eq!(board.get_liberties((0, 0)).unwrap_err(), no);
    assert_eq!(board.get_connected_groups((0, 0)).unwrap_err(), no);
    assert_eq!(board.to_vec(), Err(no));
    assert_eq!(board.pretty_string(), Err(no));
}

/// One number of a true state is changed, each time another.
#[test]
fn a_change_of_any_fact_is_seen() {
    let game = after(5, 5, Flags::NONE, &[(0, 0), (4, 4), (0, 1), (3, 4), (1, 1)]);
    let changes: [fn(&mut raw::Game); 16] = [
        |game| game.board.height += 1,
        |game| game.board.width -= 1,
        |game| game.board.hash += 1,
        |game| game.board.owners[0] += 1,
        |game| game.board.owners[360] = 0,
        |game| game.board.next[0] += 1,
        |game| game.board.chains[0].liberties[0] ^= 1,
        |game| game.board.chains[0].colour ^= 3,
        |game| game.board.chains[0].origin += 1,
        |game| game.board.chains[0].count += 1,
        |game| game.flags = 16,
        |game| game.passes = 3,
        |game| game.begun = 0,
        |game| game.held.white += 1,
        |game| game.put.black += 1,
        |game| game.records = usize::MAX,
    ];
    assert!(game.is_true());
    for (index, change) in changes.iter().enumerate() {
        let mut state = *game.raw();
        change(&mut state);
        let mut changed = Game::from_raw(state, game.history().to_vec());
        assert!(!changed.is_true(), "change {index}");
        assert_eq!(changed.stone((2, 2)), Err(Refusal::Damaged), "change {index}");
        assert!(*changed.raw() == state && changed.history() == game.history(), "change {index}");
    }
}

#[test]
fn a_history_that_is_not_all_there_is_damage() {
    let game = after(9, 9, Flags::NONE, &[(0, 0), (0, 1)]);
    for length in [0, 99, 100, 101, 199] {
        let mut short = Game::from_raw(*game.raw(), vec![0; length]);
        assert_eq!(short.stone((2, 2)), Err(Refusal::Damaged), "{length} bytes");
        assert_eq!(short.history(), vec![0; length]);
        assert_eq!(short.pass(), Ok(()), "a pass lends no history");
    }
}

#[test]
fn handicap_is_refused_in_order() {
    let point = Point::new;
    let start = || game(9, 9, Flags::NONE);
    assert_eq!(refusal(start(), |game| game.handicap(&[point(0, 0), point(9, 0), point(0, 0)])), Refusal::OffBoard);
    assert_eq!(refusal(start(), |game| game.handicap(&[point(0, 0), point(0, 0), point(9, 0)])), Refusal::PointNotEmpty);
    assert_eq!(refusal(start(), |game| game.handicap(&[point(255, 255)])), Refusal::OffBoard);
    assert_eq!(refusal(paused(), |game| game.handicap(&[point(9, 9)])), Refusal::NotAtStart);
}

#[test]
fn a_replay_keeps_what_it_accepted() {
    let mut game = game(9, 9, Flags::NONE);
    let stopped = game.replay(&[Move::stone(0, 0), Move::stone(0, 1), Move::stone(9, 9), Move::stone(0, 2)]).unwrap_err();
    assert_eq!(stopped, Stopped { accepted: 2, refusal: Refusal::OffBoard });
    assert_eq!(stopped.to_string(), "Refused after 2 moves. There is no such point on this board.");
    assert_eq!(stopped.source().unwrap().to_string(), Refusal::OffBoard.to_string());
    assert!(game.raw() == after(9, 9, Flags::NONE, &[(0, 0), (0, 1)]).raw());
}

#[test]
fn numbers_and_words() {
    assert_eq!(Refusal::from_number(answers::ACCEPTED), None);
    assert_eq!(Refusal::ALL.map(Refusal::number), [1, 2, 3, 4, 5, 6, 7, 8, 9, 10, 11, 12, 13, 14, 15, 18]);
    let mut sentences = Vec::new();
    for number in 1..=255 {
        let refusal = Refusal::from_number(number).expect("a refusal");
        assert_eq!(refusal.number(), number);
        assert_eq!(Refusal::ALL.contains(&refusal), refusal != Refusal::Other(number));
        let sentence = refusal.to_string();
        assert!(sentence.ends_with('.') && !sentences.contains(&sentence));
        sentences.push(sentence);
    }
    for kind in 0..=255 {
        let entry = raw::Move { kind, row: 3, column: 4 };
        match Move::try_from(entry) {
            Ok(play) => assert_eq!(raw::Move::from(play).kind, kind),
            Err(refusal) => assert!(kind > 4 && refusal == Refusal::BadKind),
        }
    }
}
